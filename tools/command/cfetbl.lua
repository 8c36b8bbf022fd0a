-- A Wireshark dissector for the packets of cFE Table Services: commands, housekeeping, events, registry records, notices.
-- Names and places come from names.tsv, which has to stand beside this file. The primary header is that of CCSDS 133.0-B,
-- the secondary headers are those of cFE's msg module.
--
--     wireshark -X lua_script:tools/command/cfetbl.lua CAPTURE        with a capture of `cfetbl show --pcap CAPTURE`
--
-- It takes datagrams to UDP port 1234 as commands, and those to 1235 as what the service sends. Telemetry may be in the layouts of
-- docs/reference/packets.md or in cFE's (`cfetbl serve --cfe-layout`): its length tells which, unless the preferences of the protocol say it.
-- Numbers in cFE's layouts begin with their low byte, unless they say otherwise:
--
--     tshark -X lua_script:tools/command/cfetbl.lua -o cfetbl.layout:cfe -o cfetbl.big_endian:TRUE -r CAPTURE

local COMMAND_PORT, TELEMETRY_PORT = 1234, 1235
local CFE_HEADER = 16
-- Which layouts telemetry has, as the preference says it.
local BY_LENGTH, OWN, OF_CFE = 0, 1, 2

local cfetbl = Proto("cfetbl", "cFE Table Services")
local choices = { { 1, "guess", BY_LENGTH }, { 2, "formats", OWN }, { 3, "cfe", OF_CFE } }
cfetbl.prefs.layout = Pref.enum("Layouts of packets", BY_LENGTH, "by their length, those of docs/reference/packets.md, or cFE's", choices, false)
cfetbl.prefs.big_endian = Pref.bool("Big-endian numbers in cFE's layouts", false, "numbers in payloads begin with their high byte")

-- The rows of names.tsv by section, each as the list of its columns.
local function read_names()
    local folder = debug.getinfo(1, "S").source:match("^@(.*[/\\])") or ""
    local sections = {}
    for line in assert(io.open(folder .. "names.tsv")):lines() do
        local columns = {}
        for column in (line:gsub("\r$", "") .. "\t"):gmatch("([^\t]*)\t") do
            columns[#columns + 1] = column
        end
        local section = table.remove(columns, 1)
        sections[section] = sections[section] or {}
        table.insert(sections[section], columns)
    end
    return sections
end

local names = read_names()

-- The number that programs share and that is this.
local function number(what)
    for _, row in ipairs(names.constant) do
        if row[1] == what then
            return tonumber(row[2])
        end
    end
    error("names.tsv has no constant " .. what)
end

local IS_COMMAND, LENGTH_BIAS = number("type bit of a command's message id"), number("bytes of a packet that its length field leaves out")

-- The words of the numbers of a form, by number.
local function words_of(form)
    local words = {}
    for _, row in ipairs(names[form] or {}) do
        words[tonumber(row[1])] = row[2]
    end
    for _, row in ipairs(names.code) do
        if row[1] == form then
            words[tonumber(row[2])] = row[3]
        end
    end
    return words
end

local statuses, events, commands, messages = words_of("status"), words_of("event"), words_of("command"), words_of("message")

-- The number that has a word, of such words.
local function number_of(words, wanted)
    for number, word in pairs(words) do
        if word == wanted then
            return number
        end
    end
    error("names.tsv has no " .. wanted)
end

local COMMAND_ID, HOUSEKEEPING_ID = number_of(messages, "command"), number_of(messages, "request for housekeeping")
local REFUSED = number_of(events, "command refused")
local images, packet_faults, name_fields = words_of("image"), words_of("packet fault"), words_of("name field")
local cfe_events = words_of("eid")
local NONE = { row = 0xFFFF, validator = 0xFF }

local function key(text)
    return (text:lower():gsub("'", ""):gsub("[^%w]+", "_"))
end

local INTEGERS = { ProtoField.uint8, ProtoField.uint16, ProtoField.uint24, ProtoField.uint32 }
local MASKS = { flags = number("sequence flags of a packet"), count = 0x3FFF, ["function"] = 0x7F }

-- Wireshark's field for a field of a layout.
local function proto_field(owner, name, width, form)
    local abbreviation = "cfetbl." .. key(owner) .. "." .. key(name)
    if form == "name" then
        return ProtoField.string(abbreviation, name)
    elseif form == "zeros" or form == "data" then
        return ProtoField.bytes(abbreviation, name)
    elseif form == "signed" then
        return ProtoField.int32(abbreviation, name)
    end
    local words = name == "message id" and messages or words_of(form)
    return INTEGERS[width](abbreviation, name, form == "hex" and base.HEX or base.DEC, next(words) and words, MASKS[form])
end

local layouts, bits, all_fields = {}, {}, {}

local function is_of_packets(owner)
    for _, name in pairs(commands) do
        if owner == name then
            return true
        end
    end
    return owner:match("^cfe ") or owner == "event" or owner == "housekeeping" or owner == "registry" or owner == "notice"
        or owner == "primary header" or owner == "command header" or owner == "telemetry header"
end

for _, row in ipairs(names.field) do
    local owner, place, width, name, form = row[1], tonumber(row[2]), tonumber(row[3]), row[4], row[5]
    if is_of_packets(owner) then
        local field = proto_field(owner, name, width, form)
        all_fields[#all_fields + 1] = field
        layouts[owner] = layouts[owner] or {}
        table.insert(layouts[owner], { place = place, width = width, name = name, form = form, field = field })
    end
end

for _, row in ipairs(names.bit) do
    if row[1] == "registry" then
        local field = ProtoField.bool("cfetbl.registry.state." .. key(row[3]), row[3], 8, nil, 2 ^ tonumber(row[2]))
        all_fields[#all_fields + 1] = field
        bits[#bits + 1] = field
    end
end

-- Where the last field of a layout ends: how many bytes the fields of a body have.
local function size_of(owner)
    local parts = layouts[owner]
    return parts and parts[#parts].place + parts[#parts].width or 0
end

local PRIMARY_HEADER, COMMAND_HEADER, TELEMETRY_HEADER = size_of("primary header"), size_of("command header"), size_of("telemetry header")

local payload_field = ProtoField.bytes("cfetbl.payload", "payload")
all_fields[#all_fields + 1] = payload_field
cfetbl.fields = all_fields

local wrong = ProtoExpert.new("cfetbl.wrong", "no whole packet", expert.group.MALFORMED, expert.severity.WARN)
cfetbl.experts = { wrong }

-- The table of a row, as the comment on a packet of `cfetbl show --pcap` names it; nothing where no comment does.
local comment = Field.new("frame.comment")

local function table_of(row)
    for _, said in ipairs({ comment() }) do
        local number, name = said.display:match("^row (%d+) (.+)$")
        if tonumber(number) == row then
            return name
        end
    end
end

-- What a name field reads as: its bytes before the first zero byte, or all of them; those that don't print as \xNN.
local function name_in(range)
    local name = range:raw():match("^[^%z]*"):gsub('["\\]', "\\%0")
    return (name:gsub("[^\32-\126]", function(byte) return string.format("\\x%02X", byte:byte()) end))
end

-- The bytes of a field in the packet, where the layout begins at `from`.
local function range_of(part, buffer, from)
    return buffer(from + part.place, part.width)
end

-- Adds the fields of a layout to a tree, and answers the items by the names of the fields. `is_little` has the low byte of numbers
-- come first.
local function add_fields(tree, owner, buffer, from, is_little)
    local items = {}
    for _, part in ipairs(layouts[owner] or {}) do
        local range = range_of(part, buffer, from)
        local item
        if part.form == "name" then
            item = tree:add(part.field, range, name_in(range))
        elseif is_little then
            item = tree:add_le(part.field, range)
        else
            item = tree:add(part.field, range)
        end
        if NONE[part.form] and NONE[part.form] == range:uint() then
            item:append_text(" (none)")
        end
        if part.form == "registry" then
            for _, bit in ipairs(bits) do
                item:add(bit, range)
            end
        end
        items[part.name] = item
    end
    return items
end

-- The words of a detail of four bytes by what it tells: the columns that names.tsv has for it.
local function detail_words(range, name, form)
    local number = range:uint()
    if form == "signed" then
        return name .. " " .. range:int()
    elseif form == "hex" then
        return string.format("%s 0x%04X", name, number)
    elseif form == "two words" then
        return string.format("%s 0x%04X and 0x%04X", name, range(0, 2):uint(), range(2, 2):uint())
    end
    local words = { command = commands, ["packet fault"] = packet_faults, ["name field"] = name_fields }
    return name .. " " .. number .. (words[form] and words[form][number] and " " .. words[form][number] or "")
end

-- What the detail of an event tells: that of the refusal for a refused command, else that of the event.
local function event_detail(number, status, range)
    local rows, wanted = names.event, number
    if number == REFUSED then
        rows, wanted = names.status, status
    end
    for _, row in ipairs(rows) do
        if tonumber(row[1]) == wanted and (row[3] or "") ~= "" and row[3] ~= "later" then
            return detail_words(range, row[3], row[4])
        end
    end
end

local function event_info(buffer, items)
    local number, status = buffer(TELEMETRY_HEADER, 2):uint(), buffer(TELEMETRY_HEADER + 2, 4):uint()
    local told = event_detail(number, status, buffer(TELEMETRY_HEADER + 8, 4))
    if told then
        items.detail:append_text(" (" .. told .. ")")
    end
    local row = buffer(TELEMETRY_HEADER + 6, 2):uint()
    local name = row ~= NONE.row and table_of(row)
    if name then
        items.row:append_text(" (" .. name .. ")")
    end
    local refusal = status ~= 0 and (statuses[status] or status) or ""
    local about = row ~= NONE.row and "row " .. row .. " " .. (name or "") or ""
    local words = { "event " .. number, events[number] or "", refusal, about, told or "" }
    return table.concat(words, " "):gsub("%s+", " "):gsub(" $", "")
end

-- What the Info column has of one of cFE's events: its name, or its number where that isn't known, and its text.
local function cfe_event_info(buffer, is_little)
    local parts = {}
    for _, part in ipairs(layouts["cfe event"]) do
        parts[part.name] = range_of(part, buffer, CFE_HEADER)
    end
    local id = parts["PacketID.EventID"]
    local number = is_little and id:le_uint() or id:uint()
    return (cfe_events[number] or "event " .. number) .. ": " .. name_in(parts.Message)
end

-- Telemetry in cFE's layouts. Answers what the packet is.
local function add_cfe_telemetry(tree, buffer, kind)
    local is_little = not cfetbl.prefs.big_endian
    add_fields(tree, "telemetry header", buffer, 0)
    add_fields(tree, "cfe " .. kind, buffer, CFE_HEADER, is_little)
    return kind == "event" and cfe_event_info(buffer, is_little) or kind
end

-- Telemetry: housekeeping, event, registry record. Answers what the packet is, or nil where it is none of them.
local function add_telemetry(tree, buffer, message)
    local kind = messages[message]
    if not kind or not layouts[kind] then
        return nil
    end
    if cfetbl.prefs.layout ~= OWN and buffer:len() == CFE_HEADER + size_of("cfe " .. kind) then
        return add_cfe_telemetry(tree, buffer, kind)
    end
    if cfetbl.prefs.layout == OF_CFE or buffer:len() ~= TELEMETRY_HEADER + size_of(kind) then
        return nil
    end
    add_fields(tree, "telemetry header", buffer, 0)
    local items = add_fields(tree, kind, buffer, TELEMETRY_HEADER)
    if kind == "event" then
        return (event_info(buffer, items))
    end
    return kind
end

local function add_checksum(items, buffer)
    local sum = 0
    for place = 0, buffer:len() - 1 do
        sum = bit32 and bit32.bxor(sum, buffer(place, 1):uint()) or bit.bxor(sum, buffer(place, 1):uint())
    end
    items.checksum:append_text(sum == 0xFF and " [right]" or " [wrong]")
    return sum == 0xFF
end

-- The name of a command, where its payload has the length of that command's.
local function command_name(buffer, message)
    local code = buffer(PRIMARY_HEADER, 1):bitfield(1, 7)
    local name = message == COMMAND_ID and commands[code] or message == HOUSEKEEPING_ID and "HOUSEKEEPING" or nil
    return name and buffer:len() == COMMAND_HEADER + size_of(name) and name or nil
end

-- Whether the numbers of a command begin with their low byte, as in cFE's layouts: where only that makes an image of its select field.
local function is_low_first(name, buffer)
    local select = layouts[name] and layouts[name][1]
    if not select or select.form ~= "image" or cfetbl.prefs.layout == OWN then
        return false
    end
    local range = range_of(select, buffer, COMMAND_HEADER)
    if cfetbl.prefs.layout == OF_CFE then
        return not cfetbl.prefs.big_endian
    end
    return not images[range:uint()] and images[range:le_uint()] ~= nil
end

-- What a command names, in the order of its fields.
local function command_words(name, buffer, is_little)
    local words = ""
    for _, part in ipairs(layouts[name] or {}) do
        local range = range_of(part, buffer, COMMAND_HEADER)
        local number = part.form ~= "name" and (is_little and range:le_uint() or range:uint())
        words = words .. " " .. (part.form == "name" and name_in(range) or images[number] or number)
    end
    return words
end

-- A command to the service, or a notice of it to an application. Answers what the packet is.
local function add_command(tree, buffer, message, is_sent)
    local items = add_fields(tree, "command header", buffer, 0)
    local is_right = add_checksum(items, buffer)
    if is_sent and buffer:len() == COMMAND_HEADER + size_of("notice") then
        add_fields(tree, "notice", buffer, COMMAND_HEADER)
        return string.format("notice 0x%04X, parameter %d", message, buffer(COMMAND_HEADER, 4):uint())
    end
    -- (cFE looks at no checksum)
    local name = not is_sent and (is_right or cfetbl.prefs.layout == OF_CFE) and command_name(buffer, message)
    if name then
        local is_little = is_low_first(name, buffer)
        add_fields(tree, name, buffer, COMMAND_HEADER, is_little)
        items["function code"]:append_text(" (" .. name .. ")")
        return name .. command_words(name, buffer, is_little)
    end
    if buffer:len() > COMMAND_HEADER then
        tree:add(payload_field, buffer(COMMAND_HEADER))
    end
    return not is_right and "a command with a wrong checksum" or nil
end

local function dissect(buffer, pinfo, root, is_sent)
    pinfo.cols.protocol = "TBL"
    local tree = root:add(cfetbl, buffer())
    if buffer:len() < COMMAND_HEADER then
        tree:add_proto_expert_info(wrong)
        pinfo.cols.info = "no packet, " .. buffer:len() .. " bytes"
        return
    end
    add_fields(tree, "primary header", buffer, 0)
    local message, length = buffer(0, 2):uint(), buffer(4, 2):uint()
    local is_command = message % (2 * IS_COMMAND) >= IS_COMMAND
    local told
    if length + LENGTH_BIAS == buffer:len() then
        told = is_command and add_command(tree, buffer, message, is_sent) or add_telemetry(tree, buffer, message)
    end
    if not told then
        tree:add_proto_expert_info(wrong)
        told = string.format("no packet of Table Services: message id 0x%04X, %d bytes", message, buffer:len())
    end
    tree:append_text(": " .. told)
    pinfo.cols.info = told
end

function cfetbl.dissector(buffer, pinfo, root)
    dissect(buffer, pinfo, root, pinfo.dst_port ~= COMMAND_PORT)
end

local ports = DissectorTable.get("udp.port")
ports:add(COMMAND_PORT, cfetbl)
ports:add(TELEMETRY_PORT, cfetbl)
