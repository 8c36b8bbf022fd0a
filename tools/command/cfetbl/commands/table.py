"""Tables by the fields of their C definition, from the object file that a cross compiler made of it.

    cfetbl table build OBJ [-o FILE] [--time SECONDS] [--spacecraft N] [--processor N]
        the table file that elf2cfetbl would write: headers big-endian, the image in the byte order of the target
            cfetbl table build lc_def_wdt.o -o lc_def_wdt.tbl
    cfetbl table shape OBJ [--json | --xtce | --openc3] [-o FILE]
        the offset, size, type and byte order of each field, and the padding; as JSON, as a container of XTCE, or as a
        definition for OpenC3's Table Manager
            cfetbl table shape lc_def_wdt.o --openc3 -o lc_def_wdt.txt
    cfetbl table dump OBJ FILE [-o TEXT]
        the fields of a table file, a line `field = value` each
            cfetbl table dump lc_def_wdt.o dumped.tbl
    cfetbl table diff OBJ A B
        the fields in which two table files differ, and padding that does; of parts those that are in both. Status 1 if a
        field differs
            cfetbl table diff lc_def_wdt.o lc_def_wdt.tbl dumped.tbl
    cfetbl table set OBJ FIELD=VALUE.. [-o FILE] [--base FILE]
        a file of the smallest run of bytes that has these fields; with --base the whole table of that file with these
        fields changed. It says what changes
            cfetbl table set lc_def_wdt.o 'wdt[3].limit=77.5' -o part.tbl
    cfetbl table check OBJ HOSTOBJ LIB.so FUNCTION FILE [--base FILE]
        converts the image to the layout of HOSTOBJ, the same definition compiled for this machine, and calls the
        application's own validation function in LIB.so: what it returns, and the events that it sends
            cfetbl table check lc_def_wdt.o host.o lc.so LC_ValidateWDT new.tbl

OBJ is compiled with -g and has a table with its CFE_TBL_FILEDEF. Its debugging information says where each field is. A file of
a part of a table is taken as well as a whole one; check puts it over the table of --base, or over that of OBJ. Without -o, or
with -o -, what is made goes to standard output, and what is said of it to standard error.

A FIELD is named as in C, as wdt[3].limit; if the table is an array, its name is the front, as LC_DefaultWDT[3].limit.
A VALUE is a number, decimal or with 0x hexadecimal; an enumerator's name; true or false; a decimal number, inf or nan for a
float; a text, of which \\xNN between quotes is a byte; and for what is shown as bytes, these in hexadecimal. What dump
writes is read back by set as the same bits.

    --member PATH=NAME   of the union at PATH, shows the member NAME; it may be given again. [*] stands for each element of
                         an array: entry[*].value=count. A union without a name has the path of what it is in
    --time, --spacecraft, --processor
                         numbers in the file header, of build and set: else 0, 66 and 1

pyelftools reads object files: `apt-get install python3-pyelftools`.

Exit status: 0; 1 if the object, a file or a value is wrong, and then nothing is written, if diff finds a field that differs, or
if the function rejects the image; 2 for wrong use, or if a file can't be read; 4 if a write fails; 125 without pyelftools.
"""
import sys

from tblkit import described, inputs, options
from tblkit.fields import convert, definitions, ground, judged, loads, shown
from tblkit.fields.wrong import NoReader, Wrong
from tblkit.programs import NO_PROGRAM
from tblkit.streams import WRONG_USE, created, fail, opened, say

TOOL = "cfetbl table"
MOST_FILE = 1 << 20
HEADER = {"time": "seconds", "spacecraft": "spacecraft", "processor": "processor"}


def number(text) -> int:
    value = int(text, 0)
    if not 0 <= value < 1 << 32:
        raise ValueError
    return value


def add_arguments(parser) -> None:
    actions = parser.add_subparsers(dest="action", parser_class=options.Parser)
    for name, more in (("build", ()), ("shape", ()), ("dump", ("file",)), ("diff", ("first", "second")), ("set", ()),
                       ("check", ("host", "library", "function", "file"))):
        action = actions.add_parser(name, text=parser.text)
        action.add_argument("object")
        action.add_argument("--member", action="append", default=[])
        for it in more:
            action.add_argument(it)
        OPTIONS.get(name, lambda _: None)(action)


def header_options(parser) -> None:
    for name in HEADER:
        parser.add_argument(f"--{name}", type=number)


def output_option(parser) -> None:
    parser.add_argument("-o", dest="written", default="-")


def build_options(parser) -> None:
    output_option(parser)
    header_options(parser)


def set_options(parser) -> None:
    parser.add_argument("settings", nargs="+", metavar="FIELD=VALUE")
    parser.add_argument("--base")
    build_options(parser)


def shape_options(parser) -> None:
    output_option(parser)
    form = parser.add_mutually_exclusive_group()
    for name in ("json", "xtce", "openc3"):
        form.add_argument(f"--{name}", dest="form", action="store_const", const=name)


def check_options(parser) -> None:
    parser.add_argument("--base")


OPTIONS = {"build": build_options, "shape": shape_options, "dump": output_option, "set": set_options, "check": check_options}


def header_of(chosen) -> dict[str, int]:
    """The fields of the file header that options state."""
    return {field: value for name, field in HEADER.items() if (value := getattr(chosen, name)) is not None}


def part_of(definition, name) -> loads.Part:
    """The part of the table that a file has."""
    with opened(name) as source:
        taken = source.read(MOST_FILE + 1)
    if len(taken) > MOST_FILE:
        raise Wrong(f"{name}: it has more than {MOST_FILE} bytes")
    return loads.part_of(definition, name, taken)


def whole_of(definition, name) -> loads.Part:
    part = part_of(definition, name)
    if len(part.content) != definition.layout.size:
        raise Wrong(f"{name}: it has {len(part.content)} of the {definition.layout.size} bytes of {definition.table}, "
                    "and --base needs all")
    return part


def write(chosen, taken, lines, *read) -> None:
    """Writes what was made, and says what it is. Files that are read aren't written over."""
    if chosen.written == "-":
        if sys.stdout.isatty():
            fail(TOOL, "a table file is bytes: name it by -o FILE", WRONG_USE)
        sys.stdout.flush()
        sys.stdout.buffer.write(taken)
        sys.stdout.buffer.flush()
        say("\n".join(lines))
        return
    inputs.keep(TOOL, f"-o {chosen.written}", chosen.written, [it for it in read if it])
    with created(chosen.written) as target:
        target.write(taken)
    print("\n".join(lines))


def written_name(chosen) -> str:
    return "standard output" if chosen.written == "-" else chosen.written


def build(chosen, definition) -> int:
    taken = loads.table_file(definition, loads.whole(definition), header_of(chosen))
    lines = [f"{written_name(chosen)}: {shown.summary(definition)}"]
    if definition.layout.size > described.LIMIT:
        lines.append(f"# a table of cFE's default configuration, and of the service here, has at most {described.LIMIT:,} bytes")
    write(chosen, taken, lines, chosen.object)
    return 0


def shape(chosen, definition) -> int:
    made = {None: shown.shape, "json": shown.as_json, "xtce": ground.xtce, "openc3": ground.openc3}[chosen.form](definition)
    write_text(chosen, made, chosen.object)
    return 0


def write_text(chosen, text, *read) -> None:
    if chosen.written == "-":
        print(text)
        return
    inputs.keep(TOOL, f"-o {chosen.written}", chosen.written, read)
    with created(chosen.written) as target:
        target.write(f"{text}\n".encode())


def dump(chosen, definition) -> int:
    write_text(chosen, "\n".join(loads.dump(definition, part_of(definition, chosen.file))), chosen.object, chosen.file)
    return 0


def diff(chosen, definition) -> int:
    found = loads.difference(definition, part_of(definition, chosen.first), part_of(definition, chosen.second))
    lines = [*(found.fields or ["no difference"]), *found.padding]
    if found.left_out:
        lines.append(f"# {found.left_out} of {len(definition.layout.fields)} fields aren't in both files")
    print("\n".join(lines))
    return 1 if found.fields else 0


def change(chosen, definition) -> int:
    base = whole_of(definition, chosen.base) if chosen.base else loads.whole(definition)
    made = loads.changed(definition, base, chosen.settings, bool(chosen.base))
    taken = loads.table_file(definition, made.part, header_of(chosen))
    lines = shown.changes(definition, made, chosen.base)
    lines[0] = f"{written_name(chosen)}: {lines[0]}"
    write(chosen, taken, lines, chosen.object, chosen.base)
    return 0


def check(chosen, definition) -> int:
    part = part_of(definition, chosen.file)
    if len(part.content) != definition.layout.size:
        base = whole_of(definition, chosen.base) if chosen.base else loads.whole(definition)
        name = "standard input" if chosen.file == "-" else chosen.file
        say(f"{TOOL}: {name} has bytes {part.offset} to {part.end - 1}; the others are those of {chosen.base or chosen.object}")
        part = loads.over(base, part)
    host = definitions.read(chosen.host, tuple(chosen.member))
    verdict = judged.judge(chosen.library, chosen.function, convert.convert(part.content, definition, host))
    print("\n".join([*verdict.lines, f"{chosen.function} -> {shown.code(verdict.code)}"]))
    return 1 if verdict.code else 0


ACTIONS = {"build": build, "shape": shape, "dump": dump, "diff": diff, "set": change, "check": check}


def main(chosen, parser) -> int:
    if chosen.action is None:
        parser.error(f"one of {', '.join(ACTIONS)} is missing")
    try:
        return ACTIONS[chosen.action](chosen, definitions.read(chosen.object, tuple(chosen.member)))
    except Wrong as wrong:
        fail(TOOL, str(wrong), 1)
    except NoReader as none:
        fail(TOOL, str(none), NO_PROGRAM)
