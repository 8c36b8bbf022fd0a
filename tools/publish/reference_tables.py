"""The tables of docs/reference/ that are made of tools/command/names.tsv, of what tblkit makes of it, and of the sessions of sessions/.

In a page a block begins with a line `<!-- made: NAME WORDS -->` and ends with `<!-- made end -->`. What is between them is what the
maker of this name returns for these words. tools/publish/reference writes the blocks, and tools/develop/gate/check-formats says whether they are these.
"""
import functools
import os
import re
from collections.abc import Callable, Iterator

import spelled_bytes
from markdown_links import anchor_of
from tblkit import cfe, cfe_events, dictionary, names, packets, records

TOP = os.path.dirname(os.path.dirname(os.path.dirname(os.path.realpath(__file__))))
FOLDER = os.path.join(TOP, "docs", "reference")
BLOCK = re.compile(r"^<!-- made: (?P<name>[a-z-]+)(?P<words>[^\n]*?) -->\n(?P<made>.*?)^<!-- made end -->$", re.MULTILINE | re.DOTALL)
# What answers are of, besides requests: what is tested of several, and what is a part of a request.
SEVERAL, PARTS = ("any command", "any call", "any call by a handle"), ("a table file", "a critical table")
LAYOUTS = ("record head", "entry", "end record", "primary header", "command header", "telemetry header", "event", "housekeeping", "registry", "notice",
           "file header", "table file header", "bank", "store entry", "block head")
# What the sections of names.tsv that are explained are called in headings.
SECTIONS = {"status": "", "event": "Event ", "run": "Run "}
KINDS = {"Return codes": ("status", "also"), "Events": ("event",), "Command codes and message ids": ("command", "message"),
         "Calls": ("request",), "Options": ("option",), "Limits": ("limit",), "Without a counterpart": ("none",)}


def table(head, rows) -> str:
    """A table in Markdown. A column in which no row has anything is left out, unless it is the first one."""
    used = [at for at in range(len(head)) if at == 0 or any(row[at] for row in rows)]
    lines = [[head[at] for at in used], ["---"] * len(used), *([str(row[at]) for at in used] for row in rows)]
    first, rule, *others = lines
    return "\n".join([f"| {' | '.join(first)} |", f"|{'|'.join(rule)}|", *(f"| {' | '.join(it)} |" for it in others)])


# ---- links

def name_of(section, number) -> str:
    known = names.named(section).get(number)
    return known.name if known else "which is none"


def heading_of(section, number) -> str:
    return f"{SECTIONS[section]}{number} {name_of(section, number)}"


def link_of(section, number) -> str:
    """A link to what a number of a section is."""
    if section == "request":
        name = names.requests()[number].name
        return name if name == "Command" else request_link(name)
    name = name_of(section, number)
    if section == "command":
        return request_link(name)
    if section == "message":
        return f"[{name}]({'packets.md#' + anchor_of(name) if name in dictionary.TELEMETRY else 'commands.md#form'})"
    return f"[{number} {name}](statuses.md#{anchor_of(heading_of(section, number))})"


def request_link(name) -> str:
    """A link to the answers of a request or a command."""
    calls = {it.name for it in names.requests().values() if not it.is_ground}
    return f"[{name}]({'calls' if name in calls else 'commands'}.md#{anchor_of(name)})"


def code(name) -> str:
    return f"`{name}`" if name else ""


def of_cfe(section, number) -> str:
    return ", ".join(code(it) for it in names.in_cfe(section, number))


# ---- statuses, events and ends of a run

@functools.cache
def answers_of(owner) -> list[tuple[str, str, str]]:
    """The rows of what a request is answered: statuses, when they come, and what their detail or reply has."""
    found = [(statuses, *map(names.with_numbers, (*said, "")[:2])) for of, statuses, *said in names.rows_of("answer") if of == owner]
    return [(statuses, when, gives) for statuses, when, gives in found]


@functools.cache
def numbers_in(statuses) -> set[int]:
    """The statuses of a row `answer`, which are named as `47 to 52, 87`."""
    found = set()
    for part in statuses.split(", "):
        first, _, last = part.partition(" to ")
        found.update(range(int(first), int(last or first) + 1))
    return found & set(names.named("status"))


@functools.cache
def answered_owners() -> list[str]:
    return list(dict.fromkeys(of for of, *_ in names.rows_of("answer")))


def made_answers(*owner) -> str:
    """The answers of a request, in the order in which they are tested."""
    rows = [(statuses if not statuses.isdigit() else link_of("status", int(statuses)), when, gives)
            for statuses, when, gives in answers_of(" ".join(owner))]
    return table(("status", "when", "detail, or reply"), rows)


def answered_by(number) -> str:
    """The requests that a status answers, as links."""
    found = [it for it in answered_owners() if any(number in numbers_in(statuses) for statuses, *_ in answers_of(it))]
    return ", ".join(it if it in SEVERAL else request_link(it) for it in found if it not in PARTS)


def made_statuses() -> str:
    rows = [(number, f"[{it.name}](#{anchor_of(heading_of('status', number))})", code(names.return_codes().get(number)), it.detail)
            for number, it in names.named("status").items()]
    return table(("no.", "name", "return code of cFE", "detail"), rows)


def made_explained(section) -> str:
    """A heading for each number of a section, with what is explained of it."""
    return "\n\n".join("\n".join(_explained(section, number)) for number in names.named(section))


def _explained(section, number) -> Iterator[str]:
    known = names.named(section)[number]
    means, comes, to_do = names.explained().get((section, number), ("", "", ""))
    yield f"### {heading_of(section, number)}\n\n{means[:1].upper()}{means[1:]}.\n"
    told = [("when", comes), ("to do", to_do), ("detail", known.detail), ("in cFE", of_cfe(section, number)),
            ("answers", answered_by(number) if section == "status" and number else "")]
    yield from (f"- {head}: {said}" for head, said in told if said)


# ---- limits, codes and bits

def made_limits() -> str:
    return table(("what", "limit"), [(what, names.with_numbers(said)) for what, said in names.rows_of("limit")])


def made_codes() -> str:
    found: dict[str, list[str]] = {}
    for form, number, word in names.rows_of("code"):
        found.setdefault(form, []).append(f"{number} {word}")
    for form in dict.fromkeys(form for form, *_ in names.rows_of("bit")):
        found[f"bits of {form}"] = [f"0x{bit:02X} {word}" for bit, word in names.bits(form).items()]
    return table(("what", "numbers"), [(form, ", ".join(words)) for form, words in found.items()])


def made_bits(form) -> str:
    """The bits of a form, with what is noted of each."""
    rows = [(f"0x{bit:02X}", word, _noted(form, word)) for bit, word in names.bits(form).items()]
    return table(("bit", "word", "what it is"), rows)


# ---- records, packets and layouts

def made_kinds() -> str:
    """The kinds of records."""
    rows = []
    for number, it in names.requests().items():
        least, most = records.lengths(it)
        body = ", ".join(part.name + (f" {part.width}" if part.width else "") for part in names.fields(it.name))
        rows.append((f"0x{number:02X}", "0" if it.is_ground else "1 to 16", link_of("request", number), of_cfe("request", number), body,
                     f"{least:,}" if least == most else f"{least:,} to {most:,}"))
    return table(("kind", "actor", "request", "cFE's call", "body", "its bytes"), rows)


def made_bodies() -> str:
    """The fields of the bodies that have more than one."""
    rows = []
    for it in names.requests().values():
        parts = names.fields(it.name)
        for at, part in enumerate(parts if len(parts) > 1 else ()):
            rows.append(("" if at else it.name, part.place, _width(part), part.name, _said(it.name, part)))
    return table(("request", "place in the body", "bytes", "field", "what it has"), rows)


def made_commands() -> str:
    """The function codes, with the fields of the payloads."""
    rows = []
    for number, it in names.named("command").items():
        parts = names.fields(it.name)
        rows.append((number, link_of("command", number), of_cfe("command", number), sum(part.width for part in parts),
                     ", ".join(f"{part.place}: {part.name}" for part in parts)))
    return table(("function code", "command", "of cFE", "payload bytes", "fields by their place in the payload"), rows)


def made_messages() -> str:
    rows = [(f"0x{number:04X}", it.name, of_cfe("message", number)) for number, it in names.named("message").items()]
    return table(("message id", "packet", "of cFE"), rows)


def _width(field) -> str:
    return f"{field.width:,}" if field.width else "the rest"


@functools.cache
def _notes() -> dict[tuple[str, str], str]:
    return {(owner, part): names.with_numbers(said) for owner, part, said in names.rows_of("note")}


def _noted(owner, name) -> str:
    """What is noted of a part of something."""
    return _notes().get((owner, name), "")


def _said(owner, field) -> str:
    """What a field has, in words: what is noted of it, and the words of its numbers or bits."""
    told = [it for it in [_noted(owner, field.name)] if it]
    if names.bits(field.form):
        told.append(", ".join(f"0x{bit:02X} {word}" for bit, word in names.bits(field.form).items()))
    elif any(form == field.form for form, *_ in names.rows_of("code")):
        told.append(", ".join(f"{number if number < 0xA0 else f'0x{number:X}'} {word}" for number, word in names.words(field.form).items()))
    return "; ".join(told)


def _cfe_fields(owner) -> dict[str, str]:
    """cFE's fields of the packet that says the same, by the field here."""
    found: dict[str, list[str]] = {}
    for of, name, said in names.rows_of("cfe"):
        if of == f"cfe {owner}" and said != cfe.ZEROS and not said.startswith(cfe.WORDS):
            found.setdefault(said.partition(": ")[0], []).append(code(name))
    return {field: ", ".join(they) for field, they in found.items()}


def made_layout(*owner) -> str:
    """The fields of a layout by their places."""
    owner = " ".join(owner)
    in_cfe = _cfe_fields(owner)
    rows = [(f"{it.place:,}", _width(it), it.name, _said(owner, it), in_cfe.get(it.name, "")) for it in names.fields(owner)]
    return table(("place", "bytes", "field", "what it has", "cFE's field"), rows)


# ---- cFE

def made_cfe_layout(kind) -> str:
    rows = [(it.field.place, it.field.width, code(it.field.name), it.said.removeprefix(cfe.WORDS)) for it in cfe.sources(kind)]
    return table(("place in the payload", "bytes", "cFE's field", "field here"), rows)


def made_cfe_events() -> str:
    rows = [(it.number, code(it.name), it.kind, it.comes(), it.text) for it in sorted(cfe_events.rows(), key=lambda it: it.number)]
    return table(("`EventID`", "cFE's event", "type", "is sent for", "text"), rows)


def made_differences(first, last) -> str:
    rows = [(number, here, there) for number, here, there in names.rows_of("difference") if int(first) <= int(number) <= int(last)]
    return table(("no.", "here", "cFE"), rows)


def _here(word) -> str:
    """What one of cFE's words is here, as a link."""
    if word.kind == "limit":
        return f"[{int(word.number, 0):,}](tables-of-numbers.md#limits)"
    if word.kind == "option":
        return f"[{word.number}](calls.md#register)"
    return f"{word.section} {link_of(word.section, int(word.number, 0))}" if word.section else ""


def in_index(word, kind) -> bool:
    """Whether one of cFE's words is in the index of this kind: the ids of events have one of their own, whatever they are here."""
    is_refusal = word.kind in ("status", "also")
    if is_refusal and word.name.endswith("_EID"):
        return kind == "Events"
    return word.kind in KINDS[kind]


def made_index(*kind) -> str:
    """cFE's words of a kind, in the order of the alphabet."""
    found = [it for it in names.cfe_words() if in_index(it, " ".join(kind))]
    rows = [(code(it.name), _here(it), it.said) for it in sorted(found, key=lambda it: it.name)]
    return table(("cFE's name", "here", "what there is to say"), rows)


# ---- bytes

def made_command_bytes() -> str:
    """The bytes of some commands."""
    return table(("line", "bytes of the packet"), [(code(line), code(spelled_bytes.of_command(line))) for line in spelled_bytes.COMMANDS])


MAKERS: dict[str, Callable[..., str]] = {
    "answers": made_answers, "statuses": made_statuses, "explained": made_explained, "limits": made_limits, "codes": made_codes, "bits": made_bits,
    "kinds": made_kinds, "bodies": made_bodies, "commands": made_commands, "messages": made_messages, "layout": made_layout,
    "cfe-layout": made_cfe_layout, "cfe-events": made_cfe_events, "differences": made_differences, "index": made_index,
    "command-bytes": made_command_bytes, "session": spelled_bytes.of_session, "transcript": spelled_bytes.of_transcript,
    "line": spelled_bytes.of_line}


def made(name, words) -> str:
    """What a block has to have between its two lines."""
    return f"\n{MAKERS[name](*words)}\n\n"


def with_blocks(text) -> str:
    """A page with its blocks as they have to be."""
    def block(found):
        opening = f"<!-- made: {found['name']}{found['words']} -->"
        return f"{opening}\n{made(found['name'], found['words'].split())}<!-- made end -->"
    return BLOCK.sub(block, text)


def pages() -> list[str]:
    """The paths of the pages that may have blocks."""
    return sorted(os.path.join(FOLDER, it) for it in os.listdir(FOLDER) if it.endswith(".md"))


def wanted() -> Iterator[str]:
    """The blocks that the pages have to have: each table of names.tsv is shown."""
    yield from ("statuses", "limits", "codes", "kinds", "bodies", "commands", "messages", "cfe-events", "command-bytes")
    yield from (f"explained {it}" for it in names.EXPLAINED)
    yield from (f"layout {it}" for it in LAYOUTS)
    yield from (f"cfe-layout {it}" for it in dictionary.TELEMETRY)
    yield from (f"answers {it}" for it in answered_owners())
    yield from (f"index {it}" for it in KINDS)


def faults() -> Iterator[str]:
    """What is wrong with the pages: a block that isn't as it has to be, or that is missing."""
    found, differences = set(), set()
    for path in pages():
        page = os.path.relpath(path, TOP)
        with open(path, encoding="utf-8") as file:
            text = file.read()
        met = list(BLOCK.finditer(text))
        if 2 * len(met) != text.count("<!-- made"):
            yield f"{page}: a block has no beginning or no end"
        for it in met:
            title = f"{it['name']}{it['words']}"
            found.add(title)
            if it["name"] == "differences":
                first, last = map(int, it["words"].split())
                differences.update(range(first, last + 1))
            if it["made"] != made(it["name"], it["words"].split()):
                yield f"{page}: its block `{title}` isn't what names.tsv and sessions/ make: call tools/publish/reference"
    yield from (f"docs/reference/ has no block `{it}`" for it in wanted() if it not in found)
    yield from (f"docs/reference/ has no difference {number}" for number, *_ in names.rows_of("difference") if int(number) not in differences)
