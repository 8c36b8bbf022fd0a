"""Records, packets and transcripts as bytes in hexadecimal, field by field, below the lines that they stand for."""
import io
import os
import textwrap
from collections.abc import Iterator

from tblkit import layouts, names, packets, records, show, text, transcript

EXAMPLES = os.path.join(os.path.dirname(os.path.dirname(os.path.dirname(os.path.realpath(__file__)))), "sessions")
WIDTH, FEW_ZEROS, FILE_HEADER = 120, 4, layouts.end_of("file header")
COMMANDS = ("ground NOOP", "ground RESET_COUNTERS", "ground HOUSEKEEPING", "ground LOAD /ram/a.tbl", "ground VALIDATE inactive A.T",
            "ground ACTIVATE A.T", "ground DELETE_CDS A.T", "ground DUMP active A.T /ram/d.tbl")


def spelled(content) -> str:
    """Bytes in hexadecimal; zeros at their end are counted, unless they are few or the bytes are a number."""
    bare = content.rstrip(b"\0")
    zeros = len(content) - len(bare)
    if len(content) <= FEW_ZEROS or zeros <= FEW_ZEROS:
        return content.hex().upper()
    return f"{bare.hex().upper()} + {zeros} zeros" if bare else f"{zeros} zeros"


def parts_of(content, fields) -> Iterator[bytes]:
    """The bytes of each field; those of one place are one."""
    for place in dict.fromkeys(it.place for it in fields):
        yield next(it.of(content) for it in fields if it.place == place)


def joined(parts) -> str:
    return "  ".join(spelled(it) for it in parts if it)


def of_packet(content) -> str:
    """A packet: its headers and the fields of its body."""
    kind = packets.Packet(content).kind
    name = packets.command_name(content)
    if name or kind == "notice":
        head = " ".join((content[:2].hex().upper(), content[2:4].hex().upper(), content[4:6].hex().upper(), content[6:7].hex().upper(),
                         content[7:8].hex().upper()))
        return "  ".join(it for it in (head, joined(parts_of(content[packets.COMMAND_HEADER:], names.fields(name or kind)))) if it)
    head = " ".join(spelled(it) for it in (content[:2], content[2:4], content[4:6], content[6:10], content[10:12]))
    return f"{head}  {joined(parts_of(content[packets.TELEMETRY_HEADER:], names.fields(kind)))}"


def of_command(line) -> str:
    """The packet of a line of the ground."""
    return of_packet(text.record_of(line)[records.HEAD:])


def of_line(*words) -> str:
    """The record of a line of a session, below the line."""
    line = " ".join(words)
    return "\n".join([f"    # {line}", *wrapped(of_record(records.Piece(0, text.record_of(line))))])


def of_file(content) -> str:
    """A file: as a table file if it has the headers of one."""
    if len(content) < layouts.end_of("table file header"):
        return spelled(content)
    headers = [*parts_of(content, names.fields("file header")), *parts_of(content, names.fields("table file header"))]
    return joined([*headers, content[layouts.end_of("table file header"):]])


def of_record(piece) -> str:
    """A record: its head, and its body by fields."""
    head = " ".join((piece.content[:1].hex().upper(), piece.content[1:2].hex().upper(), piece.content[2:4].hex().upper()))
    if piece.request.name == "Command":
        return f"{head}  {of_packet(piece.body)}"
    fields = names.fields(piece.request.name)
    if piece.request.name == "File":
        contents = names.field("File", "contents").of(piece.body)
        return f"{head}  {spelled(names.field('File', 'name').of(piece.body))}  {of_file(contents)}"
    return "  ".join(it for it in (head, joined(parts_of(piece.body, fields))) if it)


def wrapped(line, indent="") -> list[str]:
    """A line of bytes in lines of a block of code."""
    return textwrap.wrap(line, WIDTH, initial_indent=f"    {indent}", subsequent_indent=f"    {indent}    ", break_long_words=False)


def _opened(name, kind) -> io.BytesIO:
    with open(os.path.join(EXAMPLES, f"{name}.{kind}"), "rb") as file:
        return io.BytesIO(file.read())


def of_session(name) -> str:
    """The records of an example, each below its line of text."""
    found = []
    for piece in records.pieces(_opened(name, "session")):
        found += [f"    # {text.line_of(piece)}", *wrapped(of_record(piece))]
    return "\n".join(found)


def of_transcript(name) -> str:
    """The entries and the end record of an example, each below what `cfetbl show` prints of it."""
    index, found = records.Index(_opened(name, "session")), []
    for part in show.answers(transcript.parts(_opened(name, "transcript")), index):
        if isinstance(part, transcript.End):
            end = transcript.END_OF.pack(int.from_bytes(transcript.END, "big"), part.status, part.entries, part.place)
            found += [f"    # {show.end_lines(part, index)}", *wrapped(joined(parts_of(end, names.fields("end record"))))]
        else:
            found += _of_answer(part)
    return "\n".join(found)


def _of_answer(answer) -> Iterator[str]:
    """An entry: its head and its reply, and then each packet."""
    request, *others = show.parts_of(answer)
    yield f"    # {request.plain()}"
    entry = answer.entry
    counts = [len(it).to_bytes(transcript.LENGTH, "big") for it in (entry.reply, entry.sent)]
    yield from wrapped(joined([*parts_of(entry.head, names.fields("entry")), counts[0], entry.reply, counts[1]]))
    said = [it for it in others if it.kind != "reply"]
    for packet, line in zip(answer.packets, said):
        yield f"    #     {line.words}"
        yield from wrapped(of_packet(packet.content), "    ")
