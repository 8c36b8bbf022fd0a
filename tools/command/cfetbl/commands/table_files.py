"""Table files and their descriptions: `cfetbl make`, `cfetbl describe` and `cfetbl file`, each of which is the first word."""
import sys

from tblkit import content, described, files, inputs, names, packets, proved
from tblkit.numbers import counted
from tblkit.streams import WRONG_USE, binary_output, created, fail, opened, say

MAKE = """The table file that a description makes, as the program's word `make` writes it.

    cfetbl make DESCRIPTION [-o FILE]     writes it to FILE; without -o to standard output

{description}
Exit status: 0; 1 if the description is wrong; 2 for wrong use, or if a file can't be read; 4 if a write fails; 125 if there is no
program.
"""
DESCRIBE = """The description of a table file, field by field, as the program's word `describe` writes it.

    cfetbl describe SHAPE FILE [-o TEXT]     writes it to TEXT; without -o to standard output

{description}
A SHAPE has the types and the names, joined by commas, and for hex how many bytes there are: u16:limit,i16:gain,hex2:key. What
`cfetbl describe` writes, `cfetbl make` makes the same image of again.

Exit status: 0; 1 if the file isn't described by the shape; 2 for wrong use, or if a file can't be read; 4 if a write fails; 125 if
there is no program.
"""
FILE = """The headers of a table file or a registry file, and its bytes.

    cfetbl file FILE

FILE - is standard input.

Exit status: 0; 1 if it is another file; 2 for wrong use, or if it can't be read; 4 if a write fails.
"""
DESCRIPTION = """A description is text, each line ended by a newline:

    table CS_APP.Limits        the table's full name
    offset 0                   the place of the first field in the table's image
    u16 limit 300              then one field or more: TYPE NAME VALUE
    i16 gain -5
    hex key 0AFF

TYPE is u8, u16, u32, i8, i16, i32 or hex; a NAME is 1 to 16 of a to z, 0 to 9 and _. Numbers are decimal and made
big-endian, negative ones in two's complement; the value of hex is 1 to 64 bytes. A file - is standard input.
"""
# The words, each with its help and the names that it takes.
WORDS = {"make": (MAKE, ("description",)), "describe": (DESCRIBE, ("shape", "file")), "file": (FILE, ("file",))}
TOOL = f"cfetbl {sys.argv[1] if len(sys.argv) > 1 else 'make'}"
ROW = 16
# What `-o` says, or doesn't, for standard output.
TO_OUTPUT = (None, "-")


def help_of(word) -> str:
    return WORDS[word][0].format(description=DESCRIPTION)


def add_arguments(parser) -> None:
    word = parser.prog.split()[-1]
    for name in WORDS[word][1]:
        parser.add_argument(name, metavar=name.upper())
    if word != "file":
        parser.add_argument("-o", dest="written")


def read(name) -> bytes:
    """The bytes of a file, and of one that is too long one more than it may have."""
    with opened(name) as source:
        return source.read(proved.MOST_INPUT + 1)


def write(name, taken) -> None:
    """Writes to the file of `-o`."""
    with created(name) as target:
        target.write(taken)


def make(name, written) -> int:
    try:
        made = proved.make(read(name))
    except described.WrongLine as wrong:
        say(wrong.said_of(name))
        return 1
    except proved.NoAnswer as none:
        fail(TOOL, f"{name}: {none}", none.status)
    if written in TO_OUTPUT:
        binary_output(TOOL, "a table file").write(made)
    else:
        write(written, made)
    return 0


def describe(shape, name, written) -> int:
    try:
        text = proved.describe(shape, read(name))
    except described.WrongShape as wrong:
        fail(TOOL, f"the shape {shape}: {wrong}", WRONG_USE)
    except described.NotDescribed as why:
        fail(TOOL, f"{name} isn't described: {why}", 1)
    except proved.NoAnswer as none:
        fail(TOOL, f"{name}: {none}", none.status)
    if written in TO_OUTPUT:
        print(text.decode(), end="")
    else:
        write(written, text)
    return 0


def fields_of(taken, layout, label) -> None:
    print(label)
    for field in layout:
        print(f"  {field.name}: {packets.shown_field(field, taken).words}")


def rows(taken, at) -> None:
    """Bytes in hexadecimal and as ASCII, each row after the place of its first byte."""
    for place in range(0, len(taken), ROW):
        row = taken[place:place + ROW]
        letters = "".join(chr(it) if 0x20 <= it < 0x7F else "." for it in row)
        print(f"  {place + at:5}  {row.hex(' ').upper():{3 * ROW - 1}}  {letters}")


def file(name) -> int:
    taken = read(name)
    if len(taken) > proved.MOST_INPUT:
        fail(TOOL, f"{name} has more than {proved.MOST_INPUT:,} bytes", 1)
    if len(taken) < files.FILE_HEADER or int.from_bytes(taken[:4], "big") != files.CONTENT:
        fail(TOOL, f"no file with cFE's file header: {content.kind_of(taken[:content.FRONT]).said_of(name, taken[:8])}", 1)
    fields_of(taken, names.fields("file header"), "file header")
    subtype = int.from_bytes(taken[4:8], "big")
    if subtype == files.REGISTRY_SUBTYPE:
        for at in range(files.FILE_HEADER, len(taken) - files.REGISTRY_RECORD + 1, files.REGISTRY_RECORD):
            fields_of(taken[at:at + files.REGISTRY_RECORD], names.fields("registry"), f"registry record, at byte {at}")
        return 0
    found = files.read_table_file(taken)
    if subtype != files.TABLE_SUBTYPE or found is None:
        print("bytes after the header" if len(taken) > files.FILE_HEADER else "no bytes after the header")
        rows(taken[files.FILE_HEADER:], files.FILE_HEADER)
        return 0
    values, image = found
    fields_of(taken, names.fields("table file header"), "table file header")
    stated = values["image bytes"]
    print(f"image, {counted(len(image), 'byte')} by their offset in the table" + ("" if stated == len(image) else f"; the file states {stated}"))
    rows(image, values["offset"])
    return 0


def main(chosen, parser) -> int:
    word = parser.prog.split()[-1]
    if word == "file":
        return file(chosen.file)
    if chosen.written not in TO_OUTPUT:
        inputs.keep(TOOL, f"-o {chosen.written}", chosen.written, [getattr(chosen, WORDS[word][1][-1])])
    if word == "make":
        return make(chosen.description, chosen.written)
    return describe(chosen.shape, chosen.file, chosen.written)
