"""Sessions as text.

    cfetbl text [SESSION]           reads lines of text, and writes the records of the session
    cfetbl text --back [SESSION]    reads the records of a session, and writes lines of text
    cfetbl text --kind FILE         writes what FILE is by its first bytes: `text`, `records`, or other in words

It reads SESSION, or standard input without it or with -, and writes standard output. A line is one request:

    ground NOOP | RESET_COUNTERS | HOUSEKEEPING
    ground LOAD FILE | DUMP_REGISTRY FILE
    ground ACTIVATE TABLE | SEND_REGISTRY TABLE | DELETE_CDS TABLE | ABORT_LOAD TABLE
    ground VALIDATE IMAGE TABLE
    ground DUMP IMAGE TABLE FILE
    ground packet BYTES                                  any bytes as packet
    file FILE DATA                                       a file is uplinked into the file store
    file FILE table TABLE [at OFFSET] [HEADER..] DATA    a table file, with DATA as image bytes from OFFSET on
    file FILE made DESCRIPTION                           the table file that `cfetbl make` makes of a description
    file FILE built OBJ [MEMBER..] [HEADER..]            the table file that `cfetbl table build` makes of an object file
    file FILE set OBJ [MEMBER..] [HEADER..] FIELD=VALUE..    the part that `cfetbl table set` makes of it
    time SECONDS SUBSECONDS
    reset processor|power-on
    app N start NAME                                     N: the application's number, 1 to 16
    app N register NAME size COUNT [OPTION..] [validator NUMBER]
    app N share TABLE | get-info TABLE
    app N load HANDLE DATA
    app N load-file HANDLE FILE
    app N edit HANDLE at OFFSET DATA
    app N read HANDLE at OFFSET length COUNT
    app N notify HANDLE message NUMBER code NUMBER parameter NUMBER
    app N get HANDLE | release HANDLE | update HANDLE | validate HANDLE | manage HANDLE
    app N dump-to-buffer HANDLE | get-status HANDLE | unregister HANDLE
    app N exit
    app N cds-register NAME size COUNT
    app N cds-copy SLOT DATA
    app N cds-restore SLOT | cds-delete SLOT
    bytes BYTES                                          bytes as they are: a bad record, or a part of one

    BYTES   0102..    empty
    DATA    hex 0102..    fill AA 16 (16 bytes AA)    from PATH (the bytes of a file here)    empty
    IMAGE   inactive    active    NUMBER (any other selector)
    OPTION  double    dump-only    critical    options NUMBER (all of them instead of the words)
    HEADER  a field of the file with another value than by default: content NUMBER, subtype NUMBER, length NUMBER,
            spacecraft NUMBER, processor NUMBER, application NUMBER, seconds NUMBER, subseconds NUMBER, description NAME,
            reserved NUMBER, or states NUMBER for the number of image bytes
    MEMBER  member PATH=NAME, the member of a union that is shown (`cfetbl table --help`)

A command, which is a ground line other than packet, may end in `count NUMBER`, its sequence count.

What --back writes gives the same bytes again, of any input: a comment says why bytes are no record.

A wrong line is reported as FILE:LINE:COLUMN, what was expected and what was found there. The line with a caret follows, and the
words that are allowed there. Up to ten wrong lines are reported at once.

Numbers are decimal, or hexadecimal with 0x. TABLE is a full name, as CS_APP.DefEeprom. A name with other characters than
those of ASCII that print is written in quotes, with \\xNN for a byte. PATH, DESCRIPTION and OBJ are regular files, sought from
the folder of the session. A comment begins with # and ends with its line. A byte order mark of UTF-8 before the first line is
skipped. Whether a request makes sense is for the service to say: here a name only has to fit into its field.

Exit status: 0; 1 if a line is wrong, and then nothing is written; 2 for wrong use, or if a file isn't text or can't be read;
4 if a write fails.
"""
import shutil
import sys
import tempfile

from tblkit import content, text
from tblkit.streams import WRONG_USE, binary_output, fail, opened, say

TOOL = "cfetbl text"
IN_MEMORY = 1 << 24
ANSWERS = {content.Kind.TEXT: "text", content.Kind.RECORDS: "records"}


def to_records(source, name) -> int:
    """Nothing is written before all lines are read, so a long session waits in a file."""
    front = content.front_of(source)
    kind = content.kind_of(front)
    if front and kind is not content.Kind.TEXT:
        fail(TOOL, kind.said_of(name, front), WRONG_USE)
    with tempfile.SpooledTemporaryFile(IN_MEMORY) as whole:
        try:
            text.to_records(source, whole, text.folder_of(name), "<stdin>" if name == "-" else name, say)
        except text.WrongLines as wrong:
            say(str(wrong))
            return 1
        whole.seek(0)
        shutil.copyfileobj(whole, binary_output(TOOL, "a session as records"))
    return 0


def tell_kind(source, name) -> int:
    front = content.front_of(source)
    kind = content.kind_of(front)
    print(ANSWERS.get(kind) or kind.said_of(name, front))
    return 0


def add_arguments(parser) -> None:
    ways = parser.add_mutually_exclusive_group()
    for option in ("--back", "--kind"):
        ways.add_argument(option, action="store_true")
    parser.add_argument("file", nargs="?", default="-")


def main(chosen, _parser) -> int:
    with opened(chosen.file) as source:
        if chosen.kind:
            return tell_kind(source, chosen.file)
        if not chosen.back:
            return to_records(source, chosen.file)
        text.to_text(source, sys.stdout.buffer)
        return 0
