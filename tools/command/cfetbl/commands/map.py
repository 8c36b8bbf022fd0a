"""The Critical Data Store in a store file.

    cfetbl map [STORE]              lists its blocks by their slots, and what is free between them
    cfetbl map -o FILE [STORE]      makes a page of it: its 128 slots, and each block in its place

STORE is a store file of the program (cds.store in the working folder without a name), or any bytes that may be in preserved memory;
- is standard input. `--store FILE` names it as for `cfetbl play`. It is only read. Each block has a line: whose it is, where its first
place begins, its size without the head of 8 bytes, its state, which of its two places shows, and the check word and the first bytes
of that place. Its state is whole; reserved and without an image, since no copy into it completed; or torn, which means that the bytes
of the place that shows don't match its head. A torn block has both check words: that of its head, and that of its bytes. What is free
is listed for the first places; the second ones are 131,072 bytes further on in the same order. A block of version 1 has one place. An
entry with an open gate that doesn't count is listed with the reason. docs/reference/store.md has each byte.

Exit status: 0; 2 for wrong use, or if the file isn't a store file or can't be read; 4 if a write fails.
"""
import contextlib

from tblkit import content, inputs, store, storemap, stores
from tblkit.streams import WRONG_USE, fail, opened, output_to

TOOL = "cfetbl map"


def add_arguments(parser) -> None:
    parser.add_argument("-o", dest="output")
    stores.add_file(parser)


def bank_of(name) -> storemap.Map:
    """The bank in a file. One that another tool reads is told with that."""
    with opened(name) as source:
        front = content.front_of(source)
        found = source.read(store.SIZE + 1)
    other = stores.other_words(name, front, found)
    if other:
        fail(TOOL, f"no store file: {other}", WRONG_USE)
    return storemap.Map(found)


def main(chosen, parser) -> int:
    stores.named(parser, chosen)
    if chosen.output not in (None, "-"):
        inputs.keep(TOOL, f"-o {chosen.output}", chosen.output, [chosen.file])
    found = bank_of(chosen.file)
    name = "standard input" if chosen.file == "-" else chosen.file
    if chosen.output is None:
        print("\n".join(storemap.lines(name, found)))
        return 0
    with contextlib.ExitStack() as closing:
        output_to(chosen.output, closing).write(storemap.html(name, found))
    return 0
