"""What is in a store file, as the program's word `store` writes it: a line for each block, and one for all.

    cfetbl store [--long | --all] [FILE]

    0 8208 8 T NAV.MODES torn
    blocks 1 free 122848

A line of a block has its slot, where its first place begins, the size of its image, T for a table's block or A for an application's,
its full name, and whether it is whole or torn. The last line has how many blocks there are, and how many bytes are free.

Indented lines aren't the program's. They say why a torn block is torn, and why an entry that is open doesn't count (the next start
closes it). A block is torn if neither place shows, since no copy into it completed, or if the bytes of the one that shows were
damaged; then the line has the length and the check word of its head, and the check word of its bytes.
docs/reference/store.md has every byte.

FILE is the store file of a program, 262,144 bytes of preserved memory, or 131,072 in version 1, in which a block has one place;
the next start carries such a store over. Without FILE it is cds.store in the working folder. `--store FILE` names it as for
`cfetbl play`. The program works on a copy, so FILE is never written, and may be in use.

    --long      below the line of each block which place shows, its check word, and its first bytes, and how large a further block
                may be
    --all       the same with all bytes of each block
    --begins    says in a line what a session that is played over FILE begins with, even if FILE isn't there yet
    --user      says in a line which process has FILE in use, or nothing

Exit status: 0; 1 if the file has fewer bytes than a store, which are taken as zeros, or if no store is live in it; 2 for
wrong use, or if it can't be read; 4 if a write fails; 125 if there is no program.
"""
from tblkit import locks, proved, store, stores
from tblkit.numbers import noun
from tblkit.streams import fail, opened, say

TOOL = "cfetbl store"
SHORT = 16
INDENT = 4 * " "


def image_of(content, whole) -> str:
    """The bytes of an image in words: all of them, or the first ones."""
    front = content if whole else content[:SHORT]
    left = len(content) - len(front)
    return "bytes " + front.hex().upper() + (f" and {left:,} more" if left else "")


def where(entry, block) -> str:
    """The place that shows, where there are two."""
    return f"{store.PLACES[block.number]} place (turn bytes {entry.turns.hex().upper()})" if len(block.places) > 1 else ""


def state_of(entry, block) -> str:
    """What is whole or torn about a block."""
    place = block.shown
    if place is None:
        return f"neither place shows (turn bytes {entry.turns.hex().upper()})"
    if block.is_whole:
        return ", ".join(filter(None, (where(entry, block), f"check word 0x{place.check:04X}")))
    if len(block.places) == 1 and not place.length:
        return "no image was copied into it whole (length 0)"
    has = f"{where(entry, block)} has length" if len(block.places) > 1 else "length"
    return f"{has} {place.length:,}, check word 0x{place.check:04X}, and its bytes have 0x{place.found:04X}"


def told_of(bank, entry, is_long, whole) -> str:
    """The line below that of an entry; empty where there is none."""
    if entry.fault:
        return f"slot {entry.slot} is open and doesn't count: {entry.fault} (the next start closes it)"
    block = store.block(bank, entry)
    if not is_long and block.is_whole:
        return ""
    return "; ".join([state_of(entry, block), *([image_of(block.shown.image, whole)] if is_long and block.shown else [])])


def room_of(bank) -> str:
    """The line below the last one."""
    blocks = store.counted(bank)
    most = store.most_fitting(blocks)
    fits = f"a block of up to {most:,} {noun(most, 'byte')} finds a place" if most else "no further block finds a place"
    return f"{store.greatest_gap(blocks):,} bytes of them together: {fits}"


def content_of(name) -> tuple[bytes, bool]:
    """The bytes of preserved memory, and whether all of them are in the file."""
    with opened(name) as source:
        content = source.read(store.SIZE)
    return content.ljust(store.SIZE, b"\0"), len(content) >= store.size_of(content)


def add_arguments(parser) -> None:
    ways = parser.add_mutually_exclusive_group()
    for option in ("--long", "--all", "--begins", "--user"):
        ways.add_argument(option, action="store_true")
    stores.add_file(parser)


def main(chosen, parser) -> int:
    stores.named(parser, chosen)
    if chosen.begins:
        print(stores.begins(TOOL, chosen.file))
        return 0
    if chosen.user:
        print(locks.in_use(chosen.file))
        return 0
    return tell(chosen.file, chosen.long or chosen.all, chosen.all)


def tell(name, is_long, whole) -> int:
    """Writes what the program tells of a store file, and below its lines what it doesn't tell."""
    bank, is_whole_file = content_of(name)
    if not is_whole_file:
        say(f"{TOOL}: {name} has fewer than {store.size_of(bank):,} bytes; those that are missing are taken as zeros, as a program does")
    if not store.is_live(bank):
        say(f"{TOOL}: no store is live in {name}: it doesn't begin with CDS (the next start makes an empty one)")
    try:
        text = proved.store(bank).decode("ascii")
    except proved.NoAnswer as none:
        fail(TOOL, none, none.status)
    if text != store.text(bank):
        print(text, end="")
        fail(TOOL, f"this tool reads {name} in another way than the program, so it adds nothing to the program's lines", 1)
    write_lines(bank, iter(text.splitlines()), is_long, whole)
    return 0 if is_whole_file and store.is_live(bank) else 1


def write_lines(bank, lines, is_long, whole) -> None:
    """Writes the lines of the program, each with what is told below it."""
    for entry in store.entries(bank):
        if not entry.fault:
            print(next(lines))
        if below := told_of(bank, entry, is_long, whole):
            print(INDENT + below)
    print(next(lines))
    if store.version(bank) == 1:
        print(f"{INDENT}the store is of version 1, in which a block has one place: the next start carries it over")
    if is_long:
        print(INDENT + room_of(bank))
