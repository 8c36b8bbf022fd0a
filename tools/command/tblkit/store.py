"""The bytes of preserved memory, docs/reference/store.md: the directory, which entries count, and what stands in the places of their blocks."""
from dataclasses import dataclass

from . import layouts, names
from .layouts import number

LIVE = b"CDS"
# After the live letters stands the version. In a store of version 1 a block has one place, and its second half isn't there.
VERSION_1 = b"1"
ENTRY, HEAD_OF = (layouts.shape(it) for it in ("store entry", "block head"))
DIRECTORY, SLOTS = number("first byte of the entries"), number("blocks of the Critical Data Store")
# The first places of blocks lie from here to there, and the second place of each so many bytes further on.
BLOCKS, BLOCKS_END = number("first byte of the first places"), number("end of the first places")
BETWEEN = number("bytes from a first place to the second")
SIZE, ROOM, MOST = (number(it) for it in ("bytes of preserved memory", "all blocks together", "bytes of a block's image"))
HEAD = HEAD_OF.size
OPEN = number("gate byte of an open block")
KINDS = names.words("block kind")
# The turn bytes of an open place, by its turn. Any other byte is a closed one.
TURNS = bytes(names.words("turn"))
PLACES = ("first", "second")


def check_word(content) -> int:
    """CRC-16/ARC."""
    word = 0
    for byte in content:
        word ^= byte
        for _ in range(8):
            word = word >> 1 ^ 0xA001 if word & 1 else word >> 1
    return word


@dataclass(frozen=True)
class Entry:
    """An entry whose gate is open. `fault` says why it doesn't count; it is empty where it does."""
    slot: int
    kind: int
    offset: int
    size: int
    name: bytes
    turns: bytes
    fault: str

    @property
    def end(self) -> int:
        return self.offset + HEAD + self.size

    @property
    def key(self) -> tuple[int, bytes]:
        return self.kind, self.name


@dataclass(frozen=True)
class Place:
    """What stands in a place of a block: its head, and the bytes after that."""
    at: int
    length: int
    check: int
    image: bytes

    @property
    def found(self) -> int:
        """The check word of its bytes."""
        return check_word(self.image)

    @property
    def is_whole(self) -> bool:
        return self.length == len(self.image) and self.check == self.found


@dataclass(frozen=True)
class Block:
    """The block of an entry that counts: its places, and the number of the one that shows, or none."""
    places: tuple
    number: int | None

    @property
    def shown(self) -> Place | None:
        return None if self.number is None else self.places[self.number]

    @property
    def is_whole(self) -> bool:
        return self.shown is not None and self.shown.is_whole


def is_live(bank) -> bool:
    return bank.startswith(LIVE)


def version(bank) -> int | None:
    """The version of the store in a bank, None where none is live."""
    if not is_live(bank):
        return None
    return 1 if bank[len(LIVE):].startswith(VERSION_1) else 2


def size_of(bank) -> int:
    """How many bytes a bank has that begins so."""
    return BLOCKS_END if version(bank) == 1 else SIZE


def place_by(turns) -> int | None:
    """Which place shows by these two turn bytes: 0 the first, 1 the second, or none."""
    first, second = map(TURNS.find, turns)
    if first < 0:
        return None if second < 0 else 1
    return 1 if second == (first + 1) % len(TURNS) else 0


def _fault(field, kind, offset, size, earlier) -> str:
    """Why an open entry with these fields doesn't count, by the first rule that it breaks. `field` is that of its name."""
    name = names.name_in(field)
    if kind not in KINDS:
        return f"its kind is {kind}"
    if not 1 <= size <= MOST:
        return f"its size is {size}"
    if offset < BLOCKS or offset + HEAD + size > BLOCKS_END:
        return f"its block would be at {offset}"
    if not names.is_name(name) or field[len(name):].strip(b"\0"):
        return "its name field doesn't read as a name"
    for other in earlier:
        if offset < other.end and other.offset < offset + HEAD + size:
            return f"its block has bytes in common with that of slot {other.slot}"
    for other in earlier:
        if (kind, name) == other.key:
            return f"slot {other.slot} has its kind and name"
    return ""


def entries(bank) -> list[Entry]:
    """The entries whose gate is open, by slot. A bank that isn't live has none."""
    found = []
    for slot in range(SLOTS if is_live(bank) else 0):
        gate, kind, _, offset, size, field, *turns, _ = ENTRY.unpack_from(bank, DIRECTORY + slot * ENTRY.size)
        if gate != OPEN:
            continue
        fault = _fault(field, kind, offset, size, [it for it in found if not it.fault])
        found.append(Entry(slot, kind, offset, size, names.name_in(field), bytes(turns), fault))
    return found


def counted(bank) -> list[Entry]:
    return [it for it in entries(bank) if not it.fault]


def _place(bank, at, size) -> Place:
    length, check, _ = HEAD_OF.unpack_from(bank, at)
    return Place(at, length, check, bank[at + HEAD:at + HEAD + size])


def block(bank, entry) -> Block:
    """What stands in the places of an entry that counts, and which of them shows."""
    if version(bank) == 1:
        return Block((_place(bank, entry.offset, entry.size),), 0)
    places = (_place(bank, entry.offset + it * BETWEEN, entry.size) for it in range(len(PLACES)))
    return Block(tuple(places), place_by(entry.turns))


def free(blocks) -> int:
    """How many bytes the first places of the blocks leave. They needn't lie together."""
    return ROOM - sum(HEAD + it.size for it in blocks)


def greatest_gap(blocks) -> int:
    """How many bytes lie together at most that no block has."""
    gap, at = 0, BLOCKS
    for entry in sorted(blocks, key=lambda it: it.offset):
        gap, at = max(gap, entry.offset - at), entry.end
    return max(gap, BLOCKS_END - at)


def most_fitting(blocks) -> int:
    """The size of the largest block that finds a place, 0 where none does."""
    return max(0, min(MOST, greatest_gap(blocks) - HEAD)) if len(blocks) < SLOTS else 0


def text(bank) -> str:
    """The store as text, docs/reference/store.md: a line for each block that counts, and one for all."""
    blocks = counted(bank)
    lines = [f"{it.slot} {it.offset} {it.size} {KINDS[it.kind][0].upper()} {it.name.decode()} {'whole' if block(bank, it).is_whole else 'torn'}"
             for it in blocks]
    return "".join(f"{line}\n" for line in (*lines, f"blocks {len(blocks)} free {free(blocks)}"))
