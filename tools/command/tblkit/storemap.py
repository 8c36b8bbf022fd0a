"""A map of the Critical Data Store in a bank: as text, and as a page with its slots and its bytes."""
from collections.abc import Iterator
from typing import Any

from . import names, store
from .numbers import counted, noun
from .pages import element, fitting, legend, page, swatch, table, text

FIRST_BYTES = 8
WHOLE, RESERVED, TORN = "whole", "reserved, no image", "torn"
OWNERS = {"table": "a table", "application": "an application"}
# The kinds of bars.
KINDS = {WHOLE: "whole", RESERVED: "stripes reserved", TORN: "crossed torn"}
DIRECTORY, FREE, HIDDEN, UNUSED = "lines directory", "empty free", "dotted hidden", "unused"
LEGEND = (*((kind, words) for words, kind in KINDS.items()), (HIDDEN, "a place that doesn't show"), (DIRECTORY, "directory"),
          (FREE, "free"), (UNUSED, "not used"))
# How many bytes a row of the picture has.
ROW = 8_192
HEADS = ("slot", "place", "bytes", "whose", "name", "state", "shows", "check word", "image")
FREE_HEADS = ("free from", "to", "bytes", "the greatest block there")
STYLE = """\
.whole { --color: var(--validated); } .reserved { --color: var(--open); } .torn { --color: var(--refused); }
.hidden { --color: var(--hidden); } .directory { --color: var(--directory); } .bar.unused { border-style: dashed; background: var(--panel); }
.map { display: flex; flex-wrap: wrap; gap: 16px 28px; margin: 12px 0; }
.map > * { min-width: 0; } .slots { flex: 1 1 300px; max-width: 384px; } .bank { flex: 3 1 320px; }
.grid { display: grid; grid-template-columns: repeat(16, minmax(0, 1fr)); gap: 2px; }
.grid .bar { height: 21px; font: 10px/19px system-ui, sans-serif; text-align: center; overflow: hidden; }
.grid .stripes span, .grid .crossed span { background: var(--page); padding: 1px 2px; }
.row { display: flex; gap: 6px; align-items: center; margin-bottom: 2px; font: 10px/15px system-ui, sans-serif; color: var(--muted); }
.row > span { flex: 0 0 40px; text-align: right; white-space: nowrap; } .row div { flex: 1; position: relative; height: 17px; }
.row .bar { position: absolute; top: 0; height: 17px; }
"""


class Map:
    """A bank as it is mapped: its blocks by their slots with what stands in them, the entries that don't count, and what is free.
    `content` may be shorter than a bank, as a store file may."""

    def __init__(self, content) -> None:
        self.length = len(content)
        bank = content[:store.SIZE].ljust(store.SIZE, b"\0")
        entries = store.entries(bank)
        self.version, self.size = store.version(bank), store.size_of(bank)
        self.ignored = [it for it in entries if it.fault]
        self.blocks = [(it, store.block(bank, it)) for it in entries if not it.fault]

    @property
    def free(self) -> int:
        """How many bytes the blocks leave."""
        return store.free([it for it, _ in self.blocks])

    @property
    def gaps(self) -> list[tuple[int, int]]:
        """The free pieces between first places: where each begins and how many bytes it has."""
        found, at = [], store.BLOCKS
        for begin, end in [*sorted((it.offset, it.end) for it, _ in self.blocks), (store.BLOCKS_END, store.BLOCKS_END)]:
            if begin > at:
                found.append((at, begin - at))
            at = end
        return found


def state_of(block) -> str:
    """Whether a block is whole, torn, or has no image yet, since neither place shows or, in version 1, the length is 0."""
    if block.is_whole:
        return WHOLE
    return TORN if block.shown and (len(block.places) > 1 or block.shown.length) else RESERVED


def summary(name, found) -> str:
    """The store in a line."""
    gaps = found.gaps
    greatest = f" in {counted(len(gaps), 'gap')}, the greatest {max(it[1] for it in gaps):,}" if gaps else ""
    return f"{name}: {len(found.blocks)} of {store.SLOTS} slots, {found.free:,} of {store.ROOM:,} bytes free{greatest}"


def notes(found) -> Iterator[str]:
    """What has to be said of a bank beside its blocks."""
    if found.version is None:
        yield f"It doesn't begin with {store.LIVE.decode()}, so it has no blocks: the next boot writes an empty directory."
    if found.version == 1:
        yield "It is of version 1, in which a block has one place: the next boot of the processor carries it over."
    if found.length < found.size:
        yield f"It has {found.length:,} {noun(found.length, 'byte')}; the program writes zeros after them, up to {store.SIZE:,}."
    for it in found.ignored:
        yield (f"The entry of slot {it.slot} has an open gate and doesn't count, since {it.fault}: a boot of the processor "
               "closes it.")


def _shows(block) -> str:
    """Which place shows."""
    return "none" if block.number is None else store.PLACES[block.number]


def _image_words(block) -> str:
    image = block.shown.image if state_of(block) != RESERVED else b""
    digits = image[:FIRST_BYTES].hex().upper()
    return digits + (".." if len(image) > FIRST_BYTES else "")


def _check_words(block) -> str:
    if state_of(block) == RESERVED:
        return "-"
    kept = f"0x{block.shown.check:04X}"
    return kept if block.is_whole else f"{kept}, found 0x{block.shown.found:04X}"


def lines(name, found) -> Iterator[str]:
    """The map as text: the blocks by their slots, then what is free by its place."""
    yield summary(name, found)
    yield from notes(found)
    for heads, rows in _listed(found):
        yield ""
        yield from _columns([heads, *rows])


def _listed(found) -> list[tuple[Any, Any]]:
    """The lists of blocks and of gaps, as far as there are any: the heads of the columns, and the rows."""
    blocks = [(str(it.slot), str(it.offset), str(it.size), store.KINDS[it.kind], names.quoted(it.name), state_of(block),
               _shows(block), _check_words(block), _image_words(block)) for it, block in found.blocks]
    gaps = [(str(at), str(at + size - 1), str(size), _room(size)) for at, size in found.gaps]
    return [(heads, rows) for heads, rows in ((HEADS, blocks), (FREE_HEADS, gaps)) if rows]


def _room(size) -> str:
    """How great an image can be whose block fits into so many bytes."""
    return str(min(size - store.HEAD, store.MOST)) if size > store.HEAD else "none"


def _columns(rows) -> Iterator[str]:
    widths = [max(len(row[at]) for row in rows) for at in range(len(rows[0]))]
    for row in rows:
        yield "  ".join(cell.ljust(width) for cell, width in zip(row, widths)).rstrip()


def _pieces(offset, size) -> Iterator[tuple[int, int, int]]:
    """A piece of the bank by the rows of the picture: of each row where it begins there, and how many of its bytes it has."""
    while size > 0:
        row, at = divmod(offset, ROW)
        length = min(size, ROW - at)
        yield row, at, length
        offset, size = offset + length, size - length


def _block_words(entry, block) -> str:
    words = f"slot {entry.slot}, {names.quoted(entry.name)} of {OWNERS[store.KINDS[entry.kind]]}: {counted(entry.size, 'byte')} at {entry.offset}"
    if state_of(block) == RESERVED:
        return f"{words}, {RESERVED}"
    return (f"{words}, {state_of(block)}, the {_shows(block)} place shows, check word {_check_words(block)}, "
            f"image {_image_words(block)}")


def _slots(found) -> Iterator[str]:
    by_slot = {it.slot: (it, block) for it, block in found.blocks}
    for slot in range(store.SLOTS):
        used = by_slot.get(slot)
        state = state_of(used[1]) if used else "free"
        yield element("span", element("span", str(slot)), class_=f"bar {KINDS.get(state, FREE)}",
                      title=_block_words(*used) if used else f"slot {slot} is free", data_slot=slot, data_state=state)


class _Bank:
    """The bank in rows: bars of its pieces, each in the row in which it begins."""

    def __init__(self, size) -> None:
        self._rows = [[] for _ in range(size // ROW)]

    def add(self, offset, size, kind, words, of, name="") -> None:
        """Adds a piece of the bank, with a name where there is room for it."""
        label = fitting(name) if name else ""
        for row, at, length in _pieces(offset, size):
            place = f"left: {100 * at / ROW:.3f}%; width: {100 * length / ROW:.3f}%"
            self._rows[row].append(element("span", label, class_=f"bar {kind}", style=place, title=words,
                                           data_place=row * ROW + at, data_bytes=length, data_of=of))

    def rows(self) -> list[str]:
        """The rows, each with the place of its first byte."""
        return [element("div", element("span", str(number * ROW)) + element("div", "".join(bars)), class_="row")
                for number, bars in enumerate(self._rows)]


def _bank(found) -> list[str]:
    bank = _Bank(found.size)
    bank.add(0, store.BLOCKS, DIRECTORY, "the directory", "directory")
    for half in range(0, found.size, store.BETWEEN):
        for at, size in found.gaps:
            bank.add(half + at, size, FREE, f"{counted(size, 'byte')} free from {half + at} on", "free")
    if found.size > store.BETWEEN:
        bank.add(store.BETWEEN, store.BLOCKS, UNUSED, "not used", "unused")
    for entry, block in found.blocks:
        words = _block_words(entry, block)
        for number, place in enumerate(block.places):
            name = f"{words}; its {store.PLACES[number]} place" if len(block.places) > 1 else words
            kind = KINDS[state_of(block)] if number == block.number else HIDDEN
            bank.add(place.at, store.HEAD + entry.size, kind, name, f"slot {entry.slot}", names.quoted(entry.name))
    return bank.rows()


def html(name, found) -> str:
    """The map as a page."""
    slots = element("section", element("h2", "Slots") + element("div", "".join(_slots(found)), class_="grid"), class_="slots")
    bank = element("section", element("h2", f"Bank, {ROW:,} bytes a row") + "\n".join(_bank(found)), class_="bank")
    listed = [table(heads, [map(text, it) for it in rows], class_="cards") for heads, rows in _listed(found)]
    body = [element("h1", text(summary(name, found))), *(element("p", text(it)) for it in notes(found)),
            legend([(swatch(kind), words) for kind, words in LEGEND]), element("div", slots + bank, class_="map"), *listed]
    return page(name, "\n".join(body), STYLE)
