"""Table files of a definition: the whole one, a part, and what a file has by its fields."""
from collections import Counter
from collections.abc import Iterable, Iterator
from dataclasses import dataclass

from .. import files, names
from . import values
from .definitions import Definition
from .kinds import ByteOrder
from .layout import Field, Layout, Padding
from .wrong import Wrong


@dataclass(frozen=True)
class Part:
    """The bytes of an image from an offset on."""
    offset: int
    content: bytes

    @property
    def end(self) -> int:
        return self.offset + len(self.content)

    def has(self, field: Field) -> bool:
        """Whether a field is in it as a whole."""
        return self.offset <= field.begin and field.end <= self.end

    def touches(self, field: Field) -> bool:
        return field.begin < self.end and self.offset < field.end

    def text_of(self, field: Field) -> str:
        return values.text_of(field, field.raw(self.content, self.offset))


def table_file(of: Definition, part: Part, header: dict | None = None) -> bytes:
    """The file of a part of the table, with these fields of its headers other than they are by default."""
    stated = {"table": of.table.encode(), "offset": part.offset, "description": of.description}
    return files.table_file(part.content, stated | (header or {}))


def whole(of: Definition) -> Part:
    return Part(0, of.image)


def part_of(of: Definition, path: str, content: bytes) -> Part:
    """The part of the table that a file has, which is a file of this table."""
    found = files.read_table_file(content)
    if found is None or found[0]["content"] != files.CONTENT or found[0]["subtype"] != files.TABLE_SUBTYPE:
        raise Wrong(f"{path}: it is no table file")
    header, image = found
    if header["table"] != of.table.encode():
        raise Wrong(f"{path}: it is a file of the table {names.quoted(header['table'])}, and {of.path} defines {of.table}")
    if header["image bytes"] != len(image):
        raise Wrong(f"{path}: it states {header['image bytes']} image bytes, and has {len(image)}")
    if not image or header["offset"] + len(image) > of.layout.size:
        raise Wrong(f"{path}: its {len(image)} image bytes from offset {header['offset']} on are no part of the {of.layout.size} bytes "
                    f"of {of.table}")
    return Part(header["offset"], image)


def over(base: Part, part: Part) -> Part:
    """A whole image with a part put over it."""
    return Part(0, base.content[:part.offset] + part.content + base.content[part.end:])


@dataclass(frozen=True)
class Assignment:
    """A field with the bits that it gets."""
    field: Field
    raw: int


def assignment(layout: Layout, word: str) -> Assignment:
    """What a word sets, as wdt[3].limit=77.5."""
    name, sign, text = word.partition("=")
    name, text = name.strip(), text.strip()
    if not sign or not name:
        raise Wrong(f"{word}: expected FIELD=VALUE, as wdt[3].limit=77.5")
    field = layout.field(name)
    return Assignment(field, values.raw_of(field, text))


@dataclass(frozen=True)
class Changed:
    """A part with fields that were set in it: these, each with its value before, and the others that are in it too."""
    part: Part
    fields: tuple[tuple[Field, str], ...]
    others: tuple[Field, ...]


def changed(of: Definition, base: Part, words: Iterable[str], is_whole: bool) -> Changed:
    """An image in which fields are set, or the smallest run of bytes that has these fields."""
    settings = [assignment(of.layout, word) for word in words]
    twice = next((name for name, count in Counter(it.field.name for it in settings).items() if count > 1), None)
    if twice:
        raise Wrong(f"{twice}: it is set twice")
    image = bytearray(base.content)
    for it in settings:
        it.field.with_raw(image, it.raw)
    begin, end = (0, len(image)) if is_whole else (min(it.field.begin for it in settings), max(it.field.end for it in settings))
    part = Part(begin, bytes(image[begin:end]))
    own = {it.field.name for it in settings}
    others = () if is_whole else tuple(it for it in of.layout.fields if part.touches(it) and it.name not in own)
    return Changed(part, tuple((it.field, base.text_of(it.field)) for it in settings), others)


def padding_in(padding: Padding, part: Part, order: ByteOrder) -> bytes:
    """The bits of a padding as bytes, as far as they are in a part: those of other fields are zeros."""
    begin, end = max(padding.place // 8, part.offset), min((padding.place + padding.bits + 7) // 8, part.end)
    return bytes(part.content[at - part.offset] & _mask(padding, at, order) for at in range(begin, end))


def _mask(padding: Padding, at: int, order: ByteOrder) -> int:
    """The bits of a byte that a padding has."""
    first, last = max(padding.place - 8 * at, 0), min(padding.place + padding.bits - 8 * at, 8)
    bits = (1 << last - first) - 1
    return bits << first if order == "little" else bits << 8 - last


def dump(of: Definition, part: Part) -> Iterator[str]:
    """The lines of a part: each field with its value, and as remarks padding that isn't zero and fields that are cut."""
    for it in of.layout.fields:
        if part.has(it):
            yield f"{it.name} = {part.text_of(it)}"
        elif part.touches(it):
            yield f"# {it.name}: only a part of its {it.end - it.begin} bytes is there"
    for gap in of.layout.padding:
        raw = padding_in(gap, part, of.order)
        if any(raw):
            yield f"# {padding_words(gap)} isn't zero: {raw.hex().upper()}"


def padding_words(padding: Padding) -> str:
    if padding.place % 8 or padding.bits % 8:
        return f"padding of {padding.bits} bit{'s' * (padding.bits > 1)} in byte {padding.place // 8}"
    return f"padding of {padding.bits // 8} byte{'s' * (padding.bits > 8)} at {padding.place // 8}"


@dataclass(frozen=True)
class Difference:
    """Where two parts differ: the lines of fields, those of padding, and how many fields aren't in both."""
    fields: tuple[str, ...]
    padding: tuple[str, ...]
    left_out: int


def difference(of: Definition, first: Part, second: Part) -> Difference:
    """How two parts differ in the fields that both have."""
    both = [it for it in of.layout.fields if first.has(it) and second.has(it)]
    if not both:
        raise Wrong(f"bytes {first.offset} to {first.end - 1} and {second.offset} to {second.end - 1} of {of.table} have no field in "
                    "common")
    fields = (f"{it.name}: {first.text_of(it)} -> {second.text_of(it)}" for it in both
              if it.raw(first.content, first.offset) != it.raw(second.content, second.offset))
    return Difference(tuple(fields), tuple(_padding_that_differs(of, first, second)), len(of.layout.fields) - len(both))


def _padding_that_differs(of: Definition, first: Part, second: Part) -> Iterator[str]:
    for it in of.layout.padding:
        raw = [padding_in(it, part, of.order) for part in (first, second)]
        if all(raw) and len(raw[0]) == len(raw[1]) and raw[0] != raw[1]:
            yield f"# {padding_words(it)} differs: {raw[0].hex().upper()} -> {raw[1].hex().upper()}"
