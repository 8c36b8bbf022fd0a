"""The file of a table as definitions for ground systems: a container of XTCE, and a table of OpenC3's Table Manager."""
import math
import re
from collections.abc import Iterator
from dataclasses import dataclass
from typing import Any

from .. import dictionary, files, names, xtce as xtce_text
from . import kinds, values
from .definitions import Definition
from .kinds import ByteOrder
from .layout import BYTES, TEXT, Field, Padding

HEADER = ("file header", "table file header")
WHOLE_NUMBERS = (8, 16, 32, 64)
# What a user of Table Manager doesn't change: the service checks these.
FIXED = ("content", "subtype", "length", "reserved", "offset", "image bytes", "table")


class Keys:
    """Names of fields as words of letters, digits and _, each another one."""

    def __init__(self) -> None:
        self._taken: set[str] = set()

    def of(self, name: str) -> str:
        key = plain = re.sub(r"[^A-Za-z0-9_]+", "_", name).strip("_") or "field"
        number = 1
        while key.upper() in self._taken:
            number += 1
            key = f"{plain}_{number}"
        self._taken.add(key.upper())
        return key


@dataclass(frozen=True)
class Piece:
    """What comes next in the bits of an image, the high bit of each byte first: a field, a padding, or the bytes of several."""
    place: int
    bits: int
    field: Field | None = None
    name: str = ""


def in_order(of: Definition) -> list[Any]:
    """The fields of an image and its padding, by their places."""
    return sorted((*of.layout.fields, *of.layout.padding), key=lambda it: it.place)


def _pieces(of: Definition) -> Iterator[Piece]:
    """The pieces of an image, one after the other."""
    run: list[Field | Padding] = []
    for it in in_order(of):
        run.append(it)
        if (it.place + it.bits) % 8 == 0:
            yield from _run(run, of.order)
            run = []


def _run(run: list[Field | Padding], order: ByteOrder) -> Iterator[Piece]:
    """The pieces of a run that fills whole bytes. Where the low byte comes first, those in one byte stand in it from its low bit
    on, and one that is in several bytes and doesn't fill them is no run of bits."""
    if order == "big" or len(run) == 1 and run[0].place % 8 == 0:
        yield from (_piece(it, it.place) for it in run)
    elif any(it.place // 8 != (it.place + it.bits - 1) // 8 for it in run):
        named = " ".join(it.name for it in run if isinstance(it, Field))
        yield Piece(run[0].place, sum(it.bits for it in run), None, named)
    else:
        yield from (_piece(it, it.place // 8 * 8 + 8 - it.place % 8 - it.bits) for it in reversed(run))


def _piece(it: Field | Padding, place: int) -> Piece:
    return Piece(place, it.bits, it if isinstance(it, Field) else None)


def _item(piece: Piece, keys: Keys) -> dictionary.Item:
    """A piece as an item of a container."""
    field = piece.field
    if field is None:
        name = piece.name or "padding"
        return dictionary.Item(keys.of(name), piece.bits, "zeros" if piece.name else "padding", name, {})
    form = {TEXT: "name", BYTES: "zeros", kinds.FLOAT: "float"}.get(field.kind, "signed" if field.is_signed else "number")
    is_little = field.order == "little" and form not in ("name", "zeros") and field.bits in WHOLE_NUMBERS[1:]
    return dictionary.Item(keys.of(field.name), field.bits, form, field.name, _states(field), None, is_little)


def _states(field: Field) -> dict[int, str]:
    if field.kind == kinds.BOOLEAN:
        return {0: "false", 1: "true"}
    return dict(field.enumerators or {})


def _header_items() -> Iterator[dictionary.Item]:
    for owner in HEADER:
        for it in names.fields(owner):
            yield dictionary.Item(names.key(it.name), 8 * it.width, it.form if it.form == "name" else "number", it.name, {})


def xtce(of: Definition) -> str:
    """A definition in XTCE: a container of the headers of a file, and one of the whole table's file, which begins with it."""
    keys = Keys()
    head = dictionary.Layout("file", "the headers of a table file", tuple(_header_items()), ())
    known = (dictionary.Known("content", files.CONTENT), dictionary.Known("subtype", files.TABLE_SUBTYPE),
             dictionary.Known("offset", 0), dictionary.Known("image_bytes", of.layout.size))
    items = tuple(_item(it, keys) for it in _pieces(of))
    table = dictionary.Layout(Keys().of(of.table), f"the table {of.table}", items, known, head)
    return xtce_text.containers(Keys().of(of.table.partition(".")[0]), f"the file of the table {of.table}", (head, table)).rstrip("\n")


def openc3(of: Definition) -> str:
    """A definition for Table Manager: a table of the headers, and one of the image, with the object's values as defaults."""
    return "\n".join([f"# The file of the table {of.table}: its headers, and its image.",
                      f'TABLE "{of.table} headers" BIG_ENDIAN KEY_VALUE "The headers of the file"', *_header_lines(of), "",
                      f'TABLE "{of.table}" {of.order.upper()}_ENDIAN KEY_VALUE "{_plain(of.description)}"', *_image_lines(of)])


def _plain(text: bytes) -> str:
    return re.sub(r'[^ -~]|"', "?", text.decode("ascii", "replace"))


def _header_lines(of: Definition) -> Iterator[str]:
    stated = files.defaults(of.layout.size) | {"table": of.table.encode(), "description": of.description}
    keys = Keys()
    for owner in HEADER:
        for it in names.fields(owner):
            value: Any = stated[it.name]
            front = f"  PARAMETER {keys.of(it.name).upper()} {8 * it.place} {8 * it.width}"
            if it.form == "name":
                yield f'{front} STRING "{_plain(value)}" "{it.name}"'
            else:
                yield f'{front} UINT 0 {(1 << 8 * it.width) - 1} {value} "{it.name}"'
            if it.name in FIXED:
                yield "    UNEDITABLE"


def _image_lines(of: Definition) -> Iterator[str]:
    keys = Keys()
    for it in in_order(of):
        if isinstance(it, Field):
            yield from _parameter(it, keys.of(it.name).upper(), of)
        else:
            yield from _padding(it, keys, of.order)


def _padding(it: Padding, keys: Keys, order: ByteOrder) -> Iterator[str]:
    """Bits of padding, a line a byte where they don't fill bytes."""
    if it.place % 8 == 0 and it.bits % 8 == 0:
        yield f'  PARAMETER {keys.of("padding").upper()} {it.place} {it.bits} BLOCK 0x{"00" * (it.bits // 8)} "padding"'
        yield "    HIDDEN"
        return
    end, at = it.place + it.bits, it.place
    while at < end:
        bits = min(8 - at % 8, end - at)
        yield f'  PARAMETER {keys.of("padding").upper()} {_bit_offset(at, bits, order)} {bits} UINT 0 {(1 << bits) - 1} 0 "padding"'
        yield "    HIDDEN"
        at += bits


def _bit_offset(place: int, bits: int, order: ByteOrder) -> int:
    """Where Table Manager looks for bits: at their high one, which in a bit field of a little-endian table is in the last byte."""
    if order == "big" or place % 8 == 0 and bits in WHOLE_NUMBERS:
        return place
    high = place + bits - 1
    return high // 8 * 8 + 7 - high % 8


def _parameter(it: Field, key: str, of: Definition) -> Iterator[str]:
    raw, end = it.raw(of.image), "" if it.order == of.order else f" {it.order.upper()}_ENDIAN"
    if it.kind in (TEXT, BYTES):
        yield f'  PARAMETER {key} {it.place} {it.bits} {"STRING" if it.kind == TEXT else "BLOCK"} {_usual(it, raw)} "{it.name}"'
        return
    front = f"  PARAMETER {key} {_bit_offset(it.place, it.bits, it.order)} {it.bits}"
    if it.kind == kinds.FLOAT:
        value = values.float_of(it, raw)
        said = f"{it.name}, not a number in the object" if math.isnan(value) else it.name
        yield f'{front} FLOAT MIN MAX {_float_default(value)} "{said}"{end}'
        return
    low, high = (-(1 << it.bits - 1), (1 << it.bits - 1) - 1) if it.is_signed else (0, (1 << it.bits) - 1)
    yield f'{front} {"INT" if it.is_signed else "UINT"} {low} {high} {values.number_of(it, raw)} "{it.name}"{end}'
    for number, word in _states(it).items():
        yield f"    STATE {word.upper()} {number}"


def _float_default(value: float) -> str:
    """A float as Table Manager has it, which has no word for what is no number."""
    if math.isinf(value):
        return "POS_INFINITY" if value > 0 else "NEG_INFINITY"
    return "0.0" if math.isnan(value) else repr(value)


def _usual(it: Field, raw: int) -> str:
    """A default of bytes: a text between quotes if it is a plain one, else in hexadecimal."""
    content = raw.to_bytes(it.bits // 8, it.order)
    text = content.rstrip(b"\0")
    if it.kind == TEXT and re.fullmatch(rb"[ !#-~]*", text) and not text.startswith(b"0x"):
        return f'"{text.decode()}"'
    return f"0x{content.hex().upper()}"
