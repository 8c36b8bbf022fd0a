"""Definitions and changes as lines for people, and as JSON."""
import json
from typing import Any

from ..store import check_word
from . import kinds, loads
from .definitions import Definition
from .layout import BYTES, Field, Padding

# How many fields are told that go along with those that are set.
MOST_OTHERS = 12
HEADS = ("offset", "size", "order", "type", "field")


def summary(of: Definition) -> str:
    """What the table file of a definition has."""
    bits = sum(it.bits for it in of.layout.padding)
    padding = f"{bits // 8} bytes" if bits % 8 == 0 else f"{bits} bits"
    return (f"{of.table}, {of.layout.size} bytes, {of.order}-endian, check word 0x{check_word(of.image):04X}; "
            f"{len(of.layout.fields)} field{'s' * (len(of.layout.fields) != 1)}, {padding} of padding")


def code(number: int) -> str:
    """A return code as cFE prints it, and as a signed number if it is negative."""
    return f"0x{number % (1 << 32):08X} ({number})" if number < 0 else str(number)


def _size_words(place: int, bits: int) -> tuple[str, str]:
    """The offset and the size: bytes, or from the first byte on a bit and how many."""
    if place % 8 or bits % 8:
        return f"{place // 8}.{place % 8}", f"{bits} bit{'s' * (bits > 1)}"
    return str(place // 8), str(bits // 8)


def _row(it: Field | Padding) -> tuple[str, ...]:
    if isinstance(it, Padding):
        return (*_size_words(it.place, it.bits), "-", "-", "padding")
    order = it.order if it.kind not in ("text", BYTES) and it.bits > 8 else "-"
    offset, size = _size_words(it.place, it.bits)
    if it.is_bit_field:
        offset, size = f"{it.place // 8}.{it.place % 8}", f"{it.bits} bit{'s' * (it.bits > 1)}"
    return offset, size, order, it.type_name, it.name


def _in_order(of: Definition) -> list[Field | Padding]:
    return sorted((*of.layout.fields, *of.layout.padding), key=lambda it: it.place)


def shape(of: Definition) -> str:
    """A line for each field and each padding, in the order of their bytes."""
    rows = [HEADS, *map(_row, _in_order(of))]
    widths = [max(len(row[at]) for row in rows) for at in range(len(HEADS) - 1)]
    lines = [f"{row[0]:>{widths[0]}}  {row[1]:>{widths[1]}}  {row[2]:{widths[2]}}  {row[3]:{widths[3]}}  {row[4]}" for row in rows]
    return "\n".join([f"{of.object_name}: {summary(of)}", *lines])


def as_json(of: Definition) -> str:
    """One object. The place of a bit field is a byte and a bit in it, from the low one on where the table is little-endian, and else
    from the high one."""
    told = {"table": of.table, "object": of.object_name, "description": of.description.decode("ascii", "replace"),
            "file": of.file_name, "size": of.layout.size, "order": of.order, "fields": list(map(_field_object, of.layout.fields)),
            "padding": [{"offset": it.place // 8, "bit": it.place % 8, "bits": it.bits} for it in of.layout.padding]}
    return json.dumps(told, indent=1)


def _field_object(it: Field) -> dict:
    place = {"offset": it.begin, "size": it.bits // 8}
    if it.is_bit_field:
        place = {"offset": it.begin, "bit": it.place % 8, "bits": it.bits}
    kind = "union" if it.is_union else it.kind
    told: dict[str, Any] = {"name": it.name, **place, "type": it.type_name, "kind": kind, "order": it.order}
    if kind in (kinds.SIGNED, kinds.UNSIGNED, kinds.ENUMERATED):
        told["signed"] = it.is_signed
    if it.enumerators is not None:
        told["enumerators"] = {name: number for number, name in it.enumerators.items()}
    return told


def changes(of: Definition, made: loads.Changed, base: str | None) -> list[str]:
    """What a file changes: its bytes, each field that was set, and the others that go along with them."""
    part = made.part
    place = "all" if base else f"from byte {part.offset} on {len(part.content)}"
    lines = [f"{of.table}, {place} of {of.layout.size} bytes"]
    for field, before in made.fields:
        now = part.text_of(field)
        lines.append(f"{field.name}: {before} -> {now}" if before != now else f"{field.name}: {now}, as before")
    lines += [f"# with them goes {it.name}, as in {of.path}: {part.text_of(it)}" for it in made.others[:MOST_OTHERS]]
    if len(made.others) > MOST_OTHERS:
        lines.append(f"# and {len(made.others) - MOST_OTHERS} more fields in between")
    return lines
