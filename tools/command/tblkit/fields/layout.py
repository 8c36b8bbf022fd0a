"""The fields of a table in the order of their bytes, and the padding between them."""
import re
from collections.abc import Iterator
from dataclasses import dataclass, field
from typing import Any

from . import kinds
from .kinds import ByteOrder
from .wrong import Wrong

TEXT, BYTES = "text", "bytes"
ANY = re.compile(r"\[\*\]")


@dataclass(frozen=True)
class Field:
    """A field: its name from the table's own on, as `wdt[3].limit`, its place and size in bits, and what it has. `TEXT` is an array of
    char, and `BYTES` what is shown in hexadecimal alone, as a union of which no member is chosen."""
    name: str
    type_name: str
    place: int
    bits: int
    kind: str
    order: ByteOrder
    is_signed: bool = False
    enumerators: dict[int, str] | None = field(default=None, hash=False)
    is_bit_field: bool = False
    is_union: bool = False

    @property
    def begin(self) -> int:
        """The first byte in which it is."""
        return self.place // 8

    @property
    def end(self) -> int:
        """The byte after the last one."""
        return (self.place + self.bits + 7) // 8

    def raw(self, image: bytes, offset: int = 0) -> int:
        """Its bits as a number, from the bytes of an image that begin at an offset."""
        part = image[self.begin - offset:self.end - offset]
        return int.from_bytes(part, self.order) >> self._shift() & (1 << self.bits) - 1

    def with_raw(self, image: bytearray, value: int, offset: int = 0) -> None:
        """Changes its bits in an image, and no others."""
        begin, end, mask = self.begin - offset, self.end - offset, (1 << self.bits) - 1 << self._shift()
        before = int.from_bytes(image[begin:end], self.order)
        image[begin:end] = (before & ~mask | value << self._shift()).to_bytes(end - begin, self.order)

    def _shift(self) -> int:
        """How far its lowest bit is from the lowest of the bytes in which it is."""
        before = self.place % 8
        return before if self.order == "little" else 8 * (self.end - self.begin) - before - self.bits


def _choices(union: kinds.Structure) -> str:
    return "|".join(it.name for it in union.members)


@dataclass(frozen=True)
class Padding:
    """Bits that no field has: their place, and how many."""
    place: int
    bits: int


class Members:
    """Which member is chosen of each union, by the words of `--member PATH=NAME`. In a path, [*] is any element of an array."""

    def __init__(self, words: tuple[str, ...] = ()) -> None:
        self._chosen: list[tuple[re.Pattern, str, str]] = []
        self._taken: set[str] = set()
        for word in words:
            path, sign, name = word.rpartition("=")
            if not sign or not name:
                raise Wrong(f"--member {word}: expected PATH=NAME, as entry[*].value=count")
            pattern = r"\[\d+\]".join(re.escape(it) for it in ANY.split(path))
            self._chosen.append((re.compile(pattern), name, word))

    def of(self, path: str, union: kinds.Structure) -> kinds.Member | None:
        """The member of the union at a path. One without a name has the path of what it is in."""
        for pattern, name, word in self._chosen:
            if pattern.fullmatch(path):
                found = next((it for it in union.members if it.name == name), None)
                if found:
                    self._taken.add(word)
                    return found
        return None

    def all_taken(self, of_table: str) -> None:
        """Whether each word has chosen a member."""
        left = next((word for _, _, word in self._chosen if word not in self._taken), None)
        if left:
            raise Wrong(f"--member {left}: {of_table} has no such union, or that has no such member")


class Layout:
    """The fields of a variable of some type, and its padding."""

    def __init__(self, name: str, of_type, order: ByteOrder, members: Members) -> None:
        self.size, self.order, self._members = of_type.size, order, members
        front = "" if isinstance(of_type, kinds.Structure) else name
        self.fields: tuple[Field, ...] = tuple(self._fields(front, of_type, 0))
        members.all_taken(name)
        self.padding = tuple(self._gaps())
        self.by_name = {it.name: it for it in self.fields}

    def _fields(self, name: str, of_type, place: int) -> Iterator[Field]:
        if place < 0 or place + 8 * of_type.size > 8 * self.size:
            raise Wrong(f"{name}: it goes beyond the table's {self.size} bytes")
        if isinstance(of_type, kinds.Pointer):
            raise Wrong(f"{name}: it is {of_type.name}, and an image with addresses can't be a table file")
        if isinstance(of_type, kinds.Array):
            yield from self._elements(name, of_type, place)
        elif isinstance(of_type, kinds.Structure):
            yield from self._union(name, of_type, place) if of_type.is_union else self._structure(name, of_type, place)
        elif of_type.size:
            yield self._scalar(name, of_type, place, 8 * of_type.size, False)

    def _elements(self, name: str, array: kinds.Array, place: int) -> Iterator[Field]:
        element = array.element
        if isinstance(element, kinds.Scalar) and element.kind == kinds.CHARACTER and array.count:
            yield Field(name, f"{element.name}[{array.count}]", place, 8 * array.count, TEXT, self.order)
            return
        for at in range(array.count if element.size else 0):
            yield from self._fields(f"{name}[{at}]", element, place + 8 * at * element.size)

    def _structure(self, name: str, structure: kinds.Structure, place: int) -> Iterator[Field]:
        for it in sorted(structure.members, key=lambda it: it.place):
            yield from self._member(name, it, place)

    def _member(self, name: str, member: kinds.Member, place: int) -> Iterator[Field]:
        whole = ".".join(it for it in (name, member.name) if it)
        if member.bits is None and not member.name and isinstance(member.type, kinds.Structure) and member.type.is_union:
            yield from self._union(whole, member.type, place + member.place, ".".join(it for it in (name, _choices(member.type)) if it))
        elif member.bits is None:
            yield from self._fields(whole, member.type, place + member.place)
        # A bit field without a name, or without bits, is padding.
        elif member.name and member.bits:
            if member.place < 0 or place + member.place + member.bits > 8 * self.size:
                raise Wrong(f"{whole}: it goes beyond the table's {self.size} bytes")
            yield self._scalar(whole, member.type, place + member.place, member.bits, True)

    def _union(self, name: str, union: kinds.Structure, place: int, shown: str = "") -> Iterator[Field]:
        """A union, by its chosen member, or else as bytes. One without a name of its own is shown by those of its members."""
        chosen = self._members.of(name, union)
        if chosen:
            yield from self._member(name, chosen, place)
        elif union.size:
            yield Field(shown or name or _choices(union), union.name, place, 8 * union.size, BYTES, self.order, is_union=True)

    def _scalar(self, name: str, of_type: kinds.Scalar, place: int, bits: int, is_bit_field: bool) -> Field:
        kind = {kinds.RAW: BYTES, kinds.CHARACTER: TEXT}.get(of_type.kind, of_type.kind)
        if is_bit_field and kind == TEXT:
            kind = kinds.SIGNED if of_type.is_signed else kinds.UNSIGNED
        if is_bit_field and kind in (BYTES, kinds.FLOAT):
            raise Wrong(f"{name}: a bit field that is no number")
        order = of_type.order or self.order
        return Field(name, of_type.name, place, bits, kind, order, of_type.is_signed, of_type.enumerators, is_bit_field)

    def _gaps(self) -> Iterator[Padding]:
        """What is between the fields, and after the last one."""
        at = 0
        before: Any = None
        for it in sorted(self.fields, key=lambda it: it.place):
            if it.place < at:
                # Some compilers don't say where a bit field is that is as wide as its type.
                raise Wrong(f"{it.name}: by .debug_info it has bits of {before.name}, so its place isn't known")
            if it.place > at:
                yield Padding(at, it.place - at)
            at, before = it.place + it.bits, it
        if at < 8 * self.size:
            yield Padding(at, 8 * self.size - at)

    def field(self, name: str) -> Field:
        found = self.by_name.get(name)
        if found is None:
            raise Wrong(self._unknown(name))
        return found

    def _unknown(self, name: str) -> str:
        below = [it.name for it in self.fields if it.name.startswith((f"{name}.", f"{name}["))]
        if below:
            more = f", .. {below[-1]}" if len(below) > 1 else ""
            return f"{name}: it is no field, but has the fields {below[0]}{more}"
        return f"{name}: there is no such field" + self._nearest(name)

    def _nearest(self, name: str) -> str:
        """What is said of an element that is beyond the last one of its array."""
        for found in re.finditer(r"\[(\d+)\]", name):
            front = name[:found.start()]
            element = re.compile(re.escape(front) + r"\[(\d+)\]")
            last = max((int(it[1]) for it in (element.match(one.name) for one in self.fields) if it), default=None)
            if last is not None and int(found[1]) > last:
                return f": {front} has the elements 0 to {last}"
        return ""
