"""Debugging information (DWARF 2 to 5): its entries, and the types that they describe."""
from collections.abc import Iterator
from dataclasses import dataclass, field, replace
from typing import Any

from . import kinds, reader
from .kinds import ByteOrder
from .objects import Object
from .wrong import Wrong

MOST_DEPTH = 64
QUALIFIERS = {f"DW_TAG_{it}_type" for it in ("const", "volatile", "restrict", "atomic", "packed", "immutable", "shared")}
POINTERS = {f"DW_TAG_{it}_type" for it in ("pointer", "reference", "rvalue_reference", "subroutine", "ptr_to_member")}
STRUCTURES = {"DW_TAG_structure_type", "DW_TAG_class_type", "DW_TAG_union_type"}
# Encodings of base types (DW_ATE).
ENCODINGS = {2: kinds.BOOLEAN, 4: kinds.FLOAT, 5: kinds.SIGNED, 6: kinds.SIGNED, 7: kinds.UNSIGNED, 8: kinds.UNSIGNED, 16: kinds.CHARACTER}
FLOAT_SIZES = (2, 4, 8)
# Floats of 2 bytes that are none of IEEE 754.
OTHER_FLOATS = ("__bf16", "__mfp8")
ORDERS: dict[int | None, ByteOrder] = {1: "big", 2: "little"}
PLUS_CONSTANT = 0x23
# Kinds of units of DWARF 5 (DW_UT) that don't have types and variables together.
TYPE_UNITS, SPLIT_UNITS = (2, 6), (4, 5)
# The attribute that names the file in which they are, of DWARF 4; not each pyelftools has its name.
DWO_NAMES = ("DW_AT_GNU_dwo_name", 0x2130)
OWN_UNIT = "section .debug_info: a type is in a unit of its own: compile without -fdebug-types-section"
ELSEWHERE = "section .debug_info: the types are in another file (.dwo): compile without -gsplit-dwarf"
INT64 = 1 << 63


@dataclass
class Entry:
    """An entry, with its children."""
    tag: str
    unit: Any
    attributes: dict
    children: list["Entry"] = field(default_factory=list)

    def number(self, name: str, usual: int | None = None) -> int | None:
        """A number that an attribute has, and the usual one where it isn't there or isn't a constant."""
        attribute = self.attributes.get(name)
        return attribute.value if attribute is not None and isinstance(attribute.value, int) else usual

    @property
    def name(self) -> str:
        return self.text("DW_AT_name")

    def text(self, name: str) -> str:
        """The text that an attribute has; an empty one where it isn't there."""
        attribute = self.attributes.get(name)
        return attribute.value.decode("utf-8", "replace") if attribute is not None and isinstance(attribute.value, bytes) else ""


class Entries:
    """All entries of an object. They are read in the order of their bytes, so that no reference between them leads in a circle."""

    def __init__(self, of: Object) -> None:
        self._information, self._order, self._at, self.tops = of.debugging(), of.order, {}, []
        for unit in self._units():
            self._read(unit)
        if any(name in top.attributes for top in self.tops for name in DWO_NAMES):
            raise Wrong(ELSEWHERE)

    def _units(self) -> list:
        kinds = set(_kinds_of_units(self._information.debug_info_sec.stream.getvalue(), self._order))
        if kinds & set(SPLIT_UNITS + TYPE_UNITS):
            raise Wrong(ELSEWHERE if kinds & set(SPLIT_UNITS) else OWN_UNIT)
        try:
            return list(self._information.iter_CUs())
        except KeyError as error:
            raise Wrong(f"section .debug_info: this version of pyelftools doesn't read it ({error}, as a size of addresses)") from None

    def _read(self, unit) -> None:
        stream, end = self._information.debug_info_sec.stream, self._end_of(unit)
        die, place, above = reader.library().dwarf.die.DIE, unit.cu_die_offset, []
        unit.get_top_DIE()
        while place < end:
            one = die(unit, stream, place)
            place += one.size
            if one.is_null():
                if above:
                    above.pop()
                continue
            entry = Entry(one.tag, unit, one.attributes)
            self._at[one.offset] = entry
            (above[-1].children if above else self.tops).append(entry)
            if one.has_children:
                above.append(entry)

    def _end_of(self, unit) -> int:
        end = unit.cu_offset + unit["unit_length"] + unit.structs.initial_length_field_size()
        if end > self._information.debug_info_sec.size:
            raise Wrong("section .debug_info: it is cut short")
        return end

    def of(self, entry: Entry, name: str) -> Entry | None:
        """The entry to which an attribute refers; none where it isn't there."""
        attribute = entry.attributes.get(name)
        if attribute is None:
            return None
        if attribute.form == "DW_FORM_ref_sig8":
            raise Wrong(OWN_UNIT)
        begin = 0 if attribute.form == "DW_FORM_ref_addr" else entry.unit.cu_offset
        found = self._at.get(begin + attribute.raw_value)
        if found is None:
            raise Wrong("section .debug_info: it refers to what isn't there")
        return found

    def variables(self, name: str) -> Iterator[Entry]:
        """The variables of a name outside of functions, those that are defined before those that are only declared."""
        found = [it for top in self.tops for it in _outside_functions(top) if it.tag == "DW_TAG_variable" and self._name_of(it) == name]
        yield from sorted(found, key=lambda it: "DW_AT_declaration" in it.attributes)

    def _name_of(self, entry: Entry) -> str:
        said = self.of(entry, "DW_AT_specification")
        return entry.name or (said.name if said else "")


def _kinds_of_units(content: bytes, order: ByteOrder) -> Iterator[int]:
    """The kinds of the units of DWARF 5, by their headers."""
    at = 0
    while at + 16 <= len(content):
        length, head = int.from_bytes(content[at:at + 4], order), 4
        if length == 0xFFFFFFFF:
            length, head = int.from_bytes(content[at + 4:at + 12], order), 12
        if int.from_bytes(content[at + head:at + head + 2], order) == 5:
            yield content[at + head + 2]
        at += head + length


def _outside_functions(top: Entry) -> Iterator[Entry]:
    for it in top.children:
        yield it
        if it.tag == "DW_TAG_namespace":
            yield from it.children


class Types:
    """Makes types of entries, each once."""

    def __init__(self, entries: Entries) -> None:
        self._entries, self._known, self._begun = entries, {}, set()

    def of_variable(self, entry: Entry) -> Any:
        typed = entry if "DW_AT_type" in entry.attributes else self._entries.of(entry, "DW_AT_specification") or entry
        return self._type_of(typed)

    def _type_of(self, entry: Entry) -> Any:
        """The type to which an entry refers."""
        found = self._entries.of(entry, "DW_AT_type")
        if found is None:
            raise Wrong(f"{entry.name or 'a type'}: it has no type in .debug_info")
        return self._made(found)

    def _made(self, entry: Entry) -> Any:
        key = id(entry)
        if key not in self._known:
            if key in self._begun or len(self._begun) > MOST_DEPTH:
                raise Wrong(f"{entry.name or 'a type'}: it contains itself in .debug_info")
            self._begun.add(key)
            self._known[key] = self._make(entry)
            self._begun.discard(key)
        return self._known[key]

    def _make(self, entry: Entry) -> Any:
        if entry.tag in QUALIFIERS:
            return self._type_of(entry)
        if entry.tag == "DW_TAG_typedef":
            return replace(self._type_of(entry), name=entry.name)
        if entry.tag in POINTERS:
            return kinds.Pointer("a pointer", entry.number("DW_AT_byte_size", entry.unit["address_size"]))
        make = {"DW_TAG_base_type": self._base, "DW_TAG_enumeration_type": self._enumeration,
                "DW_TAG_array_type": self._array}.get(entry.tag, self._structure if entry.tag in STRUCTURES else None)
        if make is None:
            raise Wrong(f"{entry.name or 'a type'}: {entry.tag} is no type of a table")
        return make(entry)

    def _size(self, entry: Entry) -> int:
        size = entry.number("DW_AT_byte_size")
        if size is None or not 0 <= size < INT64:
            raise Wrong(f"{entry.name or 'a type'}: its size isn't in .debug_info")
        return size

    def _base(self, entry: Entry) -> kinds.Scalar:
        size, encoding = self._size(entry), entry.number("DW_AT_encoding")
        kind = ENCODINGS.get(encoding, kinds.RAW)
        if entry.name == "char":
            kind = kinds.CHARACTER
        if kind == kinds.FLOAT and (size not in FLOAT_SIZES or entry.name in OTHER_FLOATS) or kind == kinds.CHARACTER and size != 1:
            kind = kinds.RAW
        order = ORDERS.get(entry.number("DW_AT_endianity"))
        return kinds.Scalar(entry.name, size, kind, None, ENCODINGS.get(encoding) == kinds.SIGNED, order)

    def _enumeration(self, entry: Entry) -> kinds.Scalar:
        size = self._size(entry)
        values = [(it.number("DW_AT_const_value", 0), it.name) for it in entry.children if it.tag == "DW_TAG_enumerator"]
        under = self._type_of(entry) if "DW_AT_type" in entry.attributes else None
        is_signed = under.is_signed if isinstance(under, kinds.Scalar) else any(value < 0 for value, _ in values)
        names: dict[int, str] = {}
        for value, name in values:
            number = value % (1 << 8 * size)
            names.setdefault(number - (1 << 8 * size) if is_signed and number >> 8 * size - 1 else number, name)
        order = under.order if isinstance(under, kinds.Scalar) else None
        return kinds.Scalar(f"enum {entry.name}".strip(), size, kinds.ENUMERATED, names, is_signed, order)

    def _array(self, entry: Entry) -> Any:
        element = self._type_of(entry)
        for count in reversed([self._count(it) for it in entry.children if it.tag == "DW_TAG_subrange_type"]):
            element = kinds.Array(f"{element.name}[]", element, count)
        return element

    def _count(self, entry: Entry) -> int:
        """How many elements a dimension has: none where it is open, as that of a flexible member is."""
        count = entry.number("DW_AT_count")
        if count is None:
            bound = entry.number("DW_AT_upper_bound")
            if bound is None and "DW_AT_upper_bound" in entry.attributes:
                raise Wrong("an array: its length isn't a constant in .debug_info")
            count = 0 if bound is None else bound + 1
        # Of no element, the last one has the number -1, which may stand there without its sign.
        return count if 0 <= count < INT64 >> 31 else 0

    def _structure(self, entry: Entry) -> kinds.Structure:
        if "DW_AT_declaration" in entry.attributes:
            raise Wrong(f"{entry.name or 'a structure'}: it is declared in .debug_info, and not defined")
        size = self._size(entry)
        members = tuple(self._member(it) for it in entry.children
                        if it.tag in ("DW_TAG_member", "DW_TAG_inheritance") and "DW_AT_declaration" not in it.attributes
                        and "DW_AT_external" not in it.attributes)
        word = "union" if entry.tag == "DW_TAG_union_type" else "struct"
        return kinds.Structure(f"{word} {entry.name}".strip(), size, members, word == "union")

    def _member(self, entry: Entry) -> kinds.Member:
        of_type, place, bits = self._type_of(entry), 8 * self._location(entry), entry.number("DW_AT_bit_size")
        if bits is None:
            return kinds.Member(entry.name, place, of_type)
        if not isinstance(of_type, kinds.Scalar) or bits > 8 * of_type.size:
            raise Wrong(f"{entry.name}: a bit field of {bits} bits that is no number")
        if "DW_AT_bit_offset" in entry.attributes:
            place += self._old_place(entry, entry.number("DW_AT_byte_size", of_type.size), bits)
        return kinds.Member(entry.name, place + entry.number("DW_AT_data_bit_offset", 0), of_type, bits)

    def _old_place(self, entry: Entry, unit: int, bits: int) -> int:
        """Before DWARF 4 the place of a bit field is counted from the high bit of the unit that it is in."""
        from_high = entry.number("DW_AT_bit_offset", 0)
        if from_high >= INT64:
            from_high -= 2 * INT64
        return 8 * unit - from_high - bits if entry.unit.dwarfinfo.config.little_endian else from_high

    def _location(self, entry: Entry) -> int:
        """The place of a member in bytes, which DWARF 2 has as an operation that adds it."""
        attribute = entry.attributes.get("DW_AT_data_member_location")
        place = attribute.value if attribute is not None else 0
        if isinstance(place, int) and 0 <= place < INT64:
            return place
        if isinstance(place, (list, tuple)) and len(place) > 1 and place[0] == PLUS_CONSTANT:
            return sum((byte & 0x7F) << 7 * at for at, byte in enumerate(place[1:]))
        raise Wrong(f"{entry.name or 'a member'}: its place isn't a constant in .debug_info")
