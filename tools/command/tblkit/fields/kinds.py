"""Types of C as they lie in memory. Places and sizes of members are in bits, counted from the first byte on: in each byte from its
low bit where the low byte of a number comes first, and else from its high bit."""
from dataclasses import dataclass, field
from typing import Any, Literal

UNSIGNED, SIGNED, FLOAT, BOOLEAN, CHARACTER, ENUMERATED, RAW = "unsigned", "signed", "float", "boolean", "character", "enumerated", "raw"
# The order of the bytes of a number.
ByteOrder = Literal["little", "big"]


@dataclass(frozen=True)
class Scalar:
    """A number, a truth value or a character, or what is none of them (`RAW`). An enumeration has its enumerators. `order` is the
    byte order where it isn't that of the object."""
    name: str
    size: int
    kind: str
    enumerators: dict[int, str] | None = field(default=None, hash=False)
    is_signed: bool = False
    order: ByteOrder | None = None


@dataclass(frozen=True)
class Pointer:
    name: str
    size: int


@dataclass(frozen=True)
class Array:
    """So many elements, one after the other. An array of arrays is one whose element is an array."""
    name: str
    element: Any
    count: int

    @property
    def size(self) -> int:
        return self.count * self.element.size


@dataclass(frozen=True)
class Member:
    """A member of a structure or union; the name is empty where it has none. `bits` is the width of a bit field."""
    name: str
    place: int
    type: Any
    bits: int | None = None


@dataclass(frozen=True)
class Structure:
    """A structure, or a union, all of whose members lie in the same bytes."""
    name: str
    size: int
    members: tuple[Member, ...]
    is_union: bool = False
