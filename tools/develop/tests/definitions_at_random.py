"""Definitions of tables in C that a seed decides, each with the values of its fields: what a compiler is asked about them."""
import random
import struct
from dataclasses import dataclass

PRELUDE = """#include "cfetbl_table.h"
typedef enum { PLAIN_A = 0, PLAIN_B = 5, PLAIN_C = 60 } Plain_t;
typedef enum { SIGNED_A = -3, SIGNED_B = 0, SIGNED_C = 3 } Signed_t;
typedef enum { SMALL_A, SMALL_B = 9, SMALL_C = 100 } __attribute__((packed)) Small_t;
"""
# What prints the fields: their paths, offsets, sizes and values. Floats and texts are printed as their bytes.
PRINTER = """#include <stdio.h>
#include <string.h>
static void Field(const char *path, size_t offset, size_t size)
{
    printf("%s %zu %zu ", path, offset, size);
}
static void Bytes(const void *at, size_t size)
{
    for (size_t i = 0; i < size; i++) {
        printf("%02X", ((const unsigned char *)at)[i]);
    }
    printf("\\n");
}
#define NUMBER(V, P, F) Field(#V "." #P, offsetof(__typeof__(V), P), sizeof(V.P)); printf(F "\\n", V.P)
#define BYTES(V, P) Field(#V "." #P, offsetof(__typeof__(V), P), sizeof(V.P)); Bytes(&V.P, sizeof(V.P))
#define BITS(V, P) printf(#V "." #P " - - %lld\\n", (long long)V.P)
"""
ENUMERATIONS = {
    "Plain_t": {"PLAIN_A": 0, "PLAIN_B": 5, "PLAIN_C": 60},
    "Signed_t": {"SIGNED_A": -3, "SIGNED_B": 0, "SIGNED_C": 3},
    "Small_t": {"SMALL_A": 0, "SMALL_B": 9, "SMALL_C": 100}}
NUMBERS = {f"{front}int{bits}{end}": (bits, front == "")
           for front in ("", "u") for bits, end in ((8, ""), (16, ""), (32, ""), (64, "_t"))}
FLOATS = {"float": "f", "double": "d"}
# How many bits a bit field of a type may have so that its values, for an enumeration all of them, fit. Of one that is as wide as its
# type, clang 14 loses the place where it is packed.
BIT_FIELDS = {"uint8": (1, 7), "uint16": (1, 15), "uint32": (1, 31), "int32": (2, 31), "uint64_t": (1, 63), "bool": (1, 1),
              "Plain_t": (6, 7), "Signed_t": (3, 7)}
LETTERS = [chr(it) for it in range(0x20, 0x7F)]


@dataclass(frozen=True)
class Leaf:
    """A field: its path, its C type, its value as Python has it, and its bits if it is a bit field."""
    path: str
    type: str
    value: object
    bits: int | None = None

    def text(self):
        """The value as `set` takes it. A float is said by the digits of a double, which are more than needed."""
        if self.type == "char":
            return '"' + "".join("\\" + it if it in '"\\' else it for it in self.value) + '"'
        if self.type == "bool":
            return "true" if self.value else "false"
        return repr(self.value) if self.type in FLOATS else str(self.value)

    def c_value(self):
        """The value as C has it."""
        if self.type == "char":
            return '"' + "".join("\\" + it if it in '"\\?' else it for it in self.value) + '"'
        if self.type in FLOATS:
            return self.value.hex() + ("f" if self.type == "float" else "")
        if self.type == "bool":
            return "true" if self.value else "false"
        if self.type == "int64_t" and self.value == -(1 << 63):
            return "-9223372036854775807 - 1"
        return f"{self.value}{'ull' if isinstance(self.value, int) and self.value >> 63 == 1 else ''}"

    def shown(self):
        """What the program prints for it, where the low byte of a number comes first: its number, or its bytes."""
        if self.type in FLOATS:
            return struct.pack(f"<{FLOATS[self.type]}", self.value).hex().upper()
        return str(ENUMERATIONS[self.type][self.value] if self.type in ENUMERATIONS else int(self.value))

    def print_line(self, variable):
        if self.bits is not None:
            return f"BITS({variable}, {self.path});"
        if self.type in FLOATS or self.type == "char":
            return f"BYTES({variable}, {self.path});"
        is_signed = self.type in ENUMERATIONS or self.type == "bool" or self.type.startswith("int")
        form, cast = ("%lld", "long long") if is_signed else ("%llu", "unsigned long long")
        return f'Field("{variable}.{self.path}", offsetof(__typeof__({variable}), {self.path}), sizeof({variable}.{self.path})); ' \
               f'printf("{form}\\n", ({cast}){variable}.{self.path});'


class Chance:
    """Values and types that a seed decides."""

    def __init__(self, seed):
        self.random = random.Random(seed)

    def number(self, bits, is_signed):
        low, high = (-(1 << bits - 1), (1 << bits - 1) - 1) if is_signed else (0, (1 << bits) - 1)
        return self.random.choice((low, high, 0, 1, self.random.randint(low, high), self.random.randint(low, high)))

    def float_of(self, of_type):
        form = FLOATS[of_type]
        while True:
            raw = self.random.randbytes(struct.calcsize(form))
            value = self.random.choice((struct.unpack(form, raw)[0], round(self.random.uniform(-1000, 1000), 3), 0.0))
            value = struct.unpack(form, struct.pack(form, value))[0]
            if value == value and abs(value) != float("inf"):
                return value

    def value(self, of_type, bits=None, room=0):
        if of_type == "char":
            return "".join(self.random.choice(LETTERS) for _ in range(self.random.randint(0, room - 1)))
        if of_type in FLOATS:
            return self.float_of(of_type)
        if of_type == "bool":
            return self.random.random() < 0.5
        if of_type in ENUMERATIONS:
            return self.random.choice(list(ENUMERATIONS[of_type]))
        width, is_signed = NUMBERS[of_type]
        return self.number(bits or width, is_signed)


class Structure:
    """A structure of members at random: its text in C, and its fields with their values."""

    def __init__(self, chance, depth=0):
        self._chance, self._random, self._depth = chance, chance.random, depth
        self.is_packed = self._random.random() < 0.25
        self.members = [self._member(f"m{at}") for at in range(self._random.randint(1, 6 - depth))]

    def _member(self, name):
        """The declaration of a member, and what makes its fields from a path before it."""
        kind = self._random.choice(("scalar", "scalar", "array", "text", "bits", "bits", "structure"))
        if kind == "structure" and self._depth < 3:
            return self._of_structures(name)
        if kind == "text":
            room = self._random.randint(2, 12)
            return f"char {name}[{room}]", lambda: [(name, "char", None, room)]
        if kind == "bits":
            of_type = self._random.choice(list(BIT_FIELDS))
            bits = self._random.randint(*BIT_FIELDS[of_type])
            return f"{of_type} {name} : {bits}", lambda: [(name, of_type, bits, 0)]
        of_type = self._random.choice((*NUMBERS, *FLOATS, "bool", *ENUMERATIONS))
        counts = [self._random.randint(1, 3) for _ in range(self._random.randint(1, 2))] if kind == "array" else []
        return f"{of_type} {name}{_brackets(counts)}", lambda: [(name + at, of_type, None, 0) for at in _indexes(counts)]

    def _of_structures(self, name):
        below, counts = Structure(self._chance, self._depth + 1), [self._random.randint(1, 3)] * self._random.randint(0, 1)
        return (f"{below.text()} {name}{_brackets(counts)}",
                lambda: [(f"{name}{at}.{path}", *more) for at in _indexes(counts) for path, *more in below.fields()])

    def text(self):
        inside = " ".join(f"{declared};" for declared, _ in self.members)
        return f"struct {{ {inside} }}{' __attribute__((packed))' * self.is_packed}"

    def fields(self):
        return [it for _, fields in self.members for it in fields()]


def _brackets(counts):
    return "".join(f"[{it}]" for it in counts)


def _indexes(counts):
    found = [""]
    for count in counts:
        found = [f"{front}[{at}]" for front in found for at in range(count)]
    return found


class Table:
    """A variable of a structure at random: its fields, and one of them with another value."""

    def __init__(self, name, seed):
        chance = Chance(seed)
        self.name, self._structure = name, Structure(chance)
        drawn = [(Leaf(path, of_type, chance.value(of_type, bits, room), bits), room) for path, of_type, bits, room in self._structure.fields()]
        self.leaves = [leaf for leaf, _ in drawn]
        one, room = chance.random.choice(drawn)
        self.changed = Leaf(one.path, one.type, chance.value(one.type, one.bits, room), one.bits)

    def text(self, is_changed=False):
        """Its definition in C."""
        leaves = [self.changed if is_changed and it.path == self.changed.path else it for it in self.leaves]
        values = ", ".join(f".{it.path} = {it.c_value()}" for it in leaves)
        return f"typedef {self._structure.text()} {self.name}_t;\n{self.name}_t {self.name} = {{{values}}};\n"

    def print_lines(self):
        return "\n".join(f"    {it.print_line(self.name)}" for it in self.leaves)


def source(tables, is_changed=False, is_program=False):
    """The C source of tables, or of a program that prints them."""
    text = PRELUDE + "".join(it.text(is_changed) for it in tables)
    if not is_program:
        return text
    body = "\n".join(f'{it.print_lines()}\n    printf("{it.name} - %zu -\\n", sizeof({it.name}));' for it in tables)
    return f"{text}{PRINTER}int main(void)\n{{\n{body}\n    return 0;\n}}\n"
