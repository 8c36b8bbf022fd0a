"""A reader of the definitions of COSMOS, written from its public description and from nothing else here."""
import re
import shlex
import struct
from dataclasses import dataclass, field

PACKET = re.compile(r"(COMMAND|TELEMETRY) (\S+) (\S+) BIG_ENDIAN")


class Definition:
    """The items of each command and packet: their names, bits, kinds, values that they are known by, and byte orders."""

    def __init__(self, text):
        self.commands, self.packets = {}, {}
        for line in text.splitlines():
            begun = PACKET.match(line)
            if begun:
                items = (self.commands if begun[1] == "COMMAND" else self.packets).setdefault(begun[3], [])
            elif line.strip() and not line.startswith("#") and not line.strip().startswith("STATE"):
                word, name, bits, kind, *more = shlex.split(line)
                is_little = more[-1] == "LITTLE_ENDIAN"
                known = int(more[2 if "PARAMETER" in word else 0], 0) if "_ID_" in word else None
                usual = int(more[2], 0) if word.endswith("PARAMETER") and kind != "STRING" else None
                items.append((name, int(bits), kind, known, usual, is_little))

    def decode(self, packet):
        """The first packet that fits, and its values."""
        for name, items in self.packets.items():
            values = _values(items, packet)
            if values is not None and all(known is None or values[key] == known for key, _, _, known, _, _ in items):
                return name, values
        raise ValueError("no packet fits")

    def encode(self, name, arguments):
        whole = count = 0
        for key, bits, kind, _, usual, is_little in self.commands[name]:
            value = arguments.get(key, usual)
            if kind == "STRING":
                value = int.from_bytes(value.encode("ascii").ljust(bits // 8, b"\0"), "big")
            elif is_little:
                value = int.from_bytes(value.to_bytes(bits // 8, "little"), "big")
            whole, count = whole << bits | value, count + bits
        return whole.to_bytes(count // 8, "big")


def _values(items, packet):
    if sum(it[1] for it in items) != 8 * len(packet):
        return None
    values, at, whole = {}, 8 * len(packet), int.from_bytes(packet, "big")
    for key, bits, kind, _, _, is_little in items:
        at -= bits
        raw = (whole >> at & (1 << bits) - 1).to_bytes((bits + 7) // 8, "big")
        if kind == "STRING":
            values[key] = raw.split(b"\0", 1)[0].decode("ascii")
        elif kind == "BLOCK":
            values[key] = raw.hex().upper()
        else:
            values[key] = int.from_bytes(raw, "little" if is_little else "big", signed=kind == "INT")
    return values


@dataclass(frozen=True)
class Parameter:
    """A parameter of a table: where its bits are, its kind and its default."""
    name: str
    place: int
    bits: int
    kind: str
    usual: object
    is_little: bool

    def value(self, content):
        """Its value. Of a bit field the place is that of its high bit; where the low byte comes first, that is in its last byte."""
        begin, end = self.place // 8, (self.place + self.bits + 7) // 8
        if self.kind in ("STRING", "BLOCK"):
            raw = content[begin:end]
            return raw.rstrip(b"\0").decode("latin-1") if self.kind == "STRING" else raw.hex().upper()
        if self.is_little and not (self.place % 8 == 0 and self.bits in (8, 16, 32, 64)):
            bytes_ = (self.place % 8 + self.bits - 1) // 8 + 1
            begin, end = begin - bytes_ + 1, begin + 1
        whole = int.from_bytes(content[begin:end], "little" if self.is_little else "big")
        number = whole >> 8 * (end - begin) - self.place % 8 - self.bits & (1 << self.bits) - 1
        if self.kind == "FLOAT":
            return struct.unpack({32: ">f", 64: ">d"}[self.bits], number.to_bytes(self.bits // 8, "big"))[0]
        return number - (1 << self.bits) if self.kind == "INT" and number >> self.bits - 1 else number


@dataclass
class TableOf:
    """A table of Table Manager: its name and its parameters."""
    name: str
    is_little: bool
    parameters: list = field(default_factory=list)

    @property
    def size(self):
        return (max(it.place + it.bits for it in self.parameters if it.bits % 8 == 0 and it.place % 8 == 0) + 7) // 8

    def values(self, content):
        return {it.name: it.value(content) for it in self.parameters}

    def usual(self):
        return {it.name: it.usual for it in self.parameters}


def _default(kind, bits, more):
    if kind == "STRING":
        return bytes.fromhex(more[0][2:]).rstrip(b"\0").decode("latin-1") if more[0].startswith("0x") else more[0]
    if kind == "BLOCK":
        return more[0][2:]
    return float(more[2]) if kind == "FLOAT" else int(more[2])


def tables(text):
    """The tables of a definition for Table Manager."""
    found = []
    for line in text.splitlines():
        word, *more = shlex.split(line, comments=True) or [""]
        if word == "TABLE":
            found.append(TableOf(more[0], more[1] == "LITTLE_ENDIAN"))
        elif word == "PARAMETER":
            name, place, bits, kind, *rest = more
            is_little = found[-1].is_little if not rest[-1].endswith("_ENDIAN") else rest[-1] == "LITTLE_ENDIAN"
            found[-1].parameters.append(Parameter(name, int(place), int(bits), kind, _default(kind, int(bits), rest), is_little))
    return found
