"""The session of a drill, as records: two applications with three tables, and then a request a round, by the numbers of a
generator that begins with a seed."""
from collections.abc import Iterator

from . import files, layouts, names, packets, records

# Knuth's MMIX generator.
MULTIPLIER, INCREMENT, MASK = 6364136223846793005, 1442695040888963407, (1 << 64) - 1
GROUND = 0
TABLE_SIZE = 64
PIECE = 32
TABLES = ("D1.S", "D1.D", "D1.C")
FILE = "/d"
# A table with one buffer, one with two, and a critical one.
OPTIONS = {"S": 0, "D": layouts.bit("options", "double"), "C": layouts.bit("options", "critical")}


class Generator:
    """A linear congruential generator of 64 bits, of which the upper 31 decide what is drawn."""

    def __init__(self, seed) -> None:
        self._number = seed

    def draw(self, below) -> int:
        self._number = (self._number * MULTIPLIER + INCREMENT) & MASK
        return (self._number >> 33) % below


def _named(text, width) -> bytes:
    return text.encode().ljust(width, b"\0")


def _number(value, width) -> bytes:
    return value.to_bytes(width, "big")


def _record(name, actor, body) -> bytes:
    return records.spelling(names.requests()[layouts.number_of("request", name)], actor, body)


def _command(name, payload) -> bytes:
    return _record("Command", GROUND, packets.command(name, payload))


def opening() -> Iterator[bytes]:
    """The nine records before the first round."""
    yield _record("Reset", GROUND, bytes([layouts.code("reset", "power-on")]))
    for actor in (1, 2):
        yield _record("Start", actor, _named(f"D{actor}", 20))
    for name, options in OPTIONS.items():
        yield _record("Register", 1, _named(name, 16) + _number(TABLE_SIZE, 4) + _number(options, 2) + b"\xFF")
    for table in TABLES:
        yield _record("Share", 2, _named(table, 40))


def asked(kind, handle, byte) -> bytes:
    """The record of a round."""
    table = TABLES[handle]
    own, shared = _number(handle, 2), _number(handle + 3, 2)
    if kind == 0:
        return _record("LoadImage", 1, own + TABLE_SIZE * bytes([byte]))
    if kind == 1:
        file = files.table_file(PIECE * bytes([byte]), {"offset": byte % 32, "table": table.encode()})
        return _record("File", GROUND, _named(FILE, 64) + file)
    if kind == 2:
        return _command("LOAD", _named(FILE, 64))
    if kind == 3:
        return _command("VALIDATE", _number(layouts.code("image", "inactive"), 2) + _named(table, 40))
    if kind == 4:
        return _command("ACTIVATE", _named(table, 40))
    if kind == 5:
        return _record("Manage", 1, own)
    if kind == 6:
        return _record("Get" if byte < 128 else "Release", 2, shared)
    return _record("Read", 2, shared + _number(0, 4) + _number(TABLE_SIZE, 4))


def session(seed, rounds) -> Iterator[bytes]:
    """All records, in order."""
    yield from opening()
    generator = Generator(seed)
    for _ in range(rounds):
        kind, handle, byte = generator.draw(8), generator.draw(3), generator.draw(256)
        yield asked(kind, handle, byte)
