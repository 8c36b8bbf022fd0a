"""The works that tools/develop/bench measures, as sessions of text: what is played first, and the requests that are repeated after it.

`cfetbl text --help` has the forms of the lines. Application 1 is called A, and its table T where a work has one table alone.
"""
import functools
import itertools
import os
from collections.abc import Iterator
from dataclasses import dataclass

from . import records, text
from .programs import TOP

START = "app 1 start A"
FILES = 64
TABLES = 128
HANDLES = 256
PASS = os.path.join(TOP, "sessions", "pass.txt")


@functools.cache
def record(line) -> bytes:
    """The record of a line."""
    return text.record_of(line)


@dataclass(frozen=True)
class Work:
    """A work: its name, the lines before it, the lines of a round, and how many rounds are counted."""
    name: str
    opening: tuple
    round: tuple
    rounds: int

    def session(self, rounds) -> bytes:
        """The session with so many rounds."""
        return b"".join(map(record, self.opening)) + rounds * b"".join(map(record, self.round))

    def requests(self, rounds) -> int:
        """How many requests so many rounds have."""
        return rounds * len(self.round)

    def most_rounds(self) -> int:
        """How many rounds a session can have."""
        return (records.MOST_RECORDS - len(self.opening)) // len(self.round)


def registered(size, options="") -> tuple[str, str]:
    """The lines after which A has its table T, with handle 0."""
    return START, f"app 1 register T size {size} {options}"


def loaded(size, options="") -> tuple[str, ...]:
    """The same, and the table has had an image."""
    return *registered(size, options), f"app 1 load 0 fill 5A {size}"


def many_tables() -> tuple[str, ...]:
    """A registers 128 tables."""
    return tuple(f"app 1 register T{it} size 4" for it in range(TABLES))


def many_loaded(size) -> tuple[str, ...]:
    """A has 128 tables, each of which has had an image."""
    lines = ((f"app 1 register T{it} size {size}", f"app 1 load {it} fill 5A {size}") for it in range(TABLES))
    return START, *itertools.chain.from_iterable(lines)


def uplinked(size) -> tuple[str, ...]:
    """Files of so many bytes under 64 names."""
    return tuple(f"file /ram/{it} fill 00 {size}" for it in range(FILES))


def with_file(size, options="") -> tuple[str, ...]:
    """A has its table, and the file /ram/t has an image of it."""
    return *registered(size, options), f"file /ram/t table A.T at 0 fill 5A {size}"


LOAD_AND_READ = ("app 1 load 0 fill 5A {0}", "app 1 get 0", "app 1 read 0 at 0 length {0}", "app 1 release 0")
CYCLE = ("app 1 get 0", "app 1 read 0 at 0 length 64", "app 1 release 0")
UPDATE = ("ground LOAD /ram/t", "ground VALIDATE inactive A.T", "ground ACTIVATE A.T", "app 1 update 0")
HOUSEKEEPING = ("ground NOOP", "ground HOUSEKEEPING")
DUMP = ("ground DUMP active A.T /ram/d",)
GET_INFO = ("app 1 get-info A.T",)
SEND_REGISTRY = ("ground SEND_REGISTRY A.T",)
DUMP_REGISTRY = ("ground DUMP_REGISTRY /ram/r",)


def ordinary_pass() -> tuple[tuple[str, ...], tuple[str, ...]]:
    """The pass of sessions/pass.txt without its resets: applications and tables come first, and all others are a round."""
    with open(PASS, encoding="utf-8") as lines:
        said = [line for line in map(str.strip, lines) if record(line) and not line.startswith("reset")]
    is_first = [line.split()[0] == "app" and line.split()[2] in ("start", "register", "share") for line in said]
    first = is_first.index(False)
    return tuple(said[:first]), tuple(line for line, is_again in zip(said[first:], is_first[first:]) if not is_again)


def works() -> Iterator[Work]:
    """All works, in the order of their table."""
    many, (pass_opening, pass_round) = many_tables(), ordinary_pass()
    yield Work("NOOP", (), ("ground NOOP",), 2_000)
    yield Work("NOOP and housekeeping", (), HOUSEKEEPING, 1_000)
    yield Work("NOOP and housekeeping, 128 tables", (START, *many), HOUSEKEEPING, 900)
    for size, rounds in ((16_384, 120), (16, 500)):
        lines = tuple(line.format(size) for line in LOAD_AND_READ)
        yield Work(f"load, Get, Read, Release of {size:,} bytes", registered(size), lines, rounds)
    yield Work("Manage with nothing pending", loaded(64), ("app 1 manage 0",), 2_000)
    yield Work("Get, Read, Release of 64 bytes", loaded(64), CYCLE, 650)
    yield Work("register again, 128 tables", (START, *many), many, 14)
    for size, rounds in ((1_000, 29), (32_768, 2)):
        yield Work(f"file of {size:,} bytes", uplinked(size), uplinked(size), rounds)
    yield Work("LOAD of 64 bytes", with_file(64), ("ground LOAD /ram/t",), 2_000)
    for size, rounds in ((16, 500), (16_384, 120)):
        yield Work(f"double-buffered update of {size:,} bytes", with_file(size, "double"), UPDATE, rounds)
    for size, rounds in ((64, 500), (16_384, 60)):
        yield Work(f"critical update of {size:,} bytes", with_file(size, "critical"), UPDATE, rounds)
    for size, rounds in ((64, 2_000), (16_384, 60)):
        load = f"app 1 load 0 fill 5A {size}"
        yield Work(f"critical load of {size:,} bytes", registered(size, "critical"), (load,), rounds)
    for size, rounds in ((64, 2_000), (16_384, 120)):
        yield Work(f"dump of {size:,} bytes", loaded(size), DUMP, rounds)
    for size, rounds in ((64, 2_000), (16_384, 120)):
        yield Work(f"GetInfo of {size:,} bytes", loaded(size), GET_INFO, rounds)
    for size, rounds in ((64, 2_000), (16_384, 120)):
        yield Work(f"SEND_REGISTRY of {size:,} bytes", loaded(size), SEND_REGISTRY, rounds)
    for size in (64, 16_384):
        yield Work(f"DUMP_REGISTRY of 128 tables of {size:,} bytes", many_loaded(size), DUMP_REGISTRY, 60)
    yield Work("an ordinary pass", pass_opening, pass_round, 65)


# ---- one request in several states


@dataclass(frozen=True)
class State:
    """What a session has before a request: which place of the history comes next, how many tables are registered, and how many
    handles are given. The table A.T is in the last row, and handle `shared` of application 2 leads to it."""
    name: str
    place: int
    tables: int
    handles: int

    @property
    def own(self) -> int:
        return self.tables - 1

    @property
    def shared(self) -> int:
        return self.handles - 1

    def opening(self, is_pinned) -> tuple[str, ...]:
        """The lines that make it. Where it is pinned, the last handle pins the image of A.T."""
        lines = [START, "app 2 start B", *(f"app 1 register T{it} size 4" for it in range(self.own)),
                 "app 1 register T size 64", *((self.handles - self.tables) * ["app 2 share A.T"]),
                 "file /ram/t table A.T at 0 fill 5A 64", f"app 1 load {self.own} fill 5A 64",
                 *([f"app 2 get {self.shared}"] if is_pinned else [])]
        return (*lines, *((self.place - len(lines)) * ["ground NOOP"]))


# Between a place and the next power of two the history doesn't grow, and a request costs the same in each round.
STATES = (State("one table", 520, 1, 2), State("place 16,400", 16_400, 1, 2),
          State("128 tables", 520, 128, 129), State("256 handles", 520, 1, 256))
# How many requests a session has after its opening.
AFTER = 480

REQUESTS = {
    "NOOP": ("ground NOOP",),
    "housekeeping": ("ground HOUSEKEEPING",),
    "LOAD": ("ground LOAD /ram/t",),
    "update": ("ground LOAD /ram/t", "ground VALIDATE inactive A.T", "ground ACTIVATE A.T", "app 1 update {own}"),
    "DUMP": ("ground DUMP active A.T /ram/d",),
    "SEND_REGISTRY": ("ground SEND_REGISTRY A.T",),
    "register again": ("app 1 register T size 64",),
    "LoadImage": ("app 1 load {own} fill 5A 64",),
    "LoadImage, refused": ("app 1 load {own} fill 5A 64",),
    "Manage": ("app 1 manage {own}",),
    "Get, Read, Release": ("app 2 get {shared}", "app 2 read {shared} at 0 length 64", "app 2 release {shared}"),
    "GetStatus": ("app 2 get-status {shared}",),
    "GetInfo": ("app 2 get-info A.T",),
}
PINNED = ("LoadImage, refused",)


def request_in(state, name) -> Work:
    """The work that repeats a request in a state."""
    lines = tuple(line.format(own=state.own, shared=state.shared) for line in REQUESTS[name])
    return Work(name, state.opening(name in PINNED), lines, AFTER // len(lines))


# ---- crews

# How many applications a crew has, and how many of them read.
ACTORS = (1, 2, 4, 16)
READERS = (1, 2, 4)
# How often an application tries to get the handle of its number, and how many reads a crew makes.
TRIES = 10
READS = 8_192


def first_lines(actor, size) -> list[str]:
    """An application of a crew starts and registers its table."""
    return [f"app {actor} start A{actor}", f"app {actor} register T size {size}"]


def own_registry_records(actor, actors) -> list[str]:
    """An application asks again and again what the registry has of its own table."""
    return first_lines(actor, 16) + 32_000 // actors * [f"app {actor} get-info A{actor}.T"]


def loads_by_all_handles(actor, actors) -> list[str]:
    """An application loads images by each handle in turn, since the order of turns says which one is its own."""
    loads = [f"app {actor} load {handle} fill 5A 16384" for handle in range(actors)]
    return first_lines(actor, 16_384) + 3_072 // actors // actors * loads


def with_own_handle(actor, actors, options) -> list[str]:
    """An application of a few starts, and gets a table by the handle of its number less one, in whatever order the turns come.

    A new table has the least handle that is free. So the application registers as many tables as there are applications, and
    gives back each handle but that one. Another application may have it for a moment: so it does this a few times.
    """
    own = actor - 1
    tables = [f"app {actor} register T{it} {options}" for it in range(actors)]
    others = [f"app {actor} unregister {handle}" for handle in range(actors * actors) if handle != own]
    return [f"app {actor} start A{actor}"] + TRIES * (tables + others)


def reads_by_own_handle(actor, actors) -> list[str]:
    """An application gets the address of its own image, and reads the whole of it again and again."""
    own = actor - 1
    lines = with_own_handle(actor, actors, "size 16384") + [f"app {actor} load {own} fill 5A 16384", f"app {actor} get {own}"]
    return lines + READS // actors * [f"app {actor} read {own} at 0 length 16384"]


# The sessions by their names: what makes the lines of an application, and how many of them there are.
CREWS = {"registry records of 16 bytes": (own_registry_records, ACTORS), "loads of 16,384 bytes": (loads_by_all_handles, ACTORS),
         "reads of 16,384 bytes": (reads_by_own_handle, READERS)}


def in_turn(make, actors) -> list[bytes]:
    """The records of so many applications, one of each in turn."""
    scripts = [make(actor, actors) for actor in range(1, actors + 1)]
    return [record(line) for of_each in zip(*scripts) for line in of_each]
