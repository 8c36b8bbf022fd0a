"""Store files as the words of a command line name them: which is meant, and what a session that is played over it begins with."""
import argparse
import os
import tempfile

from . import content, store
from .numbers import counted
from .programs import STORE
from .streams import WRONG_USE, fail, opened

# In the place of a file: a fresh store, which is thrown away.
NONE = "none"


def add_file(parser) -> None:
    """Adds what names a store file that is read."""
    parser.add_argument("file", nargs="?", metavar="FILE")
    parser.add_argument("--store", metavar="FILE")


def named(parser, chosen) -> argparse.Namespace:
    """The words that were chosen, with the store file that they name as `file`."""
    if chosen.store == NONE:
        parser.error("--store none is a fresh store, so there is nothing to read")
    if chosen.store and chosen.file:
        parser.error(f"{chosen.store} and {chosen.file} are two store files, and one is read")
    chosen.file = chosen.file or chosen.store or STORE
    return chosen


def add_written(parser) -> None:
    """Adds what names the store file that a session is played over."""
    parser.add_argument("--store", metavar="FILE")
    parser.add_argument("--durable", action="store_true")


def opening(tool, chosen, closing) -> list[str]:
    """What the program is given before its word, by the words that were chosen."""
    words = ["--durable"] if chosen.durable else []
    if chosen.store is None:
        if chosen.durable:
            begins(tool, STORE)
        return words
    if chosen.store == NONE:
        return ["--store", os.path.join(closing.enter_context(tempfile.TemporaryDirectory()), STORE), *words]
    if chosen.store in ("", "-"):
        fail(tool, "--store takes a file, or none for a fresh store that is thrown away", WRONG_USE)
    begins(tool, chosen.store)
    return ["--store", chosen.store, *words]


def told(tool, name) -> str:
    """Which store a session is played over, and what it begins with, by what --store was given."""
    if name == NONE:
        return "the store is a fresh one, which begins empty and is thrown away at the end"
    return begins(tool, name or STORE)


def other_words(name, front, found) -> str:
    """Which other file one is that was taken for a store file; empty if it may be one. `front` has its first bytes."""
    kind = content.kind_of(front)
    is_other = len(found) < store.size_of(found) and found.strip(b"\0") and kind not in (content.Kind.STORE, content.Kind.OTHER)
    return kind.said_of(name, front) if is_other else ""


def begins(tool, name, is_copy=False) -> str:
    """Where a store file is, and what a session begins with that is played over it, or over a copy of it. A file that another tool
    reads is refused: it would be written over."""
    return f"the store is {'a copy of ' if is_copy else ''}{os.path.abspath(name)}" + _beginning(tool, name)


def _beginning(tool, name) -> str:
    if not os.path.exists(name):
        return ", which isn't there yet, and begins empty"
    if not os.path.isfile(name):
        return ""
    try:
        with opened(name) as source:
            front = content.front_of(source)
            found = source.read(store.SIZE)
    except OSError:
        # (the program says why)
        return ""
    other = other_words(name, front, found)
    if other:
        fail(tool, f"no store file, and nothing was played: {other}", WRONG_USE)
    count = len(store.counted(found.ljust(store.SIZE, b"\0")))
    return f", and begins {'with ' + counted(count, 'block') if count else 'empty'}"
