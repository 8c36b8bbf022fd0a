"""The text of `cfetbl help`, and what it says of a word. tools/publish/man-page makes man/cfetbl.1 of it."""
import functools
import os
import re
from collections.abc import Iterable, Iterator

PLACE = os.path.join(os.path.dirname(os.path.realpath(__file__)), "help.txt")
USAGE, STATUS = "Usage:", "Status:"
SECTION, ENTRY = re.compile(r"[A-Z].*:"), re.compile(r"  [^ ]")


@functools.cache
def text() -> str:
    """The whole help."""
    with open(PLACE, encoding="ascii") as file:
        return file.read().rstrip("\n")


def words() -> list[str]:
    """The words that it has."""
    return sorted({it for line in text().splitlines() if line.startswith("  cfetbl ") for it in re.findall(r"cfetbl ([a-z][a-z-]*)", line)})


def of_word(word: str, sections: Iterable[str], is_of_sessions: bool) -> str:
    """Its usage, and the sections that are about it. Where it is of sessions, so is what the usage says of all of them."""
    return re.sub(r"\n{3,}", "\n\n", "\n".join(_lines(word, {USAGE, *sections}, is_of_sessions)))


def _lines(word: str, sections: set[str], is_of_sessions: bool) -> Iterator[str]:
    section, is_its_own = "", False
    for line in text().splitlines():
        if SECTION.fullmatch(line):
            section = line
        if ENTRY.match(line):
            is_its_own = re.search(rf"cfetbl {word}([ ,]|$)", line) is not None
        if section not in sections:
            continue
        if section != USAGE or line in ("", USAGE) or (is_its_own if line.startswith(" ") else is_of_sessions):
            yield line
