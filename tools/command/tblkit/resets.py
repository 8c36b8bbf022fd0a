"""What a reset in each write to preserved memory leaves: the table of `cfetbl resets`, read again and made into a page."""
import re
from collections.abc import Iterator
from dataclasses import dataclass, field

from .pages import element, fitting, legend, page, swatch, table, text

HEADING = "write  bytes  in request"
WRITE = re.compile(r"(\d+) +(\d+) +(boot at the start|\d+ (?:app \d+|ground) \w+) +(\S.*?)(?: +(?=\d+(?:-\d+)? +\S+: )|$)")
BACK = re.compile(r" *(\d+)(?:-(\d+))? +(\S+): (.*)")
# What comes back, by words that its line has: the kind of its bar, and what the legend says.
OUTCOMES = (("A MIX", "crossed mix", "a mix of two images"),
            ("whose copy broke off", "stripes broken", "the image whose copy broke off"),
            ("recovered", "last", "the last image that was copied"), ("", "empty none", "none"))
HEADS = ("write", "bytes", "in request", "what is written", "table", "a reset after so many bytes, from 0 to all", "what comes back")
STYLE = """\
.mix { --color: var(--refused); } .broken { --color: var(--open); } .last { --color: var(--validated); }
.resets { width: 100%; } .resets th:nth-child(6) { width: 34%; } .resets th:nth-child(7) { width: 26%; }
.resets th { overflow-wrap: break-word; } @media (min-width: 1100px) { .resets td { overflow-wrap: break-word; } }
.bytes { display: flex; min-width: 160px; margin-top: 2px; }
.bytes .bar { flex: 1 1 0; min-width: 4px; height: 17px; margin-right: 1px; }
"""


@dataclass(frozen=True)
class Back:
    """What a table comes back with, after a reset once so many bytes of a write were there."""
    first: int
    last: int
    table: str
    words: str


@dataclass
class Write:
    """A write to preserved memory: its number, its bytes, the request in which it is made, and what is written."""
    number: int
    size: int
    request: str
    what: str
    backs: list = field(default_factory=list)


class NoTable(Exception):
    """The lines aren't those of `cfetbl resets`."""


def read(lines) -> tuple[list[str], list[Write], list[str]]:
    """The lines before the table, its writes, and the lines after it."""
    lines = [it.rstrip("\n") for it in lines]
    start = next((at for at, line in enumerate(lines) if line.startswith(HEADING)), None)
    if start is None:
        return lines, [], []
    end = next((at for at, line in enumerate(lines) if at > start and not line), len(lines))
    return lines[:start], _writes(lines[start + 1:end]), lines[end:]


def _writes(rows) -> list[Write]:
    found = []
    for row in rows:
        begun = WRITE.match(row)
        if begun:
            found.append(Write(int(begun[1]), int(begun[2]), begun[3], begun[4]))
        # Where the session has no critical table, a write alone is told.
        left = row[begun.end():] if begun else row
        back = BACK.fullmatch(left)
        if back and found:
            found[-1].backs.append(Back(int(back[1]), int(back[2] or back[1]), back[3], back[4]))
        elif left:
            raise NoTable(f"no row of `cfetbl resets`: {row}")
    return found


def _kind(words) -> str:
    return next(kind for said, kind, _ in OUTCOMES if said in words)


def _after(back) -> str:
    return f"{back.first} to {back.last}" if back.first != back.last else str(back.first)


def _bar(write, backs) -> str:
    """The bytes of a write from left to right, by what the table comes back with."""
    parts = [element("span", fitting(_after(it)), class_=f"bar {_kind(it.words)}", style=f"flex-grow: {it.last - it.first + 1}",
                     title=f"after {_after(it)} of {write.size} bytes: {it.words}", data_write=write.number, data_table=it.table,
                     data_from=it.first, data_to=it.last, data_back=it.words) for it in backs]
    return element("div", "".join(parts), class_="bytes") if parts else ""


def _rows(writes) -> Iterator[tuple[str, ...]]:
    """The rows of the page: for each write one for each table, the first of which tells of the write."""
    for write in writes:
        tables = list(dict.fromkeys(it.table for it in write.backs)) or [""]
        for place, name in enumerate(tables):
            own = (str(write.number), str(write.size), write.request, write.what) if place == 0 else ("",) * 4
            backs = [it for it in write.backs if it.table == name]
            said = [element("div", text(f"{_after(it)}: {it.words}")) for it in backs]
            yield (*map(text, (*own, name)), _bar(write, backs), "".join(said))


def html(name, lines) -> str:
    """The page of a table."""
    before, writes, after = read(lines)
    listed = table(HEADS, _rows(writes), class_="cards resets") if writes else ""
    kinds = legend([(swatch(kind), words) for _, kind, words in OUTCOMES])
    body = [element("h1", text(f"Resets in {name}")), element("pre", text("\n".join(before))), kinds, listed,
            element("pre", text("\n".join(after)))]
    return page(f"Resets in {name}", "\n".join(body), STYLE)
