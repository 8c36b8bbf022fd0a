"""How answers look where they are read: on a terminal in columns that fit its width, with colors for what was refused and for events,
and else as plain lines."""
from __future__ import annotations

import os
import shutil
import sys
import textwrap
from collections.abc import Iterator
from dataclasses import dataclass
from typing import Any

from . import show, transcript
from .timeline import is_refused

WHEN = ("auto", "always", "never")
# The parameters of the terminal's sequences.
RED, CYAN, FAINT, BOLD_RED = "31", "36", "2", "1;31"
KINDS = {"event": CYAN, "refusal": RED}
PLACE, GAP = 5, 2
# The request has half of the width, up to this; below the other one there are no columns.
MOST_REQUEST, LEAST_WIDTH = 60, 60


def add_option(parser) -> None:
    """The option that says whether there are colors."""
    parser.add_argument("--color", choices=WHEN, default="auto", metavar="WHEN")


def look(when="auto", is_in_columns=True) -> Look:
    """How answers are written to standard output."""
    is_terminal = sys.stdout.isatty()
    is_colored = is_terminal and not os.environ.get("NO_COLOR") and os.environ.get("TERM") != "dumb" if when == "auto" else when == "always"
    return Look(is_colored, shutil.get_terminal_size().columns if is_terminal and is_in_columns else None)


@dataclass(frozen=True)
class Look:
    """Whether there are colors, and how wide the columns together are; no width is plain lines."""
    is_colored: bool
    width: int | None

    def write(self, answer, is_all=False, shapes=None) -> None:
        """Writes the lines of an answer."""
        if not self.is_colored and self.width is None:
            print("\n".join(show.lines(answer, is_all, shapes)))
            return
        is_bad = is_refused(answer)
        for line in show.parts_of(answer, is_all, shapes):
            for pieces in self._rows(line, RED if is_bad else ""):
                self._write(pieces)

    def write_end(self, part, words) -> None:
        """Writes the line of what ends a transcript."""
        is_good = isinstance(part, transcript.End) and part.status == 0
        for row in self._wrapped(words, 0, 0):
            self._write([("" if is_good else BOLD_RED, row)])

    def _write(self, pieces) -> None:
        output: Any = sys.stdout
        output.write_styled([(style if self.is_colored else "", words) for style, words in pieces] + [("", "\n")])

    def _rows(self, line, style) -> Iterator[Any]:
        """The rows of a line, each as pieces with their styles."""
        if line.kind != "request":
            for row in self._wrapped(line.words, PLACE + GAP + 2, 4):
                yield [(KINDS.get(line.kind, ""), row)]
        elif self.width is None:
            yield [("", f"{line.place} {line.words} -> "), (style, line.answer)]
        else:
            yield from self._columns(line, style)

    def _wrapped(self, words, indent, further) -> list[str]:
        """The rows of words from a column on, those after the first one further in. Without a width there is one."""
        if self.width is None:
            return [(show.INDENT if indent else "") + words]
        # Two spaces before a field are kept.
        front = " " * (indent + len(words) - len(words.lstrip()))
        return textwrap.wrap(words.lstrip(), max(self.width, 20), initial_indent=front, subsequent_indent=front + further * " ",
                             break_on_hyphens=False) or [front]

    def _columns(self, line, style) -> Iterator[Any]:
        front = f"{line.place:>{PLACE}}{' ' * GAP}"
        if self.width < LEAST_WIDTH:
            yield from self._stacked(front, line, style, PLACE + GAP)
            return
        room = min(MOST_REQUEST, (self.width - len(front)) // 2)
        beside = len(front) + room + GAP
        if len(line.words) > room:
            yield from self._stacked(front, line, style, beside)
            return
        first, *others = textwrap.wrap(line.answer, self.width - beside, break_on_hyphens=False)
        yield [(FAINT, front), ("", f"{line.words:<{room}}{' ' * GAP}"), (style, first)]
        yield from ([(style, " " * beside + it)] for it in others)

    def _stacked(self, front, line, style, beside) -> Iterator[Any]:
        """The request over the whole width, and the answer below it."""
        first, *others = textwrap.wrap(line.words, max(20, self.width - len(front) - 2), break_on_hyphens=False)
        yield [(FAINT, front), ("", first)]
        yield from ([("", " " * (len(front) + 2) + it)] for it in others)
        for row in textwrap.wrap(line.answer, max(20, self.width - beside), break_on_hyphens=False):
            yield [(style, " " * beside + row)]
