"""The report of a watcher: beside its session, to which request of application 16 each of its lines belongs; and as it is worked
out from a transcript.

A line has the place of a call that got an address in the order of turns. Where other actors have requests too, that order isn't
known: a place says how many of their requests came before, and that number doesn't fall from line to line. So each line is beside
all calls that it can belong to, mostly one.
"""
import io
import itertools
import re
from collections.abc import Iterator
from dataclasses import dataclass

from . import layouts, names, records, show, store, text, transcript
from .tables import SUCCESS

WATCHER = layouts.number("applications")
# The statuses of a Get that got an address.
GOT = layouts.statuses("SUCCESS", "UPDATED")
LINE = re.compile(r"([0-9]+) [!-~]+ [0-9A-F]{4} (?:first|same|changed [0-9A-F]{4})")
LAST = re.compile(r"watched ([0-9]+) changed ([0-9]+)")
# The first and the last call that a line can belong to.
MANY = "one of the calls from record {} to record {}"


class Wrong(Exception):
    """A report isn't one, or is of another session."""


class Script:
    """The requests of application 16: their records, with their numbers in the session, and as bits which of them ask for an
    address. `others` is how many requests all other actors have."""

    def __init__(self, session) -> None:
        self.records, self.others, self.gets = [], 0, 0
        for number, piece in enumerate(itertools.islice(records.pieces(session), records.MOST_RECORDS)):
            if piece.fault:
                break
            if piece.actor != WATCHER:
                self.others += 1
                continue
            self.gets |= (piece.request.name == "Get") << len(self.records)
            self.records.append((number, piece))

    def named(self, bits) -> str:
        """The calls of these bits, for people."""
        first, last = (bits & -bits).bit_length() - 1, bits.bit_length() - 1
        number, piece = self.records[first]
        if first == last:
            return f"record {number}: {text.line_of(piece)}"
        return MANY.format(number, self.records[last][0])


def _spread(bits, count, shifted) -> int:
    """The bits, and as many after each, `shifted` one way or the other."""
    done = 0
    while done < count:
        step = min(done + 1, count - done)
        bits |= shifted(bits, step)
        done += step
    return bits


def candidates(script, places) -> list[int]:
    """For each line the calls that it can belong to, as bits: one after the other, and no more of the other actors' requests in all
    than there are."""
    found = []
    for at, place in enumerate(places):
        near = ((1 << (place + 1)) - 1) & ~((1 << max(place - script.others, 0)) - 1)
        if at:
            near &= _spread(found[-1], place - places[at - 1] - 1, int.__lshift__) << 1
        found.append(script.gets & near)
    for at in range(len(found) - 2, -1, -1):
        found[at] &= _spread(found[at + 1], places[at + 1] - places[at] - 1, int.__rshift__) >> 1
    return found


def parsed(report) -> tuple[list[str], list[int]]:
    """The lines of a report, and the place of each but the last."""
    lines = report.split("\n")
    if len(lines) < 2 or lines.pop() or not (last := LAST.fullmatch(lines[-1])):
        raise Wrong("no report: its last line isn't `watched N changed C`")
    found = [LINE.fullmatch(it) for it in lines[:-1]]
    if not all(found) or int(last[1]) != len(found):
        raise Wrong("no report: a line of it is none, or the last one counts others")
    places = [int(it[1]) for it in found]
    if any(before >= place for before, place in itertools.pairwise(places)):
        raise Wrong("no report: its places don't rise")
    return lines, places


@dataclass(frozen=True)
class Look:
    """What a line tells: the place of a call in the order of turns, the table, and the check word of the image that it got."""
    place: int
    table: str
    word: int


def looks(session, output) -> Iterator[Look]:
    """The looks at what application 16 got, by the transcript of a session in which all images are those of LoadImage."""
    images = {}
    for part in show.answers(transcript.parts(io.BytesIO(output)), records.Index(io.BytesIO(session))):
        if not isinstance(part, show.Answer):
            continue
        if part.request == "LoadImage" and part.status == SUCCESS:
            images[part.handle().table] = names.field("LoadImage", "image").of(part.record.body)
        if part.actor == WATCHER and part.request == "Get" and part.status in GOT:
            table = part.handle().table
            yield Look(part.entry.number("place"), table, store.check_word(images[table]))


def report(seen) -> str:
    """The report of these looks."""
    words, told, changed = {}, [], 0
    for look in seen:
        before = words.get(look.table)
        what = "first" if before is None else "same" if before == look.word else f"changed {before:04X}"
        changed += what.startswith("changed")
        told.append(f"{look.place} {look.table} {look.word:04X} {what}\n")
        words[look.table] = look.word
    return "".join(told) + f"watched {len(told)} changed {changed}\n"


def lines(session, report) -> Iterator[str]:
    """The lines of a report, each with its request below it."""
    told, places = parsed(report)
    script = Script(session)
    found = candidates(script, places)
    if not all(found):
        raise Wrong("the report is of another session")
    for line, bits in itertools.zip_longest(told, found):
        yield line
        if bits:
            yield f"      {script.named(bits)}"
