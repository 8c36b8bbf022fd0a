"""The order in which the answers of a session with threads are shown: that of the session, but for requests that meet.

Two requests of different actors meet where they name the same table, file, block or slot; where both give out or take back
handles, or both make or delete blocks; where one sets the time and the other sends a packet; and where one of them is a reset,
tells of all tables, or was answered that something is full or that the store failed. Those that meet stay in the order of
their turns, as the requests of one actor do.
"""
import heapq
from collections.abc import Iterator
from typing import Any

from . import layouts, names, packets
from .answers import Answer

# What meets all: resets and requests that tell of all tables, and answers that depend on all that was done before.
MEETS_ALL = {"Reset", packets.HOUSEKEEPING, "RESET_COUNTERS", "DUMP_REGISTRY"}
MEETS_ALL_BY_STATUS = set(layouts.statuses("STOPPED", "REGISTRY_FULL", "HANDLES_FULL", "NO_BUFFER_AVAIL", "VALIDATIONS_FULL", "DRAWER_FULL",
                                           "CDS_NO_ROOM", "CDS_FAULT", "BOOT_FAULT"))
NO_SUCH_TABLE, NO_BLOCK = layouts.statuses("NO_SUCH_TABLE", "CDS_NOT_FOUND")
HANDLES = {"Register", "Share", "Unregister", "Exit"}
BLOCKS = {"CdsRegister", "CdsDelete", "DELETE_CDS"}
TIME = "Time"


def in_session_order(answers) -> Iterator[Any]:
    """The parts of a transcript in the order to be shown."""
    segment = _Segment()
    for part in answers:
        if isinstance(part, Answer) and not _meets_all(part):
            segment.add(part)
        else:
            yield from segment.ordered()
            yield part
            segment = _Segment()
    yield from segment.ordered()


def _meets_all(answer) -> bool:
    return (answer.record is None or not answer.view.is_known or answer.request in MEETS_ALL
            or answer.status in MEETS_ALL_BY_STATUS or answer.request == "LOAD" and answer.status == NO_SUCH_TABLE)


def subjects(answer) -> set[Any]:
    """What a request is about, as far as another actor's may be about it too."""
    found: set[Any] = {("handles",)} if answer.request in HANDLES else set()
    if answer.request in BLOCKS or answer.status == NO_BLOCK:
        found.add(("blocks",))
    for field, raw in answer.fields():
        if field.name in ("table", "file") or field.owner == "File" and field.form == "name":
            found.add(("table" if field.name == "table" else "file", names.quoted(names.name_in(raw))))
        elif field.name == "slot":
            found.add(("slot", packets.number(raw)))
    return found | tables_of(answer) | _blocks_of(answer)


def tables_of(answer) -> set[Any]:
    """The tables of a request by its handle, of an application that ends, and of those that packets tell of."""
    own = [it for it in answer.view.handles.values() if it.actor == answer.actor] if answer.request == "Exit" else []
    found: set[Any] = {("table", it.table) for it in own}
    if any(it.name == "handle" for it, _ in answer.fields()):
        handle = answer.handle()
        is_own = handle is not None and handle.actor == answer.actor and handle.table is not None
        found.add(("table", handle.table) if is_own else ("handles",))
    if answer.request == "Register":
        found.add(("table", answer.view.full_name(answer.actor, names.field("Register", "short name").of(answer.record.body))))
    rows = [it.told.row for it in answer.packets if it.told]
    return found | {("table", answer.view.rows[it]) for it in rows if it in answer.view.rows}


def tables_named(answer) -> set[str]:
    """The tables that a request is about, by name: those of its fields, its handle and its packets."""
    if not answer.view.rows and answer.request != "Register":
        return set()
    found = {subject for kind, *of in tables_of(answer) if kind == "table" for subject in of}
    return found | {names.quoted(names.name_in(raw)) for field, raw in answer.fields() if field.name == "table"}


def _blocks_of(answer) -> set[Any]:
    """The block that a registration made or found."""
    if answer.request == "CdsRegister":
        return {("slot", answer.entry.number("detail"))}
    if answer.request != "Register":
        return set()
    options = names.shown("options", names.field("Register", "options").of(answer.record.body))
    return {("blocks",)} if "critical" in options else set()


class _Segment:
    """Answers between two that meet all: which of them each holds up, and how many hold it up."""

    def __init__(self) -> None:
        self._answers, self._holds, self._waits = [], [], []
        # The last answer about each subject, and those that have sent packets since the time was set.
        self._last, self._timed = {}, []

    def add(self, answer) -> None:
        index = len(self._answers)
        keys = subjects(answer) | {("actor", answer.actor)}
        before = {self._last[it] for it in keys if it in self._last}
        if answer.request == TIME:
            before.update(self._timed)
            self._timed = []
            keys.add(TIME)
        elif answer.packets:
            before.update(self._last[it] for it in (TIME,) if it in self._last)
            self._timed.append(index)
        self._last |= dict.fromkeys(keys, index)
        self._answers.append(answer)
        self._holds.append([])
        self._waits.append(len(before))
        for it in before:
            self._holds[it].append(index)

    def ordered(self) -> Iterator[Any]:
        """The answers, each after those that hold it up, and else by the places of their records."""
        ready = [(it.record.at, index) for index, it in enumerate(self._answers) if not self._waits[index]]
        heapq.heapify(ready)
        while ready:
            _, index = heapq.heappop(ready)
            yield self._answers[index]
            for held in self._holds[index]:
                self._waits[held] -= 1
                if not self._waits[held]:
                    heapq.heappush(ready, (self._answers[held].record.at, held))
