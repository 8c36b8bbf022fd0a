"""Which calls and commands sessions make of a table in which state, and with what answer; and a walk that makes each of them in each
state that it comes to.
"""
from collections import deque
from typing import Any

from . import names, packets, text
from .tables import SUCCESS

# The calls and commands that are told of, in the order of the columns.
CALLS = ("Register", "Share", "Unregister", "LoadImage", "LoadFile", "Update", "Validate", "Manage", "DumpToBuffer", "Edit", "Get", "Release",
         "GetStatus", "GetInfo", "Notify", "LOAD", "VALIDATE", "ACTIVATE", "ABORT_LOAD", "DUMP", "SEND_REGISTRY", "DELETE_CDS")
NOT_GIVEN, ANOTHERS, GONE, NO_TABLE = "a handle that isn't given", "another's handle", "a handle whose table is gone", "no table of this name"


def buffers(table) -> str:
    """How a table was registered, in words."""
    kind = "dump-only" if table.has("dump-only") else "two buffers" if table.has("double") else "one buffer"
    return kind + (", function" if table.has_function else "")


def situation(table) -> str:
    """The state of a table in words: how it was registered, whether it was loaded, what is pending, and whether its address is held."""
    pending = [it.value for it in (table.load, table.dump) if it] + (["active image pending"] if table.is_active_pending else [])
    images = {image for _, image in table.pins}
    held = (["address held"] if table.images in images else []) + (["address of the image before held"] if images - {table.images} else [])
    return ", ".join([buffers(table), "loaded" if table.images else "never loaded", *pending, *held])


def _by_handle(answer, states) -> str:
    """The state that a call by a handle meets."""
    handle = states.view.handles.get(packets.number(answer.record.body[:2]))
    if handle is None:
        return NOT_GIVEN
    if handle.actor != answer.actor:
        return ANOTHERS
    return situation(states.tables[handle.table]) if handle.table else GONE


def _named(answer, view) -> str | None:
    """The full name of the table that a request names."""
    if answer.request == "Register":
        return view.full_name(answer.actor, names.field("Register", "short name").of(answer.record.body))
    if answer.request == "LOAD":
        return None
    return names.quoted(next((names.name_in(raw) for it, raw in answer.fields() if it.name == "table"), b""))


class Pairs:
    """The pairs of a state and a call that requests make, each with the statuses that it was answered with."""

    def __init__(self) -> None:
        self.found, self._files = {}, {}

    def take(self, answer, before) -> None:
        """Takes an answer, with the states before it."""
        if answer.record is not None and answer.record.request.name == "File":
            body = answer.record.body
            content = names.field("File", "contents").of(body)
            self._files[names.name_in(body[:64])] = names.quoted(names.name_in(names.field("table file header", "table").of(content)))
        if answer.request in CALLS:
            self.found.setdefault((self._state(answer, before), answer.request), set()).add(answer.status)

    def _state(self, answer, before) -> str:
        body = answer.record.body
        if answer.record.request.name not in ("Command", "Register", "Share", "GetInfo"):
            return _by_handle(answer, before)
        name = _named(answer, before.view)
        if name is None:
            name = self._files.get(names.name_in(body[packets.COMMAND_HEADER:]))
        table = before.tables.get(name)
        return NO_TABLE if table is None else situation(table)


class Before:
    """What stood before a request: the states change, and these don't."""

    def __init__(self, states) -> None:
        self.view, self.tables = states.view, states.tables


# How the tables of the walk are registered, and whether another application uses each of them too.
KINDS = (("", True), ("double", True), ("validator 0", False), ("double validator 0", False), ("dump-only", False), ("dump-only validator 0", False))
FILES = ("file /whole table A.{t} at 0 hex 01020304", "file /part table A.{t} at 2 hex 0506", "file /bad table A.{t} at 0 hex 00020304")
STEPS = ("app 1 get {h}", "app 1 release {h}", "app 1 load {h} hex 01020304", "app 1 load {h} hex 00020304", "app 1 load-file {h} /whole",
         "app 1 load-file {h} /part", "app 1 update {h}", "app 1 validate {h}", "app 1 manage {h}", "app 1 dump-to-buffer {h}",
         "app 1 get-status {h}", "app 1 get-info A.{t}", "app 1 notify {h} message 0x1880 code 1 parameter 2", "app 1 edit {h} at 1 hex 07",
         "app 1 register {t} size 4 {o}", "ground LOAD /whole", "ground LOAD /part", "ground LOAD /bad", "ground VALIDATE inactive A.{t}",
         "ground VALIDATE active A.{t}", "ground ACTIVATE A.{t}", "ground ABORT_LOAD A.{t}", "ground DUMP active A.{t} /dump",
         "ground DUMP inactive A.{t} /dump", "ground SEND_REGISTRY A.{t}", "ground DELETE_CDS A.{t}", "ground HOUSEKEEPING")
OTHERS = ("app 2 get {s}", "app 2 release {s}", "app 2 load {s} hex 01020304", "app 2 update {s}", "app 2 manage {s}", "app 2 get-status {s}")
# From each state the table is registered anew, so that it is never loaded.
REGISTER, SHARE, UNSHARE, UNREGISTER = "app 1 register {t} size 4 {o}", "app 2 share A.{t}", "app 2 unregister {s}", "app 1 unregister {h}"
OPENING = ("app 1 start A", "app 2 start B")
# Calls of what isn't there, with the table of handle 0 as that of the other.
STRANGE = ("unregister 9", "load 9 hex 01", "load-file 9 /whole", "update 9", "validate 9", "manage 9", "dump-to-buffer 9", "edit 9 at 0 hex 01",
           "get 9", "release 9", "get-status 9", "notify 9 message 0x1880 code 1 parameter 2", "share A.NONE", "get-info A.NONE")
STRANGE_GROUND = ("VALIDATE inactive A.NONE", "ACTIVATE A.NONE", "ABORT_LOAD A.NONE", "DUMP active A.NONE /dump", "SEND_REGISTRY A.NONE",
                  "DELETE_CDS A.NONE")
BLOCKS = ("app 1 register KEPT size 4 critical", "app 1 load 0 hex 01020304", "app 1 unregister 0", "ground DELETE_CDS A.KEPT",
          "app 1 register KEPT size 4 critical", "app 1 load 0 hex 05060708", "ground DELETE_CDS A.KEPT", "app 1 unregister 0",
          "app 1 register KEPT size 4 critical", "app 1 get 0", "app 1 release 0", "app 1 unregister 0", "app 1 register KEPT size 8 critical",
          "app 1 get 0", "app 1 unregister 0", "app 1 cds-register STATE size 4", "app 1 cds-restore 1", "app 1 cds-copy 1 hex A1A2A3A4",
          "app 1 cds-restore 1", "app 1 cds-register STATE size 4", "app 1 cds-register STATE size 8", "app 1 cds-restore 1", "app 1 cds-restore 99",
          "app 1 cds-copy 99 hex 01")


class Walk:
    """A walk over one kind of table: each step is made once in each state, on the way that is the shortest as far as it is known."""

    def __init__(self, running, pairs, options, is_shared, name) -> None:
        self._running, self._pairs, self.lines, self._table = running, pairs, [], f"A.{name}"
        self._words = {"t": name, "o": options, "h": 0, "s": 0}
        self._begin = (REGISTER, SHARE) if is_shared else (REGISTER,)
        self._end = (UNSHARE, UNREGISTER) if is_shared else (UNREGISTER,)
        self._steps = [*((it,) for it in STEPS + (OTHERS if is_shared else ())), (*self._end, *self._begin)]
        # By state and step the state that it leads to, and whether the load will be rejected.
        self._ways, self._is_bad = {}, False

    def make(self) -> list[str]:
        """Makes the walk, and gives its lines."""
        for line in (*OPENING, *FILES, *self._begin):
            self._play(line)
        while (steps := self._next()) is not None:
            for step in steps:
                before = self._node()
                for line in step:
                    self._play(line)
                self._ways.setdefault(before, {})[step] = self._node()
        for line in self._end:
            self._play(line)
        return self.lines

    def _play(self, line) -> None:
        line = line.format(**self._words)
        self.lines.append(line)
        before = Before(self._running.states)
        for answer in self._running.ask(text.record_of(line)):
            self._pairs.take(answer, before)
            if answer.request == "LOAD" and answer.status == SUCCESS:
                is_new = before.tables[self._table].load is None
                self._is_bad = line.endswith("/bad") or (self._is_bad and line.endswith("/part") and not is_new)
        for handle, it in self._running.states.view.handles.items():
            self._words["h" if it.is_registration else "s"] = handle

    def _node(self) -> tuple[Any, ...]:
        """The state of the table, with the handles that have its address, and whether its load will be rejected."""
        table = self._running.states.tables[self._table]
        pins = tuple((handle, image == table.images) for handle, image in table.pins)
        return situation(table), pins, table.load is not None and table.has_function and self._is_bad

    def _next(self) -> list[Any] | None:
        """The steps to the nearest state in which one wasn't made yet, with this one; None if all are made that the walk comes to."""
        start = self._node()
        ways: dict[Any, list[Any]] = {start: []}
        left = deque([start])
        while left:
            node = left.popleft()
            known = self._ways.get(node, {})
            untried = next((it for it in self._steps if it not in known), None)
            if untried is not None:
                return [*ways[node], untried]
            for step, to in known.items():
                if to not in ways:
                    ways[to] = [*ways[node], step]
                    left.append(to)
        return None


def strange(running, pairs) -> list[str]:
    """A session of calls of what isn't there, and of blocks of the Critical Data Store."""
    lines = [*OPENING, "app 2 register T size 4", *(f"app 1 {it}" for it in STRANGE), *(f"app 1 {it.replace(' 9', ' 0')}" for it in STRANGE[:12]),
             "app 1 share B.T", "app 2 unregister 0", *(f"app 1 {it.replace(' 9', ' 1')}" for it in (*STRANGE[1:12], STRANGE[0])),
             *(f"ground {it}" for it in STRANGE_GROUND), *BLOCKS]
    for line in lines:
        before = Before(running.states)
        for answer in running.ask(text.record_of(line)):
            pairs.take(answer, before)
    return lines


def walks(open_run) -> tuple[list[list[str]], Pairs]:
    """The sessions of all walks as lines, and the pairs that they reach. `open_run` gives a fresh run for each."""
    pairs, sessions = Pairs(), []
    for number, (options, is_shared) in enumerate(KINDS):
        sessions.append(Walk(open_run(), pairs, options, is_shared, f"W{number + 1}").make())
    return [*sessions, strange(open_run(), pairs)], pairs
