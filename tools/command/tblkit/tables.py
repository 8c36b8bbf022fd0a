"""The tables and handles that a session has at each of its requests, as its records and their answers tell."""
from dataclasses import dataclass, replace

from . import layouts, names, packets

SUCCESS, STOPPED = layouts.statuses("SUCCESS", "STOPPED")
# The statuses with which a Register has registered its table.
REGISTERED = layouts.statuses("SUCCESS", "RECOVERED_TBL", "NOT_CRITICAL")
# The statuses with which a request is granted, where they are more than 0.
GRANTED = {"Register": REGISTERED, "CdsRegister": (0, 11)}
WRONG_HANDLE = layouts.statuses("INVALID_HANDLE", "NO_ACCESS", "UNREGISTERED")
POWER_ON = layouts.code("reset", "power-on")
MOST_HANDLES_TOLD = 16


@dataclass(frozen=True)
class Handle:
    """A handle that is given: whose it is, its table's name and row, whether its registration gave it, and how many bytes the table
    has. The table is None where it is gone."""
    actor: int
    table: str | None
    row: int | None
    is_registration: bool
    size: int


@dataclass(frozen=True, eq=False)
class View:
    """What stands before a request: the tables by their rows, the handles, the names of the applications, and by their slots how many
    bytes the blocks have that applications asked for. None is known after a request of another session. Each is told by which one it is:
    requests that change nothing have the same one before and after them."""
    rows: dict
    handles: dict
    applications: dict
    blocks: dict
    is_known: bool = True

    def full_name(self, actor, short_name) -> str:
        """The full name of an application's table, in words."""
        return names.quoted(self.applications.get(actor, b"") + b"." + names.name_in(short_name))

    def row_words(self, words, row) -> str:
        """A row in words, with its table where one is known."""
        return f"{words} {self.rows[row]}" if row in self.rows else words

    def handle_words(self, actor) -> str:
        """The handles that an application has."""
        own = [(number, it) for number, it in sorted(self.handles.items()) if it.actor == actor]
        if not own:
            return f"app {actor} has no handle"
        told = [f"{number} {self._table_words(it)}" for number, it in own[:MOST_HANDLES_TOLD]]
        more = f", and {len(own) - MOST_HANDLES_TOLD} more" if len(own) > MOST_HANDLES_TOLD else ""
        return f"app {actor} has {'the handle' if len(own) == 1 else 'the handles'} {', '.join(told)}{more}"

    def _table_words(self, handle) -> str:
        if handle.table is None:
            return "(its table is gone)"
        owner = next((it.actor for it in self.handles.values() if it.row == handle.row and it.is_registration), handle.actor)
        return handle.table if owner == handle.actor else f"{handle.table} (of app {owner})"


NONE_KNOWN = View({}, {}, {}, {}, False)


class Tables:
    """Follows the answers of a session. `view` is never changed: each change makes a new one."""

    def __init__(self) -> None:
        self.view = View({}, {}, {}, {})

    def follow(self, answer) -> None:
        """Goes on to what stands after an answer."""
        if answer.record is None:
            self.view = NONE_KNOWN
        elif self.view.is_known and (answer.kind in CHANGES or answer.status == STOPPED):
            self._change(answer)

    def _change(self, answer) -> None:
        name, body = answer.kind, answer.record.body
        if name == "Reset" or answer.status == STOPPED:
            self._reset(name == "Reset" and body[0] == POWER_ON)
        elif answer.status in GRANTED.get(name, (SUCCESS,)):
            CHANGES[name](self, answer, body)

    def _reset(self, is_power_on) -> None:
        """Tables and handles go with each reset, and the applications that run and the blocks with a power-on."""
        self.view = View({}, {}, *({}, {}) if is_power_on else (self.view.applications, self.view.blocks))

    def _start(self, answer, body) -> None:
        name = names.name_in(names.field("Start", "name").of(body))
        self.view = replace(self.view, applications=self.view.applications | {answer.actor: name})

    def _register(self, answer, body) -> None:
        row = next(it for it in range(len(self.view.rows) + 1) if it not in self.view.rows)
        table = self.view.full_name(answer.actor, names.field("Register", "short name").of(body))
        size = packets.number(names.field("Register", "size").of(body))
        handles = self.view.handles | {answer.entry.number("detail"): Handle(answer.actor, table, row, True, size)}
        self.view = replace(self.view, rows=self.view.rows | {row: table}, handles=handles)

    def _share(self, answer, body) -> None:
        table = names.quoted(names.name_in(names.field("Share", "table").of(body)))
        row = next((row for row, it in self.view.rows.items() if it == table), None)
        size = next((it.size for it in self.view.handles.values() if it.row == row), 0)
        handle = Handle(answer.actor, table, row, False, size)
        self.view = replace(self.view, handles=self.view.handles | {answer.entry.number("detail"): handle})

    def _cds_register(self, answer, body) -> None:
        size = packets.number(names.field("CdsRegister", "size").of(body))
        self.view = replace(self.view, blocks=self.view.blocks | {answer.entry.number("detail"): size})

    def _unregister(self, _, body) -> None:
        self._give_back(packets.number(names.field("Unregister", "handle").of(body)))

    def _exit(self, answer, _) -> None:
        for number in sorted(number for number, it in self.view.handles.items() if it.actor == answer.actor):
            self._give_back(number)
        left = {actor: name for actor, name in self.view.applications.items() if actor != answer.actor}
        self.view = replace(self.view, applications=left)

    def _give_back(self, number) -> None:
        """Takes a handle away, and its table where its registration gave it."""
        handle = self.view.handles.get(number)
        rows, handles = dict(self.view.rows), dict(self.view.handles)
        handles.pop(number, None)
        if handle and handle.is_registration:
            rows.pop(handle.row, None)
            handles = {at: replace(it, table=None, row=None) if it.row == handle.row else it for at, it in handles.items()}
        self.view = replace(self.view, rows=rows, handles=handles)


CHANGES = {"Start": Tables._start, "Register": Tables._register, "Share": Tables._share, "Unregister": Tables._unregister,
           "Exit": Tables._exit, "CdsRegister": Tables._cds_register, "Reset": None}
