"""What each table is like after each request of a session, as the records and their answers tell."""
from __future__ import annotations

import enum
import functools
import typing
from collections.abc import Iterator
from typing import Any

from . import layouts, names, packets
from .numbers import counted
from .tables import REGISTERED, STOPPED, SUCCESS, Tables

UPDATED, RECOVERED, NOT_CRITICAL, LOCKED, VALIDATION_FAILED = layouts.statuses(
    "UPDATED", "RECOVERED_TBL", "NOT_CRITICAL", "TABLE_LOCKED", "VALIDATION_FAILED")
IMAGE_ACTIVE, DUMP_WRITTEN, DUMP_DROPPED, VALIDATION_FINISHED = layouts.numbers_of(
    "event", "image went active", "dump file written", "dump file wasn't written", "validation finished")
INACTIVE = layouts.code("image", "inactive")
NO_FUNCTION = 0xFF
# What a Manage did, by the bits of its reply byte.
ACTIVE_VALIDATED, LOAD_VALIDATED, DUMP_FILLED = (layouts.bit("work", it) for it in (
    "active image validated", "inactive image validated", "dump filled"))


class Load(enum.Enum):
    """How far a load, the inactive buffer with what LOADs have put into it, has come."""
    OPEN = "load open"
    PENDING = "validation pending"
    REJECTED = "load rejected"
    VALIDATED = "load validated"
    ASKED = "activation asked"


class Dump(enum.Enum):
    """How far the dump of a dump-only table has come that the ground has asked for."""
    ASKED = "dump asked"
    FILLED = "dump filled"


class TableState(typing.NamedTuple):
    """A registered table: who registered it and how, how many images it has had, what is pending, and which handles hold the
    address of which of its images. `validator` is 0xFF for none."""
    name: str
    row: int
    handle: int
    owner: int
    size: int
    options: int
    validator: int
    images: int = 0
    is_recovered: bool = False
    load: Load | None = None
    is_active_pending: bool = False
    dump: Dump | None = None
    pins: tuple = ()
    file: str = ""
    updated: tuple = (0, 0)

    def has(self, option) -> bool:
        """Whether it was registered with an option, as `double`; `critical` only where its images are kept."""
        return bool(self.options & _bit(option))

    @property
    def has_function(self) -> bool:
        return self.validator != NO_FUNCTION

    def registered_words(self) -> str:
        """Its row, and how it was registered."""
        return _registered_words(self.row, self.size, self.options, self.validator)

    def image_words(self) -> str:
        """Which image is active."""
        if not self.images:
            return "no image"
        return f"image {self.images}" + (", recovered" if self.is_recovered and self.images == 1 else "")

    def words(self) -> str:
        """All that it has."""
        pending = [it.value for it in (self.load, self.dump) if it]
        pending += ["validation of the active image pending"] if self.is_active_pending else []
        told = [self.image_words(), *pending, *(pin_words(*it) for it in self.pins)]
        return f"{self.name} of app {self.owner}, {self.registered_words()}: {'; '.join(told)}"

    def without_pin(self, handle) -> TableState:
        return self._replace(pins=tuple(it for it in self.pins if it[0] != handle))


@functools.cache
def _bit(option) -> int:
    """The bit of an option by its word."""
    return next(bit for bit, word in names.bits("options").items() if word == option)


@functools.lru_cache(packets.KEPT)
def _registered_words(row, size, options, validator) -> str:
    chosen = [word for bit, word in names.bits("options").items() if options & bit]
    function = [f"validator {validator}"] if validator != NO_FUNCTION else []
    return ", ".join([f"row {row}, {counted(size, 'byte')}", *chosen, *function])


def pin_words(handle, image) -> str:
    """That a handle holds the address of an image."""
    return f"handle {handle} holds the address of image {image}"


class Impossible(Exception):
    """An answer that its request can't have after those before it."""


class States:
    """Follows the answers of a session. `tables` has each registered table by its full name, and `view` rows and handles. Both
    stay as they are where a change makes new ones."""

    def __init__(self) -> None:
        self.tables, self._follower = {}, Tables()

    @property
    def view(self) -> Any:
        return self._follower.view

    def follow(self, answer) -> None:
        """Goes on to what stands after an answer."""
        try:
            self._follow(answer)
        except (AttributeError, LookupError, StopIteration):
            raise Impossible from None

    def _follow(self, answer) -> None:
        before = self.view
        self._follower.follow(answer)
        if not self.view.is_known or answer.kind == "Reset" or answer.status == STOPPED:
            self.tables = {}
            return
        change = CHANGES.get(answer.request)
        if change and answer.status in GOES_ON.get(answer.request, (SUCCESS,)):
            change(self, answer, before)
        for packet in answer.packets:
            if packet.kind == "event":
                self._told(packet, before)

    def lines(self) -> Iterator[str]:
        """The applications that run, with their handles, and the tables."""
        for actor, name in sorted(self.view.applications.items()):
            yield f"app {actor} {names.quoted(name)} runs; {self.view.handle_words(actor)}"
        for table in sorted(self.tables.values(), key=lambda it: it.row):
            yield table.words()

    def _change(self, name, **values) -> None:
        """Has another state of a table, where it is a registered one."""
        if name in self.tables:
            self.tables = self.tables | {name: self.tables[name]._replace(**values)}

    def _told(self, event, before) -> None:
        """What an event tells of its table."""
        number, _, row, detail = event.told
        name = before.rows.get(row)
        if number == IMAGE_ACTIVE:
            self._change(name, images=detail, updated=event.time)
        elif number in (DUMP_WRITTEN, DUMP_DROPPED) and name in self.tables and self.tables[name].dump is Dump.FILLED:
            self._change(name, dump=None)

    def _register(self, answer, _) -> None:
        handle, body = answer.entry.number("detail"), answer.record.body
        values = {it.name: packets.number(it.of(body)) for it in names.fields("Register") if it.form != "name"}
        name, row = self.view.handles[handle].table, self.view.handles[handle].row
        table = TableState(name, row, handle, answer.actor, values["size"], values["options"], values["validator"])
        if answer.status == NOT_CRITICAL:
            critical = next(bit for bit, word in names.bits("options").items() if word == "critical")
            table = table._replace(options=table.options & ~critical)
        if answer.status == RECOVERED or table.has("dump-only"):
            table = table._replace(images=1, is_recovered=answer.status == RECOVERED)
        self.tables = self.tables | {name: table}

    def _give_back(self, handles, before) -> None:
        """Takes handles away that are no longer given: their pins, and the tables whose registration gave them."""
        gone = {it.table for number, it in before.handles.items() if number in handles and it.is_registration}
        left = {name: it for name, it in self.tables.items() if name not in gone}
        for number in handles:
            left = {name: it.without_pin(number) for name, it in left.items()}
        self.tables = left

    def _unregister(self, answer, before) -> None:
        self._give_back({_number(answer, "handle")}, before)

    def _exit(self, answer, before) -> None:
        self._give_back({number for number, it in before.handles.items() if it.actor == answer.actor}, before)

    def _get(self, answer, _) -> None:
        table = self._by_handle(answer)
        self._change(table.name, pins=(*table.pins, (_number(answer, "handle"), table.images)))

    def _release(self, answer, _) -> None:
        table = self._by_handle(answer)
        self.tables = self.tables | {table.name: table.without_pin(_number(answer, "handle"))}

    def _load_file(self, answer, _) -> None:
        self._change(self._by_handle(answer).name, file=_name(answer, "file"))

    def _edit(self, answer, _) -> None:
        table = self._by_handle(answer)
        self._change(table.name, images=table.images + 1)

    def _update(self, answer, _) -> None:
        self._change(self._by_handle(answer).name, load=None)

    def _validate(self, answer, _) -> None:
        self._finish(self._by_handle(answer), answer.status == SUCCESS)

    def _finish(self, table, is_accepted) -> None:
        """A validation is finished: that of the last image, and else that of the load."""
        if table.is_active_pending:
            self._change(table.name, is_active_pending=False)
        else:
            self._change(table.name, load=Load.VALIDATED if is_accepted else Load.REJECTED)

    def _manage(self, answer, _) -> None:
        done = answer.entry.reply[0]
        verdicts = [it.told.detail for it in answer.packets if it.told and it.told.number == VALIDATION_FINISHED]
        for bit in (ACTIVE_VALIDATED, LOAD_VALIDATED):
            if done & bit:
                self._finish(self._by_handle(answer), verdicts.pop(0) == 0)
        if answer.status == UPDATED:
            self._update(answer, _)
        if done & DUMP_FILLED:
            self._fill(answer, _)

    def _fill(self, answer, _) -> None:
        self._change(self._by_handle(answer).name, dump=Dump.FILLED)

    def _load(self, answer, before) -> None:
        table = self.tables[before.rows[answer.packets[0].told.row]]
        self._change(table.name, load=Load.PENDING if table.load is Load.PENDING else Load.OPEN, file=_name(answer, "file"))

    def _ask_validation(self, answer, _) -> None:
        table = self._by_name(answer)
        is_load = _number(answer, "select") == INACTIVE and not table.has("dump-only")
        if is_load:
            self._change(table.name, load=Load.PENDING if table.has_function else Load.VALIDATED)
        elif table.has_function:
            self._change(table.name, is_active_pending=True)

    def _ask_activation(self, answer, _) -> None:
        self._change(self._by_name(answer).name, load=Load.ASKED)

    def _abort(self, answer, _) -> None:
        self._change(self._by_name(answer).name, load=None)

    def _ask_dump(self, answer, _) -> None:
        table = self._by_name(answer)
        if table.has("dump-only"):
            self._change(table.name, dump=Dump.ASKED)

    def _by_handle(self, answer) -> TableState:
        return self.tables[answer.handle().table]

    def _by_name(self, answer) -> TableState:
        return self.tables[_name(answer, "table")]


def _raw(answer, name) -> bytes:
    """The bytes of a field of the record, or of the command that it is."""
    return next(raw for field, raw in answer.fields() if field.name == name)


def _number(answer, name) -> int:
    return packets.number(_raw(answer, name))


def _name(answer, name) -> str:
    return names.quoted(names.name_in(_raw(answer, name)))


# What a request changes, and the statuses with which it does where there are others than 0.
CHANGES = {"Register": States._register, "Unregister": States._unregister, "Exit": States._exit, "Get": States._get,
           "Release": States._release, "LoadFile": States._load_file, "Edit": States._edit, "Update": States._update,
           "Validate": States._validate, "Manage": States._manage, "DumpToBuffer": States._fill, "LOAD": States._load,
           "VALIDATE": States._ask_validation, "ACTIVATE": States._ask_activation, "ABORT_LOAD": States._abort,
           "DUMP": States._ask_dump}
GOES_ON = {"Register": REGISTERED, "Get": (SUCCESS, UPDATED), "Release": (SUCCESS, UPDATED),
           "Validate": (SUCCESS, VALIDATION_FAILED), "Manage": (SUCCESS, UPDATED, LOCKED)}
