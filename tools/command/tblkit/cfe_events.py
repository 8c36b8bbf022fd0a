"""The events of the service as cFE sends them: which of cFE's events each one is, with its number, type and text."""
import functools
import re
import typing
from dataclasses import dataclass
from typing import Any

from . import files, layouts, names, packets, tables
from .dumps import UNKNOWN, Dumps, field_of, name_of
from .states import ACTIVE_VALIDATED, DUMP_DROPPED, DUMP_WRITTEN, IMAGE_ACTIVE, LOAD_VALIDATED, VALIDATION_FINISHED

DEBUG, ANY, OTHER = "DEBUG", "*", "other"
ACCEPTED, REFUSED = layouts.numbers_of("event", "command accepted", "command refused")
BAD_NAME, DRAWER_FULL, NO_BLOCK, IN_REGISTRY = layouts.statuses("BAD_NAME", "DRAWER_FULL", "CDS_NOT_FOUND", "TABLE_ACTIVE")
FILE_FIELD = layouts.code("name field", "the file's name")
VERSION = "cfetbl"
IMAGES = {0: "Inactive", 1: "Active"}
# A line of cfe_tbl_eventids.h.
DEFINED = re.compile(r"\s*#\s*define\s+(CFE_TBL_\w+_EID)\s+\(?\s*(0[xX][0-9A-Fa-f]+|\d+)")


class WrongHeader(Exception):
    """A header that has no number of an event."""


@dataclass(frozen=True)
class Row:
    """One of cFE's events as the table of names has it: when it is sent, of which commands, and its text."""
    number: int
    name: str
    kind: str
    cases: tuple
    commands: tuple
    text: str

    def comes(self) -> str:
        """When it is sent, in words."""
        of = "" if self.commands == (ANY,) else f" ({', '.join(self.commands)})"
        return " or ".join(self.cases) + of


@functools.cache
def rows() -> tuple[Row, ...]:
    """The rows of the table of names. Those of certain commands stand before those of any."""
    found = [Row(int(number), name, kind, tuple(_cases(cases)), tuple(commands.split()), text)
             for number, name, kind, cases, commands, text in names.rows_of("eid")]
    return tuple(sorted(found, key=lambda it: ANY in it.commands))


def _cases(said) -> list[str]:
    """Statuses stand side by side; anything else is one case."""
    return said.split() if said[0].isdigit() else [said]


def numbers_in(header) -> dict[str, int]:
    """The numbers of events by their names that a cfe_tbl_eventids.h defines."""
    found = {match[1]: int(match[2], 0) for match in map(DEFINED.match, header.splitlines()) if match}
    if not found:
        raise WrongHeader("it defines no CFE_TBL_.._EID")
    return found


def numbers_of(path) -> dict[str, int]:
    """The numbers of events of a header; none without a path."""
    if not path:
        return {}
    with open(path, encoding="utf-8", errors="replace") as header:
        try:
            return numbers_in(header.read())
        except WrongHeader as wrong:
            raise WrongHeader(f"{path}: {wrong}") from None


class Event(typing.NamedTuple):
    """An event as cFE sends it."""
    number: int
    kind: str
    text: bytes


class FileStore:
    """The files that the service has, by their names: the first bytes of each, in which its headers stand."""

    def __init__(self) -> None:
        self._fronts = {}

    def __contains__(self, name) -> bool:
        return name in self._fronts

    def put(self, name, content) -> None:
        self._fronts[name] = content[:files.TABLE_HEADER]

    def clear(self) -> None:
        self._fronts = {}

    def header(self, name, owner, field) -> int:
        """A field of a header of a file; 0 where there is none."""
        return packets.number(names.field(owner, field).of(self._fronts.get(name, b"")))

    def table(self, name) -> bytes:
        """The table that a file is for."""
        return names.name_in(names.field("table file header", "table").of(self._fronts.get(name, b""))) or UNKNOWN


class Facts:
    """What the texts may tell of an event of an answer."""

    version = VERSION

    def __init__(self, answer, told, dumps, store, image) -> None:
        self._answer, self._told, self._dumps, self._store, self._image = answer, told, dumps, store, image

    def __getitem__(self, name) -> Any:
        return getattr(self, name)

    @property
    def image(self) -> str:
        return IMAGES[self._image]

    @property
    def status(self) -> int:
        return self._told.status

    @property
    def verdict(self) -> int:
        return self._told.detail

    @property
    def _packet(self) -> bytes:
        return self._answer.record.body if self._answer.record else b""

    @functools.cached_property
    def _file(self) -> bytes:
        return self._dumps.file_of(self._answer, self._told.row)

    @property
    def file(self) -> str:
        return _text(self._file)

    @property
    def table(self) -> str:
        """The table that it is about: by its row, by the command, or by the file."""
        row, named = self._answer.view.rows.get(self._told.row), field_of(self._answer, "table")
        if row is not None:
            return _text(_plain(row))
        return _text(names.name_in(named) if named is not None else self._store.table(self._file))

    @property
    def owner(self) -> str:
        """The name of the application that registered the table."""
        view, row = self._answer.view, self._told.row
        owner = next((it.actor for it in view.handles.values() if it.row == row and it.is_registration), None)
        return _text(view.applications.get(owner, UNKNOWN))

    @property
    def size(self) -> int:
        return next((it.size for it in self._answer.view.handles.values() if it.row == self._told.row), 0)

    @property
    def source(self) -> str:
        """Where a load by its owner comes from. There is no address."""
        return self.file if self._answer.request == "LoadFile" else "Addr 0x00000000"

    @property
    def id(self) -> int:
        return packets.number(self._packet[:2])

    @property
    def code(self) -> int:
        return self._packet[packets.PRIMARY] & 0x7F if len(self._packet) > packets.PRIMARY else 0

    @property
    def length(self) -> int:
        return len(self._packet)

    @property
    def expected(self) -> int:
        """How many bytes a command of this code has."""
        known = names.named("command").get(self.code) if self.id == packets.COMMAND_ID else None
        return packets.COMMAND_HEADER + (names.size_of(known.name) if known and names.fields(known.name) else 0)

    @property
    def select(self) -> int:
        return packets.number(field_of(self._answer, "select") or b"")

    @property
    def bytes(self) -> int:
        """The image bytes that a file states which is loaded, or those of a file that was written."""
        return self._header("table file header", "image bytes") if self._answer.request == "LOAD" else self._told.detail

    @property
    def entries(self) -> int:
        return max(0, self._told.detail - files.FILE_HEADER) // files.REGISTRY_RECORD

    @property
    def offset(self) -> int:
        return self._header("table file header", "offset")

    @property
    def content(self) -> int:
        return self._header("file header", "content")

    @property
    def subtype(self) -> int:
        return self._header("file header", "subtype")

    @property
    def spacecraft(self) -> int:
        return self._header("file header", "spacecraft")

    @property
    def processor(self) -> int:
        return self._header("file header", "processor")

    def _header(self, owner, field) -> int:
        return self._store.header(self._file, owner, field)


class Events:
    """Follows the answers of a service, and tells which of cFE's events each of their events is. `numbers` has numbers by cFE's names
    that stand in the place of those of the table of names."""

    def __init__(self, numbers=None) -> None:
        self._numbers = numbers or {}
        self.files = FileStore()
        self._dumps, self._pending, self._finished = Dumps(), {}, []
        # How many VALIDATE commands were of tables without a validation function since the counters were reset.
        self.assumed = 0

    def of(self, answer) -> list[Event | None]:
        """cFE's event of each event of an answer, in their order, and None for those that cFE doesn't send."""
        self._finished = self._images_finished(answer)
        return [self._event(answer, packet) for packet in answer.packets if packet.kind == "event"]

    def _event(self, answer, packet) -> Event | None:
        told = packet.told
        case = self._case(answer, told)
        row = _row(case, answer.request) or (_row(OTHER, answer.request) if case.isdigit() else None)
        if row is None:
            return None
        image = self._finished.pop(0) if self._finished and told.number == VALIDATION_FINISHED else 0
        facts = Facts(answer, told, self._dumps, self.files, image)
        kind = DEBUG if case == "loaded" and told.detail == 1 else row.kind
        return Event(self._numbers.get(row.name, row.number), kind, row.text.format_map(facts).encode("latin-1"))

    def _case(self, answer, told) -> str:
        """What an event tells, as the table of names has it."""
        number, status, command = told.number, told.status, answer.request
        if number == ACCEPTED:
            return "" if command == "VALIDATE" and not self._has_function(answer) else "accepted"
        if number == REFUSED:
            return str(self._refused(answer, status, told.detail))
        if number == VALIDATION_FINISHED:
            if command in ("LoadImage", "LoadFile"):
                return "load rejected" if status else ""
            return "assumed valid" if command == "VALIDATE" else "rejected" if status else "validated"
        if number == IMAGE_ACTIVE:
            return "loaded" if command in ("LoadImage", "LoadFile") else "updated"
        if number == DUMP_WRITTEN:
            return "written over" if self._dumps.file_of(answer, told.row) in self.files else "written"
        return str(status) if number == DUMP_DROPPED else ""

    @staticmethod
    def _refused(answer, status, detail) -> int:
        """The status of a refused command as cFE would have refused it: it looks for a registered table first where a block is to be
        deleted, and a file without a name is one that can't be written."""
        if status == BAD_NAME and detail == FILE_FIELD and answer.request != "LOAD":
            return DRAWER_FULL
        if status == NO_BLOCK and answer.request == "DELETE_CDS" and names.quoted(name_of(answer, "table")) in answer.view.rows.values():
            return IN_REGISTRY
        return status

    @staticmethod
    def _has_function(answer) -> bool:
        """Whether the table of a VALIDATE has a validation function: else the validation is finished at once."""
        return not any(it.told is not None and it.told.number == VALIDATION_FINISHED for it in answer.packets)

    def _images_finished(self, answer) -> list[int]:
        """Which images a request finished the validation of, in the order of their events."""
        if answer.request == "Manage" and answer.entry.reply:
            return [image for bit, image in ((ACTIVE_VALIDATED, 1), (LOAD_VALIDATED, 0)) if answer.entry.reply[0] & bit]
        handle = answer.handle() if answer.request == "Validate" else None
        return sorted(self._pending.get(handle.table, ()), reverse=True)[:1] if handle else []

    def follow(self, answer) -> None:
        """Goes on to what stands after an answer, whose events were asked for."""
        command = answer.request
        if command == "Reset" or answer.status == tables.STOPPED:
            self._pending, self.assumed = {}, 0
            if command == "Reset" and answer.record.body[0] == tables.POWER_ON:
                self.files.clear()
        elif command == "Register" and answer.status in tables.REGISTERED:
            self._pending.pop(answer.view.full_name(answer.actor, field_of(answer, "short name")), None)
        elif command == "RESET_COUNTERS" and answer.status == tables.SUCCESS:
            self.assumed = 0
        elif command == "File" and answer.status == tables.SUCCESS:
            self.files.put(name_of(answer, "name"), field_of(answer, "contents"))
        elif command in ("Validate", "Manage", "ABORT_LOAD"):
            self._finish(answer)
        elif command == "VALIDATE" and answer.status == tables.SUCCESS:
            self._ask(answer)
        for name, content in self._dumps.written(answer):
            self.files.put(name, content)
        self._dumps.follow(answer)

    def _ask(self, answer) -> None:
        """A validation is pending, or was finished at once."""
        table = names.quoted(name_of(answer, "table"))
        if self._has_function(answer):
            self._pending[table] = {*self._pending.get(table, ()), packets.number(field_of(answer, "select"))}
        else:
            self.assumed += 1

    def _finish(self, answer) -> None:
        """Takes the images away whose validation is no longer pending."""
        handle = answer.handle()
        table = handle.table if handle else names.quoted(name_of(answer, "table"))
        done = {0} if answer.request == "ABORT_LOAD" and answer.status == tables.SUCCESS else set(self._images_finished(answer))
        if not self._pending.get(table, set()) - done:
            self._pending.pop(table, None)
        else:
            self._pending[table] -= done


@functools.cache
def _row(case, command) -> Row | None:
    """The row of a case, and of a command if it has one of its own."""
    return next((it for it in rows() if case in it.cases and (ANY in it.commands or command in it.commands)), None)


def _plain(words) -> str | bytes:
    """A name that is known in words, as its bytes."""
    content = words.encode("latin-1")
    return re.sub(rb"\\(.)", rb"\1", content[1:-1]) if content.startswith(b'"') else content


def _text(name) -> str:
    return name.decode("latin-1")
