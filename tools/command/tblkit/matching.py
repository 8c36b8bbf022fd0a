"""Whether a transcript is that of a session: what each answer has to have beside its request, and what the program answers to the
same requests in the same order of turns.

The program decides all of it but for what it isn't told: what stood in preserved memory before, and which spacecraft and
processors were admitted. After an answer that these explain, and without a program, what follows is held against docs/reference/packets.md
alone: which application runs and has which handle and table, the packets with their counts and times, and what may be replied.
"""
import contextlib
import functools
import tempfile
from collections.abc import Iterator
from typing import Any

from . import layouts, names, packets, programs, records, show, states, transcript
from .answers import BUFFERS, NO_BUFFER, Answer, handle_field
from .tables import POWER_ON, REGISTERED, STOPPED, SUCCESS

BAD_APP, INVALID_HANDLE, NO_ACCESS, UNREGISTERED, INVALID_NAME, APP_RUNNING = layouts.statuses(
    "BAD_APP", "INVALID_HANDLE", "NO_ACCESS", "UNREGISTERED", "INVALID_NAME", "APP_RUNNING")
BAD_PACKET, BAD_MESSAGE, BAD_CODE, BAD_LENGTH, BAD_NAME, BOOT_FAULT = layouts.statuses(
    "BAD_PACKET", "BAD_MESSAGE_ID", "BAD_CODE", "BAD_LENGTH", "BAD_NAME", "BOOT_FAULT")
NO_SUCH_TABLE, NOT_CRITICAL, STORE_FAULT = layouts.statuses("NO_SUCH_TABLE", "NOT_CRITICAL", "CDS_FAULT")
NOT_ADMITTED = layouts.statuses("BAD_SPACECRAFT_ID", "BAD_PROCESSOR_ID")
ACCEPTED, REFUSED, COPY_FAILED = layouts.numbers_of("event", "command accepted", "command refused", "copy to the store failed")
OWNERS = ("LoadImage", "LoadFile", "Update", "Validate", "Manage", "DumpToBuffer", "Edit", "Notify")
OF_A_TABLE = ("DUMP", "VALIDATE", "ACTIVATE", "SEND_REGISTRY", "ABORT_LOAD")
OF_THE_STORE = ("CdsRegister", "CdsCopy", "CdsRestore", "CdsDelete", "DELETE_CDS")
DONE, BAD_RECORD, FULL = layouts.numbers_of("run", "the work is done", "a record is bad, or the input ends inside one",
                                            f"there are more than {records.MOST_RECORDS:,} records")
BROKEN_OFF = layouts.numbers_of("run", "out of memory", "a read failed", "a write failed", "the store failed while it booted",
                                "the store was stopped while it booted")


class Another(Exception):
    """The transcript is of another session."""


class Match(states.States):
    """Follows the answers of a transcript beside the records of a session, and looks at each before it goes on to it."""

    def __init__(self) -> None:
        super().__init__()
        self._counts, self._time, self._length = {}, bytes(6), 0

    def follow(self, answer) -> None:
        """Goes on to the next answer. One that its request can't have in this state is Another."""
        fits = answer.record is not None and answer.entry.number("place") == self._length
        if not fits or answer.status != STOPPED and not self._fits(answer):
            raise Another
        try:
            super().follow(answer)
        except states.Impossible:
            raise Another from None
        self._length += 1
        self._go_on(answer)

    def _go_on(self, answer) -> None:
        if answer.request == "Time":
            self._time = answer.record.body
        elif answer.request == "Reset" or answer.status == STOPPED:
            self._counts = {}

    def _fits(self, answer) -> bool:
        expected = self._expected(answer)
        if expected is not None and answer.status not in expected:
            return False
        if answer.kind == "Command" and not self._is_reply(answer):
            return False
        return _has_reply(answer) and all(map(self._follows, answer.packets))

    def _expected(self, answer) -> Any:
        """The statuses of which one has to come, or None where more than is followed here decides."""
        name = answer.kind
        if name == "Command":
            return self._of_command(answer)
        if name in ("Time", "Reset"):
            return (SUCCESS,) if name == "Time" else (SUCCESS, BOOT_FAULT)
        if name == "File":
            return None
        is_running = answer.actor in self.view.applications
        if name == "Start":
            return self._of_start(answer, is_running)
        if not is_running:
            return (BAD_APP,)
        return self._of_handle(answer) if handle_field(name) else _all_but(BAD_APP, INVALID_HANDLE, NO_ACCESS, UNREGISTERED)

    def _of_start(self, answer, is_running) -> tuple[int, ...]:
        name = names.name_in(answer.record.body)
        if is_running:
            return (APP_RUNNING,)
        return (SUCCESS,) if names.is_name(name) and b"." not in name else (INVALID_NAME,)

    def _of_handle(self, answer) -> Any:
        """The answers by the handle that a request names: given or not, whose it is, and whether its table is there."""
        view, name, handle = self.view, answer.kind, answer.handle()
        if handle is None:
            return (INVALID_HANDLE,)
        if handle.actor != answer.actor:
            return (NO_ACCESS,)
        if handle.table is None and name != "Unregister":
            return (UNREGISTERED,)
        if name in OWNERS and [it.actor for it in view.handles.values() if it.row == handle.row and it.is_registration] != [answer.actor]:
            return (NO_ACCESS,)
        return _all_but(BAD_APP, INVALID_HANDLE, NO_ACCESS, UNREGISTERED)

    def _of_command(self, answer) -> Any:
        body = answer.record.body
        status, _ = _kept_fault(body) if len(body) <= packets.FEW else command_fault(body)
        if status:
            return (status,)
        if answer.request in ("NOOP", "RESET_COUNTERS", packets.HOUSEKEEPING):
            return (SUCCESS,)
        if answer.request in OF_A_TABLE:
            is_there = self._table(answer) in self.tables
            return _all_but(NO_SUCH_TABLE) if is_there else (NO_SUCH_TABLE,)
        return None

    def _table(self, answer) -> str | None:
        return next((names.quoted(names.name_in(raw)) for field, raw in answer.fields() if field.name == "table"), None)

    def _is_reply(self, answer) -> bool:
        """Whether the first packet tells that the command was accepted, or why it was refused, with its table's row."""
        kinds = [it.kind for it in answer.packets]
        if answer.request == packets.HOUSEKEEPING and answer.status == SUCCESS:
            return kinds[-1:] == ["housekeeping"]
        if kinds[:1] != ["event"] or answer.request == "SEND_REGISTRY" and answer.status == SUCCESS and kinds != ["event", "registry"]:
            return False
        number, status, row, detail = answer.packets[0].told
        if answer.status != SUCCESS:
            return (number, status, detail) == (REFUSED, answer.status, answer.entry.number("detail"))
        is_accepted = (number, status) == (ACCEPTED, SUCCESS) and detail == answer.record.body[6] & 0x7F
        table = self._table(answer) if answer.request in OF_A_TABLE else None
        return is_accepted and (table is None or self.view.rows.get(row) == table)

    def _follows(self, packet) -> bool:
        """Whether a packet has the time, and the count of its kind. A notice has neither."""
        if packet.kind == "notice":
            return True
        if packet.kind not in ("event", "housekeeping", "registry"):
            return False
        count = self._counts.get(packet.kind, 0)
        self._counts[packet.kind] = count + 1
        return packet.count == count % (packets.MOST_COUNT + 1) and packet.content[6:12] == self._time


@functools.cache
def _all_but(*statuses) -> frozenset[int]:
    return frozenset(names.named("status")) - set(statuses)


def command_fault(packet) -> tuple[int, int]:
    """The status and the detail with which a command of a wrong form is refused; two zeros where its form is right."""
    if not packets.is_whole(packet):
        is_short = len(packet) < packets.COMMAND_HEADER
        return BAD_PACKET, 1 if is_short else 2 if packets.number(packet[4:6]) + packets.LENGTH_LESS != len(packet) else 3
    message, code = packets.number(packet[:2]), packet[6] & 0x7F
    if message not in (packets.COMMAND_ID, packets.HOUSEKEEPING_ID):
        return BAD_MESSAGE, message
    if message == packets.COMMAND_ID and code not in names.named("command"):
        return BAD_CODE, code
    name = packets.command_name(packet)
    if name is None:
        return BAD_LENGTH, len(packet) - packets.COMMAND_HEADER
    for detail, field in enumerate(("table", "file"), 1):
        for it in names.fields(name):
            if it.name == field and not names.is_name(names.name_in(it.of(packet[packets.COMMAND_HEADER:]))):
                return BAD_NAME, detail
    return 0, 0


_kept_fault = functools.lru_cache(packets.KEPT)(command_fault)


def _has_reply(answer) -> bool:
    """Whether the reply has as many bytes as it may have."""
    length, name = len(answer.entry.reply), answer.request
    if answer.status == NO_BUFFER:
        return length == BUFFERS
    if name == "Manage":
        return length == (0 if answer.status in (BAD_APP, INVALID_HANDLE, NO_ACCESS, UNREGISTERED) else 1)
    if answer.status != SUCCESS:
        return not length
    if name == "Read":
        return length == packets.number(names.field("Read", "length").of(answer.record.body))
    if name == "GetInfo":
        return length == names.size_of("registry")
    return bool(length) == (name == "CdsRestore") or name in ("DUMP", "DUMP_REGISTRY", packets.HOUSEKEEPING)


def look_at_rest(answers, index) -> None:
    """Holds the parts of a transcript, each of which a Match has followed, against the session that an index has taken: its end record,
    and what the program answers. A transcript of another session is Another."""
    entries = [it for it in answers if isinstance(it, Answer)]
    end = answers[-1] if answers else None
    if isinstance(end, transcript.End):
        _look_at_end(end, index, len(entries))
    _replay(entries)


def _look_at_end(end, index, length) -> None:
    left = index.piece_at(end.place)
    fits = end.entries == length and end.place == index.bytes_taken
    if end.status == DONE:
        fits = fits and left is None
    elif end.status == BAD_RECORD:
        fits = fits and left is not None and bool(left.fault)
    elif end.status == FULL:
        fits = fits and length == records.MOST_RECORDS and left is not None
    else:
        fits = fits and end.status in BROKEN_OFF
    if not fits:
        raise Another


def _replay(entries) -> None:
    """Plays the records in their order of turns, where there is a program, and compares the answers with those of the transcript."""
    session = b"".join(it.record.content for it in entries)
    is_cleared = False
    with tempfile.TemporaryDirectory() as folder, contextlib.suppress(programs.NoProgram):
        for answer, part in zip(entries, _played(session, folder)):
            if not isinstance(part, transcript.Entry) or part != answer.entry and _is_explained(answer, is_cleared):
                return
            if part != answer.entry:
                raise Another
            is_cleared = is_cleared or answer.request == "Reset" and answer.record.body[0] == POWER_ON


def _played(session, folder) -> Iterator[transcript.Entry | transcript.Broken | transcript.End]:
    with tempfile.TemporaryFile() as source, tempfile.TemporaryFile() as output:
        source.write(session)
        programs.play(source, output, folder=folder)
        yield from transcript.parts(output)


def _is_explained(answer, is_cleared) -> bool:
    """Whether another content of preserved memory, a fault of it, or lists of what is admitted explain another answer."""
    if answer.status in NOT_ADMITTED:
        return True
    has_failed = any(it.kind == "event" and it.body[0].value == COPY_FAILED for it in answer.packets)
    if answer.status in (STORE_FAULT, BOOT_FAULT, STOPPED) or has_failed:
        return True
    is_critical = answer.request == "Register" and "critical" in names.shown("options", names.field("Register", "options").of(answer.record.body))
    return not is_cleared and (answer.request in OF_THE_STORE or is_critical)
