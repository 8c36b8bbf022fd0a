"""The service for a ground system: commands come as datagrams, telemetry is sent as such, and applications call by lines."""
import functools
import io
import math
import select
import time
from collections.abc import Iterator
from typing import Any

from . import callers, ground, links, names, packets, records, show, text
from .dumps import Dumps
from .folders import Folder
from .states import Dump, Load
from .words import TextError

# The ports that cFS's ci_lab and to_lab have by default.
COMMAND_PORT, TELEMETRY_PORT = 1234, 1235
OVER = "the session is over"
# How many commands are played before callers have their turn again.
COMMANDS_AT_ONCE = 16


class Refused(Exception):
    """What came isn't played: why."""


class Service:
    """The run that plays what comes. It tells each answer, unless `tell` is None, sends its telemetry to the ground, and says what else
    there is to say. `link` says how the ground is spoken to, `clock` what time it is, and `mounted` has the folder that the ground
    knows as `/cf`."""

    def __init__(self, running, send, tell, say, link=None, clock=None, mounted=None) -> None:
        self._running, self._send, self._tell, self._say = running, send, tell, say
        self._link, self._clock, self._mounted, self._dumps = link or links.Plain(), clock, mounted, Dumps()

    @property
    def is_over(self) -> bool:
        return self._running.end is not None

    def fileno(self) -> int:
        """What can be read from once the run has ended by itself."""
        return self._running.fileno()

    def look(self) -> None:
        """Ends the run, which has ended by itself."""
        self._running.finish()

    def wait_by(self, meanwhile) -> None:
        """What is done while an answer is waited for."""
        self._running.meanwhile = meanwhile

    def command(self, packet) -> None:
        """Plays a command as it came from the ground."""
        if len(packet) > records.MOST_BODY:
            raise Refused(f"a datagram of {len(packet)} bytes is no command")
        packet = self._link.command(packet)
        if packet is not None:
            self._play(records.spelling(_command(), 0, packet))

    def housekeeping(self) -> None:
        """Plays a request for housekeeping, as a scheduler sends it."""
        self._play(records.spelling(_command(), 0, packets.command(packets.HOUSEKEEPING, b"")))

    def manage(self) -> None:
        """Has the owners of tables manage those for which something is to be done."""
        for table in list(self._running.states.tables.values()):
            is_due = table.load in (Load.PENDING, Load.ASKED) or table.is_active_pending or table.dump is Dump.ASKED
            if is_due and not self.is_over:
                self._play(text.record_of(f"app {table.owner} manage {table.handle}"))

    def line(self, line, folder=".") -> list[str]:
        """Plays a line of session text, and gives the lines of its answer. A comment has none."""
        try:
            content = text.record_of(line, folder)
        except TextError as error:
            raise Refused(text.report("<line>", line, error)) from None
        found = list(records.pieces(io.BytesIO(content)))
        if len(found) > 1 or any(it.fault for it in found):
            raise Refused("a line has to be one whole record")
        return [line for answer in self._play(content) for line in show.lines(answer)] if content else []

    def _play(self, content) -> list[Any]:
        """Plays a record, after what has to come before it, and gives its answer; none where the run is over."""
        answers = []
        for record in (*self._before(content), content):
            answers = []
            for answer in self._running.play(record):
                answers.append(answer)
                # (a file that was dumped is there when its event comes)
                self._after(answer)
                for packet in self._link.packets(answer):
                    self._send(packet)
                if self._tell:
                    self._tell(show.lines(answer))
        return answers

    def _before(self, content) -> Iterator[bytes]:
        """The records that come before one: the time, and a file that it reads from the folder of the ground."""
        due = self._clock.due() if self._clock else None
        if due:
            yield text.record_of(f"time {due[0]} {due[1]}")
        if self._mounted:
            yield from self._uplinked(records.Piece(0, content))

    def _uplinked(self, piece) -> Iterator[bytes]:
        """The record that uplinks the file that a request loads, if it is one of the ground's folder."""
        field, body = _file_field(piece)
        name = names.name_in(field.of(body)) if field else b""
        if not self._mounted.is_of(name):
            return
        if _is_load(piece):
            try:
                yield records.spelling(_file(), 0, name.ljust(names.field("File", "name").width, b"\0") + self._mounted.read(name))
            except OSError as error:
                self._say(f"{names.quoted(name)} isn't taken from the folder: {error.strerror}")
        elif self._mounted.has(name):
            self._link.know(name)

    def _after(self, answer) -> None:
        """What an answer has done here: a time that goes on, and files that were dumped into the ground's folder."""
        if self._clock:
            self._clock.follow(answer)
        if self._mounted:
            for name, content in self._dumps.written(answer):
                if self._mounted.is_of(name):
                    self._write(name, content)
            self._dumps.follow(answer)

    def _write(self, name, content) -> None:
        try:
            self._mounted.write(name, content)
        except OSError as error:
            self._say(f"the dump {names.quoted(name)} isn't written: {error.strerror}")


@functools.cache
def _command() -> names.Request:
    return next(it for it in names.requests().values() if it.name == "Command")


@functools.cache
def _file() -> names.Request:
    return next(it for it in names.requests().values() if it.name == "File")


def _is_load(piece) -> bool:
    return piece.request.name == "LoadFile" or packets.command_name(piece.body) == "LOAD"


def _file_field(piece) -> tuple[Any, bytes]:
    """The field of a request, or of the command in it, that names a file, with the bytes in which it stands; None without one."""
    owner, body = piece.request.name, piece.body
    if owner == "Command":
        owner, body = packets.command_name(body), body[packets.COMMAND_HEADER:]
    return next((it for it in names.fields(owner) if it.name == "file"), None), body


class Every:
    """Work that is done again and again, after so many seconds each time."""

    def __init__(self, seconds, work) -> None:
        self._seconds, self._work, self._due = seconds, work, time.monotonic() + seconds

    def left(self) -> float:
        """How many seconds are left until it is due."""
        return max(0, self._due - time.monotonic())

    def turn(self) -> None:
        """Does the work where it is due. What was missed isn't done again."""
        if not self.left():
            self._due = max(self._due, time.monotonic() - self._seconds) + self._seconds
            self._work()


class Server:
    """The sockets of a service: one for commands, one that sends telemetry, and, where there is a path for it, one for callers.
    None of them keeps it from the others, or from its end."""

    def __init__(self, closing, commands, telemetry, say, path=None, files=None) -> None:
        self._say, self._files, self._works = say, Folder(files, is_closed=True), []
        self._inbox = ground.Inbox(closing, commands[0], commands[1], say)
        self._telemetry = ground.Telemetry(closing, telemetry[0], telemetry[1], say)
        self._callers = callers.Callers(closing, path, say) if path else None
        self._awaited, self._poll = list[tuple[int, int]](), select.poll()

    @property
    def address(self) -> Any:
        """Where commands are taken."""
        return self._inbox.address

    def every(self, seconds, work) -> None:
        """Has a work done again and again, after so many seconds each time."""
        self._works.append(Every(seconds, work))

    def send(self, packet) -> None:
        """Sends a packet to the ground."""
        self._telemetry.send(packet)

    def serve(self, service, stop) -> None:
        """Serves until the run is over, or the service is to stop."""
        service.wait_by(self._inbox.drain_until)
        own = [(stop.awoken.fileno(), select.POLLIN, lambda: None), (service.fileno(), select.POLLIN, service.look),
               (self._inbox.fileno(), select.POLLIN, self._inbox.take)]
        while not (service.is_over or stop.is_asked):
            self._wait(service, [*own, *self._callers.waits()] if self._callers else own)
            self._take_commands(service, stop)
            for work in self._works:
                if not (service.is_over or stop.is_asked):
                    work.turn()
            if self._callers and not service.is_over:
                self._callers.turn(lambda line: self._played(service, line))

    def _wait(self, service, waits) -> None:
        """Waits until something has come, and takes it: of each file there is what is waited for, and what takes it."""
        patience = self._patience()
        for number, _ in self._poll_of(waits).poll(None if patience is None else math.ceil(1000 * patience)):
            if not service.is_over:
                next(action for waiting, _, action in waits if waiting == number)()

    def _poll_of(self, waits) -> Any:
        """What waits for these files. It is made anew only where they are others than before."""
        awaited = [(number, mask) for number, mask, _ in waits]
        if awaited != self._awaited:
            self._awaited, self._poll = awaited, select.poll()
            for number, mask in awaited:
                self._poll.register(number, mask)
        return self._poll

    def _patience(self) -> float | None:
        """How many seconds may go by before something is due; None where it may take any time."""
        left: list[float | None] = [0] if len(self._inbox) else [it.left() for it in self._works]
        left += [self._callers.patience()] if self._callers else []
        return min((it for it in left if it is not None), default=None)

    def _take_commands(self, service, stop) -> None:
        """Plays commands that wait, as many as callers may wait for."""
        taken = 0
        while len(self._inbox) and taken < COMMANDS_AT_ONCE and not (service.is_over or stop.is_asked):
            taken += 1
            try:
                service.command(self._inbox.next())
            except Refused as refused:
                self._say(str(refused))
        self._inbox.tell_dropped()

    def _played(self, service, line) -> list[str]:
        """The lines of the answer to a caller."""
        if service.is_over:
            return [OVER]
        try:
            told = service.line(line, self._files)
        except Refused as refused:
            return str(refused).splitlines()
        return told or ([OVER] if service.is_over else [])
