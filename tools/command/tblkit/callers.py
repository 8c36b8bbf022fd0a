"""Applications, or people, that call a service by lines over a local socket. None of them keeps the service from the others."""
import contextlib
import os
import select
import socket
import stat
import time
from collections.abc import Iterator
from typing import Any, cast

from .ground import NoAddress
from .streams import visible

LONGEST_LINE = 1 << 17
PIECE = 1 << 16
# How many callers there are at most, and how many are taken at once, which leaves each of them some turns to be heard in.
MOST_CALLERS, TAKEN_AT_ONCE, BACKLOG = 64, 16, 1024
# How many seconds a caller may leave an answer where it is, and how many go by before a further one is taken where one couldn't be.
SLOW, REST = 10, 1


class Caller:
    """One that calls by lines: each answer ends with an empty one. Nothing here waits: what it has sent so far is kept until the
    line is whole, and of what it is to have what it doesn't take yet."""

    def __init__(self, connection, number) -> None:
        connection.setblocking(False)
        self.connection, self.number = connection, number
        self._came, self._owed, self._is_at_end = b"", b"", False
        self.heard = time.monotonic()

    @property
    def has_line(self) -> bool:
        """Whether a line can be played: one at a time, and none before the answer to the last one is taken."""
        return not self._owed and (b"\n" in self._came or self._is_at_end and bool(self._came))

    @property
    def is_done(self) -> bool:
        return self._is_at_end and not self._came and not self._owed

    @property
    def events(self) -> int:
        """What is to be waited for: what it is owed goes first, and then its next line."""
        if self._owed:
            return select.POLLOUT
        return 0 if self._is_at_end or b"\n" in self._came else select.POLLIN

    def next_line(self) -> str:
        line, _, self._came = self._came.partition(b"\n")
        return line.decode("utf-8", "replace")

    def hear(self) -> bool:
        """Takes what the caller sends, or gives it what it is owed. False where it is gone."""
        return self._give() if self._owed else self._take()

    @property
    def is_endless(self) -> bool:
        """Whether it sent more than a line has."""
        return b"\n" not in self._came and len(self._came) >= LONGEST_LINE

    def _take(self) -> bool:
        try:
            content = self.connection.recv(PIECE)
        except BlockingIOError:
            return True
        except OSError:
            return False
        self.heard = time.monotonic()
        self._came += content
        self._is_at_end = not content
        return not self.is_endless

    def answer(self, lines) -> bool:
        """Has an answer sent, as far as the caller takes it. False where the caller is gone."""
        self._owed += visible("".join(f"{it}\n" for it in [*lines, ""])).encode()
        self.heard = time.monotonic()
        return self._give()

    def _give(self) -> bool:
        try:
            sent = self.connection.send(self._owed, socket.MSG_NOSIGNAL)
        except BlockingIOError:
            return True
        except OSError:
            return False
        if sent:
            self._owed, self.heard = self._owed[sent:], time.monotonic()
        return True

    def seconds_left(self) -> float | None:
        """How long it may still leave an answer where it is; None where it is owed nothing."""
        return self.heard + SLOW - time.monotonic() if self._owed else None


def listener(closing, path) -> socket.socket:
    """A local socket at a path, which goes with the service. That of a service that was killed gives way."""
    made = closing.enter_context(socket.socket(socket.AF_UNIX, socket.SOCK_STREAM))
    made.setblocking(False)
    try:
        if _is_left_over(path):
            os.unlink(path)
        made.bind(path)
        closing.callback(_remove, path)
        made.listen(BACKLOG)
    except (OSError, ValueError) as error:
        raise NoAddress(f"no socket can be made at {path}: {getattr(error, 'strerror', None) or error}") from None
    return made


def _remove(path) -> None:
    with contextlib.suppress(OSError):
        os.unlink(path)


def _is_left_over(path) -> bool:
    """Whether a socket lies at a path that nobody listens to."""
    try:
        if not stat.S_ISSOCK(os.stat(path).st_mode):
            return False
        with socket.socket(socket.AF_UNIX, socket.SOCK_STREAM) as caller:
            caller.setblocking(False)
            caller.connect(path)
    except OSError as error:
        return isinstance(error, ConnectionRefusedError)
    return False


class Callers:
    """All who call: each is heard in its turn, and one that hinders the service is dropped with a word."""

    def __init__(self, closing, path, say) -> None:
        self._listener, self._say = listener(closing, path), say
        self._callers, self._count, self._rests_until, self._trouble = [], 0, 0.0, cast("int | None", None)
        closing.callback(self._close)

    def _close(self) -> None:
        for caller in self._callers:
            caller.connection.close()

    def waits(self) -> Iterator[tuple[int, int, Any]]:
        """The files that are waited for: what of each, and what is done then."""
        for caller in self._callers:
            if caller.events:
                yield caller.connection.fileno(), caller.events, lambda it=caller: self._settle(it, it.hear())
        if time.monotonic() >= self._rests_until:
            yield self._listener.fileno(), select.POLLIN, self._accept_some

    def patience(self) -> float | None:
        """How many seconds may go by before `turn` is due; None where it may take any time."""
        left = [it.seconds_left() for it in self._callers] + [self._rests_until - time.monotonic()]
        if any(it.has_line for it in self._callers):
            return 0
        return min((it for it in left if it is not None and it > 0), default=None)

    def turn(self, play) -> None:
        """Plays a line of each caller that has one, and drops those that don't take their answers."""
        for caller in list(self._callers):
            left = caller.seconds_left()
            if left is not None and left <= 0:
                self._drop(caller, f"didn't take its answer for {SLOW} s")
            elif caller.has_line:
                self._settle(caller, caller.answer(play(caller.next_line())))

    def _accept_some(self) -> None:
        """Takes callers that wait. For each for which there is no room, the one that was silent for the longest goes."""
        taken = 0
        while taken < TAKEN_AT_ONCE and (connection := self._accept()):
            taken, self._count, self._trouble = taken + 1, self._count + 1, None
            if len(self._callers) >= MOST_CALLERS:
                self._drop_longest(f"{MOST_CALLERS} callers are there")
            self._callers.append(Caller(connection, self._count))

    def _accept(self) -> socket.socket | None:
        """The next connection, or None where none waits or can be taken."""
        try:
            return self._listener.accept()[0]
        except (BlockingIOError, ConnectionError):
            return None
        except OSError as error:
            if not self._drop_longest(error.strerror):
                self._rest(error)
            return None

    def _rest(self, error) -> None:
        """Takes no caller for a while, and says so the first time."""
        if error.errno != self._trouble:
            self._say(f"no caller can be taken: {error.strerror}")
        self._trouble, self._rests_until = error.errno, time.monotonic() + REST

    def _drop_longest(self, why) -> bool:
        """Drops the caller that was silent for the longest. False where there is none."""
        if self._callers:
            self._drop(min(self._callers, key=lambda it: it.heard), f"was silent for the longest, and {why}")
            return True
        return False

    def _drop(self, caller, why="") -> None:
        if why:
            self._say(f"caller {caller.number} {why}: it is dropped")
        self._callers.remove(caller)
        caller.connection.close()

    def _settle(self, caller, is_there) -> None:
        """Lets a caller go that is done or gone, or that sends no line."""
        if caller.is_endless:
            self._drop(caller, f"sent {LONGEST_LINE} bytes without the end of a line")
        elif not is_there or caller.is_done:
            self._drop(caller)
