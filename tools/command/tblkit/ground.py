"""The addresses of a ground system: where commands are taken, and where telemetry goes. What fails is told with its address."""
import collections
import errno
import select
import socket
import struct
import time
from typing import Any

# What says that the system has no room for the moment.
BUSY = (errno.EAGAIN, errno.ENOBUFS, errno.ENOMEM)
MOST_DATAGRAM = 65_535
# How many bytes of datagrams the system is asked to keep; how many datagrams, and bytes of them, wait here at most; and how many are
# taken at once, so that those that never end keep nothing else from its turn.
ROOM, MOST_WAITING, MOST_BYTES, AT_ONCE = 8 << 20, 1 << 16, 64 << 20, 4096
# Options of Linux that Python has no names for: room beyond the usual limit, and what the system says of a socket's memory, in which
# the last number is how many datagrams it dropped.
SO_RCVBUFFORCE, SO_MEMINFO, MEMINFO = 33, 55, struct.Struct("9I")
# How many seconds go by at least before it is told again that datagrams were dropped.
TOLD_AGAIN = 1


class NoAddress(Exception):
    """An address that can't be taken: which and why."""


def resolved(host, port) -> Any:
    """An address by its numbers, which are looked up once."""
    try:
        found = socket.getaddrinfo(host, port, socket.AF_INET, socket.SOCK_DGRAM)
    except (OSError, UnicodeError) as error:
        raise NoAddress(f"the address {host}:{port} isn't known: {getattr(error, 'strerror', None) or error}") from None
    return found[0][4]


def command_socket(closing, host, port) -> socket.socket:
    """A socket that takes commands at an address. Nothing waits for it."""
    address = resolved(host, port)
    made = closing.enter_context(socket.socket(socket.AF_INET, socket.SOCK_DGRAM))
    made.setblocking(False)
    try:
        made.bind(address)
    except OSError as error:
        raise NoAddress(f"commands can't be taken at {host}:{port}: {error.strerror}") from None
    return made


class Inbox:
    """The datagrams that come to an address for commands. They are taken off the system's hands whenever there is a chance, and wait
    here for their turn. How many were dropped is told."""

    def __init__(self, closing, host, port, say) -> None:
        self._socket, self._say = command_socket(closing, host, port), say
        self._waiting, self._buffer = collections.deque(), bytearray(MOST_DATAGRAM)
        self._bytes = self._left_out = self._told = 0
        self._told_at, self._came_together = float(-TOLD_AGAIN), False
        # The file that is waited for beside the socket, and what waits for both.
        self._file, self._both = -1, select.poll()
        _widen(self._socket)

    @property
    def address(self) -> Any:
        """Where commands are taken."""
        return self._socket.getsockname()[:2]

    def fileno(self) -> int:
        return self._socket.fileno()

    def __len__(self) -> int:
        """How many datagrams wait."""
        return len(self._waiting)

    def next(self) -> bytes:
        """The datagram that has waited for the longest."""
        found = self._waiting.popleft()
        self._bytes -= len(found)
        return found

    def take(self) -> None:
        """Takes what has come: one datagram if none waits here, since mostly there is no other one, and else as many as there are. What
        comes with the first is taken while that is played."""
        self.drain(None if self._waiting else 1)

    def drain(self, most=None) -> None:
        """Takes what has come: so many datagrams at most, or as many as may be taken at once."""
        view = memoryview(self._buffer)
        try:
            for taken in range(most or AT_ONCE):
                length = self._socket.recv_into(self._buffer)
                self._came_together |= bool(taken or self._waiting)
                if len(self._waiting) < MOST_WAITING and self._bytes + length <= MOST_BYTES:
                    self._waiting.append(bytes(view[:length]))
                    self._bytes += length
                else:
                    self._left_out += 1
        except BlockingIOError:
            pass
        except OSError as error:
            self._say(f"commands at {':'.join(map(str, self.address))}: {error.strerror}")

    def drain_until(self, file) -> None:
        """Takes what comes until something can be read from a file."""
        if file != self._file:
            self._file, self._both = file, select.poll()
            self._both.register(file, select.POLLIN)
            self._both.register(self._socket, select.POLLIN)
        while (ready := dict(self._both.poll())) and file not in ready:
            self.drain()

    def tell_dropped(self) -> None:
        """Tells how many datagrams were dropped, where there are more than were told. The system drops one where others wait already, so
        it isn't asked while they come one by one."""
        if not self._came_together:
            return
        dropped = self._left_out + _dropped(self._socket)
        if dropped == self._told:
            self._came_together = False
        elif time.monotonic() - self._told_at >= TOLD_AGAIN:
            self._say(f"commands were dropped, since they came faster than they could be kept: {dropped - self._told}, {dropped} in all")
            self._told, self._told_at = dropped, time.monotonic()


def _widen(command_socket_) -> None:
    """Asks the system for room for a burst of datagrams. Who may not go beyond the usual limit gets what that allows."""
    try:
        command_socket_.setsockopt(socket.SOL_SOCKET, SO_RCVBUFFORCE, ROOM)
    except OSError:
        command_socket_.setsockopt(socket.SOL_SOCKET, socket.SO_RCVBUF, ROOM)


def _dropped(command_socket_) -> int:
    """How many datagrams the system dropped because there was no room; 0 where it doesn't say."""
    try:
        return MEMINFO.unpack(command_socket_.getsockopt(socket.SOL_SOCKET, SO_MEMINFO, MEMINFO.size))[-1]
    except (OSError, struct.error):
        return 0


class Telemetry:
    """Sends packets to an address. One that fails is told once, and once more when packets are taken again."""

    def __init__(self, closing, host, port, say) -> None:
        self._address, self._called, self._say = resolved(host, port), f"{host}:{port}", say
        self._socket = closing.enter_context(socket.socket(socket.AF_INET, socket.SOCK_DGRAM))
        self._socket.setblocking(False)
        self._is_connected = False
        self._trouble: int | None = None
        self._try(self._connect)

    def _connect(self) -> None:
        """A socket that is connected also hears from the network that a packet of before didn't arrive."""
        if not self._is_connected:
            self._socket.connect(self._address)
            self._is_connected = True

    def _try(self, work) -> bool:
        """Does a work, and tells where it fails otherwise than it did before. Answers whether it was done."""
        try:
            work()
        except OSError as error:
            if error.errno != self._trouble:
                self._say(f"telemetry to {self._called} fails: {error.strerror}")
            self._trouble = error.errno
            return False
        return True

    def _send(self, packet) -> None:
        self._connect()
        self._socket.send(packet)

    def send(self, packet) -> None:
        """Sends a packet. Where the system tells of an earlier one instead, this one still goes."""
        if self._try(lambda: self._send(packet)):
            if self._trouble is not None:
                self._say(f"telemetry to {self._called} goes out again")
            self._trouble = None
        elif self._trouble not in BUSY:
            self._try(lambda: self._send(packet))
