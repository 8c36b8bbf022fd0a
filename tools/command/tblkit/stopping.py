"""A service that is ended by a signal, whatever it is at."""
import contextlib
import signal
import socket

# How many seconds what is under way may take once a signal came.
GRACE = 3


class Stopped(BaseException):
    """What was under way took longer than it may, after this signal."""

    def __init__(self, number) -> None:
        super().__init__(number)
        self.number = number


class Stop:
    """Takes the signals that end a service. `is_asked` says that one came; `awoken` can be read from then. What is under way is
    done first, but where it takes longer than GRACE seconds a Stopped breaks it off."""

    def __init__(self, closing) -> None:
        self.awoken, self._waker = (closing.enter_context(it) for it in socket.socketpair())
        self._waker.setblocking(False)
        self._number = None
        ending = [signal.SIGINT, signal.SIGTERM]
        if signal.getsignal(signal.SIGHUP) is not signal.SIG_IGN:
            ending.append(signal.SIGHUP)
        for each in ending:
            signal.signal(each, self._ask)
        signal.signal(signal.SIGALRM, self._break_off)

    @property
    def is_asked(self) -> bool:
        return self._number is not None

    def relent(self) -> None:
        """Breaks nothing off any more."""
        signal.setitimer(signal.ITIMER_REAL, 0)

    def _ask(self, number, _) -> None:
        if not self.is_asked:
            self._number = number
            signal.setitimer(signal.ITIMER_REAL, GRACE)
        with contextlib.suppress(OSError):
            self._waker.send(b"\0")

    def _break_off(self, *_) -> None:
        raise Stopped(self._number)
