"""The time that a service goes by: that of this system, or one that runs on its own as cFE's does."""
import time

# cFE's default epoch, 1980-01-01, in seconds of this system's clock.
EPOCH = 315_532_800
# The seconds at which cFE's time begins after a power-on, by the defaults of its configuration: 1980-012-14:03:20.
FIRST_SECONDS = 1_001_000
SUBSECONDS = 1 << 16
# How many subseconds go by at least before a running clock is set again: ten milliseconds.
STEP = SUBSECONDS // 100


class SystemClock:
    """The whole seconds of this system's time since cFE's epoch."""

    def __init__(self) -> None:
        self._last: int | None = None

    def due(self) -> tuple[int, int] | None:
        """The seconds and subseconds to set, where another time has come, or None."""
        now = int(time.time()) - EPOCH
        if now == self._last:
            return None
        self._last = now
        return now % (1 << 32), 0

    def follow(self, answer) -> None:
        """A time that is set otherwise lasts until the next one is due."""


class RunningClock:
    """A time that runs on from cFE's first one, or from what a `time` line sets."""

    def __init__(self) -> None:
        self._begin, self._from = FIRST_SECONDS * SUBSECONDS, time.monotonic()
        self._last: int | None = None

    def _now(self) -> int:
        return self._begin + int((time.monotonic() - self._from) * SUBSECONDS)

    def due(self) -> tuple[int, int] | None:
        """The seconds and subseconds to set, where enough time has gone by, or None."""
        now = self._now()
        if self._last is not None and now - self._last < STEP:
            return None
        self._last = now
        return (now // SUBSECONDS) % (1 << 32), now % SUBSECONDS

    def follow(self, answer) -> None:
        """Goes on from a time that is set."""
        if answer.request == "Time" and answer.status == 0:
            seconds, subseconds = (int.from_bytes(raw, "big") for _, raw in answer.fields())
            self._begin, self._from = seconds * SUBSECONDS + subseconds, time.monotonic()
            self._last = self._begin
