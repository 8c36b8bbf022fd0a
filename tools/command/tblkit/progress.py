"""How far a piece of work is, told on standard error while nothing else is written."""
from __future__ import annotations

import contextlib
import shutil
import sys
import threading
import time

from .streams import clear_line

# Nothing is silent for longer.
SECONDS = 4.5


def span(seconds) -> str:
    """A number of seconds for people."""
    minutes, rest = divmod(round(seconds), 60)
    return f"{minutes} min {rest} s" if minutes else f"{rest} s"


class Ticker:
    """Within a `with` block, writes what `tell` gives for the seconds so far, whenever nothing was written for a while. On a
    terminal each line takes the place of the one before. With `is_beside` other output counts only if a terminal has it, so that
    lines come also while it goes elsewhere."""

    def __init__(self, tell, is_beside=False) -> None:
        self.tell = tell
        self.is_terminal = sys.stderr is not None and sys.stderr.isatty()
        self.is_quieted = not is_beside or sys.stdout.isatty()
        self.is_shown = False
        self.begun = self.last = time.monotonic()
        self.lock = threading.Lock()
        self.done = threading.Event()
        self.thread = threading.Thread(target=self._tick, daemon=True)

    def __enter__(self) -> Ticker:
        self.thread.start()
        return self

    def __exit__(self, *_) -> None:
        self.done.set()
        self.thread.join()
        with self.lock:
            self._clear()

    def write(self, output) -> None:
        """Writes other output of the work, as bytes."""
        with self.lock:
            self._clear()
            sys.stdout.buffer.write(output)
            sys.stdout.buffer.flush()
            if self.is_quieted:
                self.last = time.monotonic()

    def _clear(self) -> None:
        if self.is_shown:
            clear_line()
            self.is_shown = False

    def _tick(self) -> None:
        while not self.done.wait(0.5):
            now = time.monotonic()
            with self.lock:
                if now - self.last < (1 if self.is_terminal else SECONDS):
                    continue
                self.last = now
                with contextlib.suppress(OSError):
                    self._tell(self.tell(now - self.begun))

    def _tell(self, line) -> None:
        self._clear()
        if self.is_terminal:
            print(line[:shutil.get_terminal_size().columns - 1], end="", file=sys.stderr, flush=True)
            self.is_shown = True
        else:
            print(line, file=sys.stderr, flush=True)
