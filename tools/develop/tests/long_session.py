"""A session of some 30,000 requests (3,000 in the quick test), which checks of long sessions play: ordinary passes with refusals, resets and times among them."""
import contextlib
import functools
import os
import tempfile

from tblkit import programs, works

from .amounts import amount

REQUESTS = amount(30_000, 3_000)
# What comes after each pass: three refusals, and a time.
BETWEEN = ("ground ACTIVATE GNC.GAINS", "app 1 load 300 hex 00", "app 2 get 0", "time 1 2")


@functools.cache
def records_of(count=REQUESTS):
    """The records of at most so many requests."""
    opening, lines = works.ordinary_pass()
    lines = (*lines, *BETWEEN)
    rounds = (count - len(opening)) // len(lines)
    return works.Work("a long session", opening, lines, rounds).session(rounds)


@contextlib.contextmanager
def played(count=REQUESTS):
    """The paths of the session and of its transcript, for as long as they are wanted."""
    with tempfile.TemporaryDirectory() as folder:
        session, output = (os.path.join(folder, it) for it in ("long.session", "long.transcript"))
        with open(session, "w+b") as source, open(output, "w+b") as transcript:
            source.write(records_of(count))
            source.flush()
            programs.play(source, transcript, folder=folder)
        yield session, output
