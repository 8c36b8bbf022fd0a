"""The program that the tools call, how they play a session with it, and what they say of its end."""
import functools
import os
import signal
import subprocess
import sys
from typing import Any

from . import locks, names
from .streams import BY_SIGNAL

HERE = os.path.dirname(os.path.dirname(os.path.realpath(__file__)))
TOP = os.path.dirname(os.path.dirname(HERE))
# What tools have in C stands in the clone, or where it is installed beside them.
IN_C = os.path.join(TOP, "c") if os.path.isdir(os.path.join(TOP, "c", "stand-ins")) else HERE
# The front command stands in the clone, or where it is installed in bin/ beside share/.
FRONTS = (os.path.join(TOP, "cfetbl"), os.path.join(TOP, "bin", "cfetbl"))
NO_PROGRAM = 125
STORE, STORE_FAILED = "cds.store", 7
# A program that is started has what the tool has: a file that may not grow is a write that fails, and ends no program by a signal.
AS_HERE: Any = {"restore_signals": False}


class NoProgram(Exception):
    """There is no program, and none could be built."""


def found(given=None, word="play") -> str | None:
    """The program that was given, or the one that cfetbl takes for a word, which it builds where there is none. None where none is
    there."""
    program = os.path.abspath(given) if given else _taken(word)
    return program if program and os.access(program, os.X_OK) else None


@functools.cache
def _taken(word) -> str | None:
    found = front()
    if found is None:
        return None
    done = subprocess.run([found, "--program", word], stdin=subprocess.DEVNULL, stdout=subprocess.PIPE, text=True, check=False)
    return None if done.returncode else done.stdout.rstrip("\n")


def front() -> str | None:
    """The front command, or None where it isn't there."""
    return next((it for it in FRONTS if os.path.isfile(it)), None)


def needed(word) -> str:
    """The program that cfetbl takes for a word. Where there is none this ends, since the front command has said why."""
    program = found(word=word)
    if program is None:
        sys.exit(NO_PROGRAM)
    return program


def play(session, transcript, opening=(), folder=".") -> int:
    """Plays the records of a file into another one, in a folder, and answers the program's status. `opening` has what the program is
    given before its word."""
    program = found()
    if program is None:
        raise NoProgram("there is no program, and none could be built")
    # What was read ahead of either file is dropped, since the program moves their places.
    session.seek(0, os.SEEK_END)
    os.lseek(session.fileno(), 0, os.SEEK_SET)
    words = [program, *opening, "play"]
    status = status_of(subprocess.run(words, stdin=session, stdout=transcript, cwd=folder, check=False, **AS_HERE).returncode)
    for file in (session, transcript):
        file.seek(0, os.SEEK_END)
        file.seek(0)
    return status


def status_of(returned) -> int:
    """The status of a program that has ended, as the shell tells it: one that a signal ended has 128 and its number."""
    return BY_SIGNAL - returned if returned < 0 else returned


def store_of(opening=(), folder=".") -> str:
    """The store file of a program in a folder, by what it is given before its word."""
    return opening[opening.index("--store") + 1] if "--store" in opening else os.path.normpath(os.path.join(folder, STORE))


def end_words(status, store=STORE) -> str:
    """What is said of a program that ended with a status of its own or by a signal, over a store file."""
    if status > BY_SIGNAL and status - BY_SIGNAL in signal.valid_signals():
        return f"the program was ended by a signal, {_signal_name(status - BY_SIGNAL)}"
    means, *_ = names.explained().get(("run", status), ("which is no status of its own",))
    said = f"the program ended with {status}: {means}"
    in_use = locks.in_use(store) if status == STORE_FAILED else ""
    return f"{said}; {in_use}" if in_use else said


def _signal_name(number) -> str:
    return signal.Signals(number).name if number in set(signal.Signals) else str(number)
