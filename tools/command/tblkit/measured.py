"""What a program takes for a session: instructions, time and memory. And the plain Rust programs of tools/develop/baseline and tools/develop/tuned,
built.

What is measured is always `play`, `crew` or `drill` over a new store file. No measure reads a clock or a counter of the program's
own.
"""
import contextlib
import fcntl
import functools
import os
import shutil
import statistics
import struct
import subprocess
import tempfile
import termios
import time
from collections.abc import Iterator
from typing import Any, IO, NamedTuple

from . import callgrind
from .programs import TOP

PROVED = os.path.join(TOP, "crates", "tbl_main", "out", "tbl_main")
# How often a session is timed, and how often its memory is measured.
RUNS = 20
WEIGHINGS = 9
# Of the memory of the largest run of a session, so much has one that did the same work.
WHOLE = 0.9
# Between two looks at a program that is to wait.
PAUSE = 0.001


def run(words, source=None, folder=None) -> bytes:
    """Runs a program that has to succeed, in a folder, and gives what it writes."""
    done = subprocess.run(words, stdin=source, stdout=subprocess.PIPE, stderr=subprocess.PIPE, cwd=folder, check=False)
    if done.returncode:
        why = done.stderr.decode(errors="replace").strip()
        raise OSError(f"{' '.join(words)} ended with status {done.returncode}\n{why}")
    return done.stdout


def file_of(session) -> IO[bytes]:
    """A file from which the session can be read."""
    source = tempfile.TemporaryFile()
    source.write(session)
    source.seek(0)
    return source


def without_debug_information(program, copy) -> str:
    """A copy of the program that every valgrind reads."""
    run(["strip", "--strip-debug", "-o", copy, program])
    return copy


# The plain Rust programs by the heads of their columns: the folders of their sources.
RUST = {"plain Rust": "baseline", "tuned Rust": "tuned"}


def rust_program(name, folder) -> str:
    """A plain Rust program, built in the folder."""
    built, source = os.path.join(folder, f"{name}-built"), os.path.join(TOP, "tools", "develop", name, "main.rs")
    flags = ["--edition=2021", "-Copt-level=3", "-Clto=fat", "-Ccodegen-units=1", "-Cdebuginfo=0", "-Cpanic=abort"]
    run(["rustc", *flags, "-o", built, source])
    return without_debug_information(built, os.path.join(folder, name))


def rust_programs(folder) -> list[str]:
    """All of them, in the order of their columns; none if rustc isn't there."""
    return [rust_program(name, folder) for name in RUST.values()] if shutil.which("rustc") else []


# ---- instructions


def counted(program, session) -> tuple[str, tuple[bytes, bytes]]:
    """What callgrind says of the program that plays the session, and what that writes and leaves in its store file."""
    with tempfile.TemporaryDirectory() as folder, file_of(session) as source:
        counts = os.path.join(folder, "counts")
        words = ["valgrind", "--tool=callgrind", f"--callgrind-out-file={counts}", program, "play"]
        transcript = run(words, source, folder)
        with open(os.path.join(folder, "cds.store"), "rb") as store:
            written = transcript, store.read()
        with open(counts, encoding="utf-8", errors="replace") as said:
            return said.read(), written


@functools.lru_cache
def _before(program, opening) -> int:
    """How many instructions the program takes for what comes before a work."""
    return callgrind.instructions(counted(program, opening)[0])


def instructions(program, work) -> tuple[int, Any]:
    """How many instructions the program takes for a request of the work's rounds, and what it writes and leaves in its store file."""
    said, written = counted(program, work.session(work.rounds))
    took = callgrind.instructions(said) - _before(program, work.session(0))
    return round(took / work.requests(work.rounds)), written


def functions(program, work) -> dict[str, float]:
    """How many instructions each function takes itself for a request of the work's rounds."""
    before, after = (callgrind.read(counted(program, work.session(it))[0])[0] for it in (0, work.rounds))
    return {function: count / work.requests(work.rounds) for function, count in (after - before).items()}


# ---- time


class Run(NamedTuple):
    """How many milliseconds a run took, by the clock and of all processors, and how many bytes it had at most."""

    took: float
    processor: float
    memory: int


# Where a program that is timed writes to. The time of a write depends on it.
SINKS = ("/dev/null", "a file", "a pipe")


@contextlib.contextmanager
def opened(sink) -> Iterator[IO[bytes]]:
    """A sink that is new. A process reads the pipe until its other end is closed."""
    if sink == "a pipe":
        with subprocess.Popen(["cat"], stdin=subprocess.PIPE, stdout=subprocess.DEVNULL) as reader:
            assert reader.stdin is not None
            with reader.stdin as pipe:
                yield pipe
    else:
        with open(os.devnull, "wb") if sink == "/dev/null" else tempfile.TemporaryFile() as file:
            yield file


def timed(way, source, sink=SINKS[0]) -> Run:
    """What a program takes by its words for the session in a file, over a new store file."""
    source.seek(0)
    with tempfile.TemporaryDirectory() as folder, tempfile.TemporaryFile() as said, opened(sink) as written:
        begun = time.perf_counter()
        started = subprocess.Popen(way, stdin=source, stdout=written, stderr=said, cwd=folder)
        _, status, used = os.wait4(started.pid, 0)
        took = 1_000 * (time.perf_counter() - begun)
        started.returncode = os.waitstatus_to_exitcode(status)
        if started.returncode:
            said.seek(0)
            raise OSError(f"{' '.join(way)} ended with status {started.returncode}\n{said.read().decode(errors='replace').strip()}")
        return Run(took, 1_000 * (used.ru_utime + used.ru_stime), 1_024 * used.ru_maxrss)


def least(runs) -> Run:
    """The least times of those runs that did the whole work, and the most memory. Of a crew an application may have to do without
    its handle, so that its requests are refused: the history is smaller then."""
    most = max(run.memory for run in runs)
    whole = [run for run in runs if run.memory > WHOLE * most]
    return Run(min(run.took for run in whole), min(run.processor for run in whole), most)


def least_times(ways, *sessions, sink=SINKS[0]) -> list[list[float]]:
    """How long each way takes for each session, the least of a few runs in turns: a list for each session."""
    return [[run.took for run in of_session] for of_session in least_runs(ways, *sessions, sink=sink)]


def least_runs(ways, *sessions, sink=SINKS[0]) -> list[list[Run]]:
    """What each way takes for each session, the least of a few runs in turns: a list for each session."""
    sources = [file_of(it) for it in sessions]
    try:
        runs = [[[timed(way, source, sink) for way in ways] for source in sources] for _ in range(RUNS)]
    finally:
        for source in sources:
            source.close()
    return [[least(of_one) for of_one in zip(*of_session)] for of_session in zip(*runs)]


def output_of(way, session) -> bytes:
    """What a program writes by its words for a session."""
    with tempfile.TemporaryDirectory() as folder, file_of(session) as source:
        return run(way, source, folder)


# ---- memory


def _failure(started) -> OSError:
    return OSError(f"{' '.join(started.args)} ended with status {started.wait()}")


def _pause(started) -> None:
    """Waits for a process that isn't to end yet."""
    if started.poll() is not None:
        raise _failure(started)
    time.sleep(PAUSE)


def _is_waiting(pid) -> bool:
    """Whether the process waits for something that comes from outside."""
    with open(f"/proc/{pid}/stat", encoding="ascii", errors="replace") as stat:
        return stat.read().rpartition(")")[2].split()[0] == "S"


def _peak(started) -> int:
    """How many bytes a process has had at most by the time that it waits."""
    while not _is_waiting(started.pid):
        _pause(started)
    with open(f"/proc/{started.pid}/status", encoding="ascii", errors="replace") as status:
        row = next(line for line in status if line.startswith("VmHWM:"))
    return 1_024 * int(row.split()[1])


def _finish(started) -> None:
    if started.wait():
        raise _failure(started)


def _unread(pipe) -> int:
    """How many bytes stand in a pipe."""
    return struct.unpack("i", fcntl.ioctl(pipe, termios.FIONREAD, bytes(4)))[0]


def _write_all(started, content) -> None:
    """Writes the input of a process, and waits until it has read that."""
    left = memoryview(content)
    try:
        while left:
            left = left[started.stdin.write(left):]
    except BrokenPipeError:
        raise _failure(started) from None
    while _unread(started.stdin):
        _pause(started)


def memory_of_play(program, session) -> int:
    """How many bytes the program has had at most when it has played the session. Its input ends only after that is known."""
    with tempfile.TemporaryDirectory() as folder:
        words = [program, "play"]
        started = subprocess.Popen(words, stdin=subprocess.PIPE, stdout=subprocess.DEVNULL, cwd=folder, bufsize=0)
        with started.stdin:
            _write_all(started, session)
            peak = _peak(started)
        _finish(started)
        return peak


def usual_memory(program, session) -> float:
    """The same, the middle one of a few runs: the system counts a process's pages only so well."""
    return statistics.median(memory_of_play(program, session) for _ in range(WEIGHINGS))


def _full_pipe() -> tuple[Any, Any, int]:
    """Both ends of a pipe that takes no further byte, and how many it has."""
    reader, writer = os.pipe()
    os.set_blocking(writer, False)
    filled = 0
    try:
        while True:
            filled += os.write(writer, bytes(4_096))
    except BlockingIOError:
        os.set_blocking(writer, True)
    return os.fdopen(reader, "rb"), writer, filled


def memory_of_line(words) -> tuple[int, str]:
    """How many bytes a program that writes one line has had at most when it writes that, and the line. It has to wait with it."""
    source, writer, filled = _full_pipe()
    with tempfile.TemporaryDirectory() as folder, source:
        started = subprocess.Popen(words, stdin=subprocess.DEVNULL, stdout=writer, cwd=folder)
        os.close(writer)
        peak = _peak(started)
        told = source.read()[filled:]
        _finish(started)
        return peak, told.decode()
