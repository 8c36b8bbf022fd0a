"""How the tools meet the shell: statuses, broken pipes, interrupts, and what they say on standard error."""
import contextlib
import errno
import io
import os
import re
import signal
import sys
from typing import Any, BinaryIO, cast, NoReturn, TextIO

OUT_OF_MEMORY, WRONG_USE, WRITE_FAILED = 1, 2, 4
# A program that a signal ended has this status and the number of the signal, as the shell tells it.
BY_SIGNAL = 128
INTERRUPTED = BY_SIGNAL + signal.SIGINT
PLAIN = re.compile(r"[\n\t -~]*")
# What only a write comes to, also one to a file of the tools' own.
NO_ROOM = (errno.ENOSPC, errno.EFBIG, errno.EDQUOT)


class WriteFailed(Exception):
    """A write failed: where and why."""


class _Output(io.FileIO):
    """A file that is written, whose failure is told from that of a read."""

    def __init__(self, name, file, **more) -> None:
        super().__init__(file, "wb", **more)
        self._called = name

    def write(self, content) -> int:
        try:
            return super().write(content)
        except OSError as error:
            raise WriteFailed(f"{self._called}: {error.strerror}") from None


def visible(words) -> str:
    """Words as a terminal may have them: a character that doesn't print is an escape, as \\x1B, and so is a byte of a file's name
    that isn't UTF-8. Lines and tabs stay."""
    if PLAIN.fullmatch(words):
        return words
    return "".join(it if it in "\n\t" or it.isprintable() else _escape(ord(it)) for it in words)


def _escape(code) -> str:
    if 0xDC80 <= code <= 0xDCFF:
        code -= 0xDC00
    return f"\\x{code:02X}" if code < 0x100 else f"\\u{code:04X}" if code < 0x10000 else f"\\U{code:08X}"


class Lines(io.TextIOWrapper):
    """A stream of text in UTF-8, which is visible."""

    def __init__(self, binary) -> None:
        super().__init__(binary, encoding="utf-8")

    def write(self, words) -> int:
        super().write(visible(words))
        return len(words)

    def write_styled(self, pieces) -> None:
        """Writes pieces of text, each with the parameters of the terminal sequence that styles it, as 31 for red; empty for none."""
        super().write("".join(f"\x1b[{style}m{visible(words)}\x1b[m" if style else visible(words) for style, words in pieces))


class _Errors(io.TextIOBase):
    """Standard error: what is visible, and as far as it is taken."""

    def write(self, words) -> int:
        with contextlib.suppress(OSError):
            os.write(sys.__stderr__.fileno(), visible(words).encode("utf-8", "replace"))
        return len(words)

    def isatty(self) -> bool:
        return sys.__stderr__.isatty()


def clear_line() -> None:
    """Takes away what a line of the terminal has so far: with the styles of `Lines` the one sequence for terminals that is meant."""
    with contextlib.suppress(OSError):
        os.write(sys.__stderr__.fileno(), b"\r\x1b[K")


def say(words) -> None:
    """Says something on standard error, where that is open and takes it: the status tells the rest."""
    if sys.stderr is not None:
        with contextlib.suppress(OSError):
            sys.stderr.write(visible(f"{words}\n"))


def fail(tool, reason, status) -> NoReturn:
    """Ends with a status, and says why."""
    say(f"{tool}: {reason}")
    sys.exit(status)


def opened(name) -> BinaryIO:
    """A file to read bytes from; `-` is standard input."""
    if name != "-":
        return open(name, "rb")
    if sys.stdin is None:
        raise OSError("standard input is closed")
    return sys.stdin.buffer


def created(name) -> io.BufferedWriter:
    """A file to write bytes to."""
    try:
        return io.BufferedWriter(_Output(name, name))
    except OSError as error:
        raise WriteFailed(f"{name}: {error.strerror}") from None


def output_to(name, closing) -> TextIO:
    """A stream of text that writes a file, which `closing` closes; `-` is standard output."""
    if name == "-":
        return sys.stdout
    return closing.enter_context(Lines(created(name)))


def binary_output(tool, what) -> BinaryIO:
    """Standard output for bytes. They aren't written to a terminal."""
    if os.isatty(1):
        fail(tool, f"{what} isn't written to a terminal: give it to a file or a pipe", WRONG_USE)
    sys.stdout.flush()
    return sys.stdout.buffer


def run(tool, main) -> NoReturn:
    """Calls `main` with the words of the command line. A write that fails is status 4, a file or stream that can't be opened
    or read is 2, an interrupt is 130, and a reader that went away ends the tool silently, as it does others."""
    signal.signal(signal.SIGPIPE, signal.SIG_DFL)
    if signal.getsignal(signal.SIGINT) is signal.SIG_DFL:
        signal.signal(signal.SIGINT, signal.default_int_handler)
    try:
        status = _ended(main)
    except (OSError, WriteFailed) as error:
        status, reason = status_of(error)
    except MemoryError:
        status, reason = OUT_OF_MEMORY, "out of memory"
    except KeyboardInterrupt:
        status, reason = INTERRUPTED, "interrupted"
    else:
        sys.exit(status)
    drop_output()
    fail(tool, reason, status)


def _ended(main) -> Any:
    """What the tool ends with, once its output is written."""
    if sys.stderr is not None:
        sys.stderr = cast(TextIO, _Errors())
    if sys.stdout is None:
        raise WriteFailed("standard output is closed")
    sys.stdout = Lines(io.BufferedWriter(_Output("standard output", 1, closefd=False)))
    status = _status_of(main)
    sys.stdout.flush()
    return status


def status_of(error) -> tuple[int, str]:
    """The status of a file or stream that can't be opened, read or written, and why it can't."""
    if isinstance(error, WriteFailed):
        return WRITE_FAILED, f"writing failed: {error}"
    reason = f"{error.filename}: {error.strerror}" if error.filename else error.strerror or str(error)
    return WRITE_FAILED if error.errno in NO_ROOM else WRONG_USE, reason


def _status_of(main) -> Any:
    """What `main` ends with. What it has written is still to be flushed, also where it ends early."""
    try:
        return main(sys.argv[1:])
    except SystemExit as early:
        return early.code


def drop_output() -> None:
    """What is still to be written would fail again, or wait again, at the exit."""
    if sys.stdout is not None:
        os.dup2(os.open(os.devnull, os.O_WRONLY), 1)
