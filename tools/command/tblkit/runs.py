"""Runs of the program over a session: what it says is kept, and why a run ended otherwise than well is told."""
import contextlib
import os
import re
import subprocess
import tempfile
import threading
from typing import IO, Any

from . import content, inputs, locks, programs, records, show, transcript
from .streams import INTERRUPTED, OUT_OF_MEMORY, WRITE_FAILED, say

READ_FAILED, BAD_RECORD, GOES_ON = 3, 5, 6
WHY = {
    OUT_OF_MEMORY: "out of memory",
    READ_FAILED: "reading failed; the records before were played",
    WRITE_FAILED: "writing failed; what was written isn't whole",
    GOES_ON: f"the session goes on after {records.MOST_RECORDS:,} records, which were played",
    INTERRUPTED: "interrupted",
}
# What stands after a cause that the system gives, and before the program's own words.
OS_ERROR, OWN_NAME = re.compile(r" \(os error \d+\)\Z"), "tbl: "
IN_USE = " is in use by another program"


class Run:
    """A run of the program. `given` is what it reads in the place of standard input, and `output` where it writes instead of standard
    output; subprocess.PIPE is for `self.output` to be read. What it says on standard error is in `said` once it has ended."""

    def __init__(self, words: list[str], given: Any = None, output: Any = None) -> None:
        self._process = subprocess.Popen(words, stdin=given, stdout=output, stderr=subprocess.PIPE, **programs.AS_HERE)
        self.said = ""
        self._hearer = threading.Thread(target=self._hear, daemon=True)
        self._hearer.start()

    @property
    def output(self) -> IO[bytes] | None:
        """What it writes."""
        return self._process.stdout

    def _hear(self) -> None:
        assert self._process.stderr
        with self._process.stderr as errors:
            self.said = errors.read().decode("utf-8", "surrogateescape").rstrip("\n")

    def finish(self) -> int:
        """Waits until it has ended, and answers its status. What isn't read of its output by now is lost."""
        if self.output:
            self.output.close()
        status = programs.status_of(self._process.wait())
        self._hearer.join()
        return status


class Source:
    """What a run reads: standard input, a file of records, or something that can be read once only."""

    def __init__(self, file: IO[bytes] | None = None, descriptor: int | None = None, is_whole: bool = True) -> None:
        """`descriptor` is what can be read once only. `is_whole` says that standard input is read from its beginning."""
        self.file, self._descriptor = file, descriptor
        self._is_input = file is None and descriptor is None and is_whole and os.path.isfile("/dev/stdin")

    def given(self) -> int | None:
        """What the program is given in the place of standard input, from its beginning."""
        if self.file is None:
            return self._descriptor
        _rewind(self.file)
        return self.file.fileno()

    def again(self) -> IO[bytes]:
        """The file, to be read from its beginning once a program has read it."""
        assert self.file
        _rewind(self.file)
        return self.file

    def bad_record(self) -> str:
        """Which record ended the session, in words: it is played once more, in order, for its end record, in a folder of its own, so that
        the store file stays as it was left. Empty where it can't be read again."""
        with contextlib.ExitStack() as closing:
            file = self.file or (closing.enter_context(open(0, "rb", closefd=False)) if self._is_input else None)
            if file is None:
                return ""
            _rewind(file)
            if content.kind_of(content.front_of(file)) is content.Kind.TEXT:
                return "standard input is text, which --text takes"
            output = closing.enter_context(tempfile.TemporaryFile())
            programs.play(file, output, folder=closing.enter_context(tempfile.TemporaryDirectory()))
            index = records.Index(file)
            last = list(show.answers(transcript.parts(output), index))[-1]
            return show.end_lines(last, index).rpartition("; ")[2]


def _rewind(file: IO[bytes]) -> None:
    """Sets a file to its beginning, and drops what was read ahead, since a program moves the place too."""
    file.seek(0, os.SEEK_END)
    file.seek(0)


def source_of(tool: str, name: str, closing: contextlib.ExitStack) -> Source:
    """The session of this name, or the text that is standard input: records are made of what is text. What can be read once only is text
    if it is called so."""
    if name == "-" or os.path.isfile(name) or name.endswith(".txt"):
        kinds = (content.Kind.TEXT,) if name == "-" else (content.Kind.TEXT, content.Kind.RECORDS)
        return Source(inputs.session_of(tool, name, closing, say, kinds))
    descriptor = os.open(name, os.O_RDONLY)
    closing.callback(os.close, descriptor)
    return Source(descriptor=descriptor)


def store_fault(said: str, store: str) -> str:
    """What is wrong with the store file, by what the program said of it as it opened it. Where that was a lock, whose it is."""
    if said.endswith(IN_USE):
        return locks.in_use(store) or said.removeprefix(OWN_NAME)
    fault = OS_ERROR.sub("", said.removeprefix(OWN_NAME))
    return fault or f"the store file, {store}, can't be opened or made longer, or failed in a boot"


def end_words(status: int, said: str, store: str, source: Source) -> str:
    """Why a run ended with a status."""
    if status == BAD_RECORD:
        record = source.bad_record() or "a record is bad or cut short (play it from a file to see which)"
        return f"{record}; the records before were played"
    if status == programs.STORE_FAILED:
        return store_fault(said, store)
    return WHY.get(status) or programs.end_words(status, store)


def tell(tool: str, status: int, said: str, store: str, source: Source) -> None:
    """Says what the program said, where its status doesn't tell it, and why it ended."""
    if said and status != programs.STORE_FAILED:
        say(said)
    if status:
        say(f"{tool}: {end_words(status, said, store, source)}")


def told(status: str, said: str, word: str, start: str) -> int:
    """Tells the same of a run of standard input that the front command has started, and answers its status; `start` is where standard
    input was then."""
    tell(f"cfetbl {word}", int(status), said, programs.STORE, Source(is_whole=start == "0"))
    return int(status)
