"""The program of a service that lives: records come one by one, and each is answered before the next one is given to it."""
import io
import os
import shutil
import signal
import stat
import subprocess
import tempfile
import time
from collections.abc import Iterator
from typing import Any

from . import names, programs, records, show, states, transcript
from .answers import Answer
from .programs import STORE

# How long a program may take to open its store, in seconds, and how often it is looked at meanwhile.
LONGEST_START, LOOK = 30, 0.005
# The end record has the bytes that were played in four bytes, which go round.
ROUND = 1 << 32


class Running:
    """A run of the program in a folder. `count` is how many requests were played, of which nothing else is kept. `end` is the end record,
    once it came, or what stands in its place; then nothing more is played."""

    def __init__(self, folder=".", opening=(), word="serve") -> None:
        """`opening` has what the program is given, and `word` says which one it is."""
        program = programs.found(word=word)
        if program is None:
            raise programs.NoProgram("there is no program, and none could be built")
        # In a session of its own, so that an interrupt from the keyboard reaches the tool alone.
        self._process = subprocess.Popen([program, *opening], cwd=folder, stdin=subprocess.PIPE, stdout=subprocess.PIPE,
                                         start_new_session=True, **programs.AS_HERE)
        # A program that has ended takes no bytes. Its status says why, and no signal ends the tool.
        signal.signal(signal.SIGPIPE, signal.SIG_IGN)
        self._input = self._process.stdin.fileno()
        self._parts, self._left, self.count, self._length = transcript.parts(self._process.stdout), b"", 0, 0
        self._store, self.states = programs.store_of(opening, folder), states.States()
        self.end: Any = None
        # What is done while an answer is waited for: it is given the file that can be read from then, and returns by then.
        self.meanwhile = None

    def fileno(self) -> int:
        """What can be read from once the program has ended by itself."""
        return self._process.stdout.fileno()

    def has_ended(self) -> bool:
        """Whether the program has ended, as it does by itself where it fails or is killed."""
        return self._process.poll() is not None

    def is_ready(self) -> bool:
        """Waits until the program has opened its store and waits for a request. False where it has ended instead."""
        begun = time.monotonic()
        while not (self.has_ended() or _waits_with_file(self._process.pid)) and time.monotonic() - begun < LONGEST_START:
            time.sleep(LOOK)
        return not self.has_ended()

    def ask(self, content) -> Iterator[Answer]:
        """Plays the records in bytes, and gives the answers. Bytes that are only a part of a record wait for the rest, and such
        as begin none end the run."""
        self._left += content
        while self.end is None and self._left:
            length, is_bad = _front(self._left)
            if length is None and not is_bad:
                return
            if is_bad:
                self.finish()
                return
            content, self._left = self._left[:length], self._left[length:]
            yield from list(self.play(content))

    def play(self, content) -> Iterator[Answer]:
        """Plays one record, which is whole and good, and gives its answer; none once the run is over. What the answer changes is followed
        once it was taken."""
        if self.end is not None:
            return
        self._send(content)
        if self.meanwhile:
            self.meanwhile(self.fileno())
        part = next(self._parts, None)
        if not isinstance(part, transcript.Entry):
            self.end = part
            return
        answer = Answer(part, records.Piece(self._length, content), view=self.states.view)
        self.count += 1
        self._length += len(content)
        yield answer
        self.states.follow(answer)

    def _send(self, content) -> None:
        """Hands bytes to the program. One that has ended takes none: what it wrote says why."""
        left = memoryview(content)
        try:
            while left:
                left = left[os.write(self._input, left):]
        except BrokenPipeError:
            pass

    def finish(self) -> int:
        """Ends the input with what is left of it, where the program still reads it, and gives the status of the run."""
        try:
            if not self._process.stdin.closed:
                self._send(self._left)
                self._process.stdin.close()
        except BrokenPipeError:
            pass
        for part in self._parts:
            self.end = self.end or part
        return programs.status_of(self._process.wait())

    def kill(self) -> None:
        """Ends the program where it is."""
        self._process.kill()
        self._process.wait()

    def has_failed(self) -> bool:
        """Whether the run is over without an end record."""
        return self.end is not None and not isinstance(self.end, transcript.End)

    def failure(self) -> str:
        """Why the program ended by itself, in words; empty where it wrote its end record."""
        return "" if isinstance(self.end, transcript.End) else programs.end_words(self.finish(), self._store)

    def end_line(self) -> str:
        """The line of the end record."""
        return show.end_lines(self.end, _Left(self.count, self._length, self._left))


class _Left:
    """What of the input wasn't played, as an index of it tells that: so many records and bytes were."""

    def __init__(self, count, length, content) -> None:
        self._count, self.bytes_taken, self._content = count, length % ROUND, content

    def first_left(self) -> tuple[int, int] | None:
        """The number and the place of the first record that wasn't played, or None where nothing is left."""
        return (self._count, self.bytes_taken) if self._content else None

    def piece_at(self, _) -> records.Piece | None:
        """What stands there: None at the end."""
        return next(records.pieces(io.BytesIO(self._content)), None)


def _waits_with_file(process) -> bool:
    """Whether a process has a file open beside its standard streams, and waits. Where the system doesn't say so, it is taken to
    do that after a moment."""
    try:
        with open(f"/proc/{process}/stat", "rb") as file:
            state = file.read().rpartition(b") ")[2][:1]
        opened = [os.stat(f"/proc/{process}/fd/{it}").st_mode for it in os.listdir(f"/proc/{process}/fd") if int(it) > 2]
    except OSError:
        time.sleep(50 * LOOK)
        return True
    return state == b"S" and any(map(stat.S_ISREG, opened))


def _front(content) -> tuple[int | None, bool]:
    """How long the record is that bytes begin with, or None where they don't have the whole one yet; and whether they begin
    none."""
    head = content[:records.HEAD]
    if len(head) < records.HEAD:
        return None, False
    if records.head_fault(head):
        return None, True
    length = records.length_of(head)
    if len(content) < length:
        return None, False
    return length, bool(records.body_fault(head[0], content[records.HEAD:length]))


class Folder:
    """A folder of its own for each run, that begins with a copy of a store file as it is now, or without one."""

    def __init__(self, closing, store) -> None:
        self._closing, self._kept = closing, None
        if store and os.path.isfile(store):
            self._kept = os.path.join(closing.enter_context(tempfile.TemporaryDirectory()), STORE)
            shutil.copyfile(store, self._kept)

    def fresh(self) -> str:
        """A further folder."""
        folder = self._closing.enter_context(tempfile.TemporaryDirectory())
        if self._kept:
            shutil.copyfile(self._kept, os.path.join(folder, STORE))
        return folder


def file_names(answer) -> list[str]:
    """The files that a request names."""
    return [names.quoted(names.name_in(raw)) for field, raw in answer.fields()
            if field.name == "file" or field.owner == "File" and field.form == "name"]
