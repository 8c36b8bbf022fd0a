"""Sessions and transcripts that are named to a tool. What is another file is told, with what reads it."""
import contextlib
import os
import shutil
import sys
import tempfile
from collections.abc import Iterator
from typing import Any, IO

from . import content, programs, records, text, transcript
from .streams import WRONG_USE, fail, opened, say

SESSIONS = (content.Kind.TEXT, content.Kind.RECORDS, content.Kind.OTHER)


def keep(tool, option, written, read) -> None:
    """Ends where a file that is to be written is one of those that are read, which would be lost."""
    for name in read:
        with contextlib.suppress(OSError):
            if os.path.samestat(os.stat(written), os.fstat(0) if name == "-" else os.stat(name)):
                fail(tool, f"{option} would write over {name}, which is read", WRONG_USE)


def session_of(tool, name, closing, say_more=None, kinds=SESSIONS) -> IO[bytes]:
    """A session as a file of records that can be read from any place: what is text or a stream is kept in a file of its own.
    `say_more` says what may be meant otherwise in a text, and a file that isn't empty is of one of the kinds."""
    source = closing.enter_context(opened(name))
    front = content.front_of(source)
    kind = content.kind_of(front)
    if front and kind not in kinds:
        fail(tool, f"no session: {kind.said_of(name, front)}", WRONG_USE)
    if source.seekable() and kind is not content.Kind.TEXT:
        return source
    kept = closing.enter_context(tempfile.TemporaryFile())
    if kind is content.Kind.TEXT:
        _keep_records(source, kept, name, say_more)
    else:
        shutil.copyfileobj(source, kept)
    kept.seek(0)
    return kept


def reopened(file) -> IO[bytes]:
    """The same bytes once more, with a place of their own."""
    link = f"/proc/self/fd/{file.fileno()}"
    if os.path.exists(link):
        return open(link, "rb")
    # Where there is no /proc, as in a bare chroot, they are copied.
    again, at = tempfile.TemporaryFile(), 0
    while piece := os.pread(file.fileno(), 1 << 20, at):
        again.write(piece)
        at += len(piece)
    again.seek(0)
    return again


def _keep_records(source, kept, name, say_more) -> None:
    try:
        text.to_records(source, kept, text.folder_of(name), "<stdin>" if name == "-" else name, say_more)
    except text.WrongLines as wrong:
        say(str(wrong))
        sys.exit(WRONG_USE)


def index_of(tool, name, closing) -> records.Index:
    """The places of the records of a session."""
    return records.Index(session_of(tool, name, closing))


def parts_of(tool, name, closing) -> Iterator[Any]:
    """The parts of a transcript. What is another file is told, with what reads it."""
    source = closing.enter_context(opened(name))
    front = content.front_of(source)
    if front[:1] not in (b"", b"\x00", b"\xff"):
        fail(tool, "no transcript: " + content.kind_of(front).said_of(name, front), 1)
    return transcript.parts(source)


def played(tool, session, closing, opening=()) -> tuple[Iterator[Any], int]:
    """The transcript of a session that is played now, in the working folder, and the status of the run. `opening` has what the
    program is given before its word."""
    output = closing.enter_context(tempfile.TemporaryFile())
    try:
        status = programs.play(session, output, opening)
    except programs.NoProgram as none:
        fail(tool, none, programs.NO_PROGRAM)
    return transcript.parts(output), status
