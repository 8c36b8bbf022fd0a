"""The program's words `make`, `describe` and `store`, which are proved: what they answer, and why an input has no answer.

An answer is the program's, byte for byte. Why there is none is told beside it, by `described`.
"""
import os
import re
import subprocess
import tempfile

from . import described, layouts, programs

DONE, WRONG_WORDS, BAD_LINE, NO_FILE, OTHER_LENGTH, TOO_LONG = (layouts.number_of("run", it) for it in (
    "the work is done", "the words aren't known", "the input of make is no description",
    "the input of describe is no table file that can be described", "the shape has another length than the image",
    "the input of make or describe is too long"))
MOST_INPUT = layouts.number("bytes of an input of make or describe")


class NoAnswer(Exception):
    """Why the program gave no answer, and the status that a tool ends with for that."""

    def __init__(self, reason, status) -> None:
        super().__init__(reason)
        self.status = status


def make(text) -> bytes:
    """The table file of a description. It raises described.WrongLine for the first bad line."""
    status, answer = _ask(["make"], text)
    if status == BAD_LINE:
        raise described.wrong_line(text, int(re.fullmatch(rb"line (\d+)\n", answer)[1]))
    return _done(status, answer)


def describe(shape, file) -> bytes:
    """The description of a table file by a shape. It raises described.WrongShape, or described.NotDescribed of the file."""
    status, answer = _ask(["describe", shape], file)
    if status == WRONG_WORDS:
        raise described.wrong_shape(shape)
    if status in (NO_FILE, OTHER_LENGTH):
        raise described.not_described(shape, file, status == OTHER_LENGTH)
    return _done(status, answer)


def store(bank) -> bytes:
    """The text of the store that has these bytes."""
    return _done(*_ask(["store"], bank=bank))


def _done(status, answer) -> bytes:
    if status == TOO_LONG:
        raise NoAnswer(f"it has more than {MOST_INPUT:,} bytes", 1)
    if status != DONE:
        raise NoAnswer(programs.end_words(status), status)
    return answer


def _ask(words, given=b"", bank=b"") -> tuple[int, bytes]:
    """The status and the output of the program over a store file of its own."""
    program = programs.found()
    if program is None:
        raise NoAnswer("there is no program, and none could be built", programs.NO_PROGRAM)
    with tempfile.TemporaryDirectory() as folder, tempfile.TemporaryFile() as source:
        kept = os.path.join(folder, programs.STORE)
        with open(kept, "wb") as file:
            file.write(bank)
        # (a program that doesn't take its words reads nothing, so this is no pipe)
        source.write(given)
        source.seek(0)
        done = subprocess.run([program, "--store", kept, *words], stdin=source, stdout=subprocess.PIPE, check=False, **programs.AS_HERE)
    return programs.status_of(done.returncode), done.stdout
