"""`cfetbl resets`: runs its program, and says how far it is.

Each row of the program's table goes to standard output as it is written, or with --html all of them into a page. For each write to
preserved memory the page has a bar with its bytes from left to right, in the color of what each critical table is recovered with after a
reset there. Standard error says every few seconds how many writes were tried, of how many. --program PROGRAM runs another one, and
--name NAME is what the session is called in the page.
"""
import argparse
import contextlib
import os
import re
import signal
import subprocess
import threading
from collections.abc import Generator

from tblkit import inputs, locks, programs, resets, runs, stores
from tblkit.programs import STORE_FAILED
from tblkit.progress import Ticker, span
from tblkit.streams import WRITE_FAILED, WriteFailed, fail, output_to, say

from .. import overview

TOOL = "cfetbl resets"
ROW = re.compile(rb"(\d+)  ")
AT = re.compile(rb"resets: (at write (\d+) of (\d+), after \d+ of \d+ bytes)\n?")
# What the program says of a store file that it can't read, with the number that the system has for it.
STORE = re.compile(r"resets: (.*?)( \(os error \d+\))?", re.S)
IN_USE = " is in use by another program"
# Why it ended. If the store file can't be read the program has said so.
WHY = {
    1: "a mix of images came back, or an image was lost, as the last line says; or out of memory, if that line is missing",
    2: "--every takes a number from 1 on",
    3: "reading failed; resets in the records before were tried",
    WRITE_FAILED: "writing failed; the table isn't whole",
    5: "a record is bad or cut short (`cfetbl play` says which); resets in the records before were tried",
    6: "the session has too many records for further requests after them",
}


def help_of(word) -> str:
    return overview.of_word(word, ("Status:",), is_of_sessions=True)


def add_arguments(parser) -> None:
    for option in ("--program", "--every", "--html", "--name"):
        parser.add_argument(option)
    parser.add_argument("--mirror", action="store_true")
    stores.add_written(parser)
    parser.add_argument("files", nargs="*", metavar="SESSION")


def store_words(line) -> str:
    """What is said of a store file that the program can't read; if another program has it, which one that is."""
    found = STORE.fullmatch(line)
    if found is None:
        return line
    words = found[1]
    holder = locks.in_use(words.removesuffix(IN_USE)) if words.endswith(IN_USE) else ""
    return f"{TOOL}: {holder or words}"


class Progress:
    """How far the program is, by its rows and by what it says."""

    def __init__(self) -> None:
        self._tried, self._at = 0, (0, "")
        self._all: int | None = None

    def take_row(self, row) -> None:
        """Takes a line of the table. The row of a write begins with its number, and comes once its resets were tried."""
        found = ROW.match(row)
        if found:
            self._tried = int(found[1])

    def take_said(self, lines) -> None:
        """Takes what the program says. Other lines than those of its progress are said on."""
        for line in lines:
            found = AT.fullmatch(line)
            if found:
                self._at, self._all = (int(found[2]), f", {found[1].decode()}"), int(found[3])
            else:
                say(store_words(os.fsdecode(line).rstrip("\n")))

    def tell(self, seconds) -> str:
        of_all = f" of {self._all}" if self._all else ""
        writes = "write was" if self._tried == 1 and not self._all else "writes were"
        number, at = self._at
        return f"{TOOL}: {self._tried}{of_all} {writes} tried{at if number > self._tried else ''}; {span(seconds)} so far"


def rows_of(program, progress) -> Generator[bytes, None, None]:
    """Gives the lines of the table as they come. The program ends once nobody takes them any more."""
    with contextlib.closing(program.stdout):
        for row in program.stdout:
            progress.take_row(row)
            yield row


def play(words, given, take) -> int:
    """Runs the program with words over a session, hands each line of its table to `take` with what writes it on, and gives its status."""
    progress = Progress()
    with subprocess.Popen(words, stdin=given, stdout=subprocess.PIPE, stderr=subprocess.PIPE, restore_signals=False) as program:
        hearer = threading.Thread(target=progress.take_said, args=(program.stderr,))
        hearer.start()
        try:
            with Ticker(progress.tell, is_beside=True) as ticker, contextlib.closing(rows_of(program, progress)) as rows:
                for row in rows:
                    take(row, ticker)
        except WriteFailed:
            program.wait()
            return WRITE_FAILED
        finally:
            hearer.join()
    return programs.status_of(program.returncode)


def look(chosen, parser) -> None:
    """Looks at the words before anything is played."""
    if chosen.durable:
        parser.error("resets writes to no store file, so --durable has nothing to sync")
    if chosen.mirror and chosen.html:
        parser.error("--html makes no page of --mirror")
    if chosen.mirror and chosen.every:
        parser.error("--mirror takes no --every")
    if len(chosen.files) > 1:
        parser.error("resets takes one session")
    chosen.store = None if chosen.store == stores.NONE else chosen.store
    if chosen.html not in (None, "-"):
        inputs.keep(parser.prog, f"--html {chosen.html}", chosen.html, [it for it in (*chosen.files, chosen.store) if it])


def command_of(chosen) -> list[str]:
    """The program with the words that it takes."""
    words = [chosen.program or programs.needed("resets")]
    for option, value in (("--store", chosen.store), ("--every", chosen.every)):
        words += [option, value] if value else []
    return words + ["--mirror"] * chosen.mirror


def main(chosen, parser) -> int:
    look(chosen, parser)
    # A reader that goes away is a write that fails.
    signal.signal(signal.SIGPIPE, signal.SIG_IGN)
    with contextlib.ExitStack() as closing:
        source = runs.source_of(parser.prog, chosen.files[0], closing) if chosen.files else runs.Source()
        if chosen.store is not None:
            stores.opening(parser.prog, chosen, closing)
        given, command = source.given(), command_of(chosen)
        table = []
        if not chosen.html:
            status = play(command, given, lambda row, ticker: ticker.write(row))
        else:
            status = play(command, given, lambda row, _: table.append(row.decode("ascii", "replace")))
            write_page(chosen, table, closing)
    why = WHY.get(status) or (programs.end_words(status) if status not in (0, STORE_FAILED) else "")
    if why:
        say(f"{parser.prog}: {why}")
    return status


def write_page(chosen, table, closing) -> None:
    """Writes the page of a table."""
    try:
        made = resets.html(chosen.name or (os.path.basename(chosen.files[0]) if chosen.files else "standard input"), table)
    except resets.NoTable as wrong:
        fail(TOOL, str(wrong), 1)
    output_to(chosen.html, closing).write(made)
