"""An application's calls on another implementation, compared with what they are answered here.

    cfetbl compare [--expect known] SESSION LOG

SESSION is a session, as text or records, with what was done before the calls: files that were uplinked, the time, applications that
started; /dev/null is none. LOG has the calls in their order, a line each, with what cFE's functions take and return:

    app 1 CFE_TBL_Register LIMITS 4 0x0000 none -> CFE_SUCCESS handle 0
    app 1 CFE_TBL_Load 0 address 01020304 -> CFE_SUCCESS
    app 1 CFE_TBL_GetAddress 0 -> CFE_TBL_INFO_UPDATED bytes 01020304
    ground LOAD /new
    app 1 CFE_TBL_Update 0 -> CFE_TBL_INFO_TABLE_LOCKED

c/record has a recorder in C that writes such a log for an application of cFE, and `cfetbl cfe-app` makes an application that
makes the calls of sessions. A line without a return code is one of session text, as a test writes it if it sends a command, but for

    app 1 verdict LIMITS -5        what the table's validation function said inside the application's next call
    app 1 wrote 0 0A0B0C0D         what the application wrote through the address of a handle: the whole table as it is by then
    log 2, log end                 the first line of a recorder's log, and the last one

Both are played here, over an empty store. Compared are the return codes, the bytes at an address and of a block, and the size and
options of GetInfo. The first call that is answered differently here is shown with the state in which it was made, and with the known
difference that it is, if it is one: a row of docs/reference/cfe.md, by its number. With --expect known those are passed over and counted. If a table is in
another state there after a known difference, further calls of it aren't compared, and are counted too.

A handle of the log is the one here that the same registration gave. A validation function gives the verdict of the log, or 0 if the
log has none. A table with one has a byte more here, and so has a critical one. One of 16,384 bytes hasn't, and is judged by its
first byte: 0 is rejected. What was written in place is an image more here that nobody is notified of. A log of more requests than a
session has goes on in a further session.

Exit status: 0 if no call is answered differently; 1 if one is; 2 for wrong use, or if a file can't be read, or a line is wrong or cut
off; 4 if a write fails; 125 without a program; the status of a program that ended by itself.
"""
import contextlib
import tempfile
from collections.abc import Iterator

from tblkit import calls, compared, inputs, live, programs, text
from tblkit.streams import WRONG_USE, fail, opened, say
from tblkit.words import TextError

TOOL = "cfetbl compare"
KNOWN = "known"
CUT = "the log is cut off in this line"


def differ(place, line, other, before) -> int:
    """Tells the first difference."""
    print(f"{place}: {line}")
    print(f"    here: {other}")
    if other.which is not None:
        print(f"    known: {other.which.words()} (--expect known passes over it)")
    print("    before it:" + ("" if before else " no application runs"))
    print("".join(f"      {it}\n" for it in before), end="")
    return 1


def end(running) -> int:
    """Tells why the program ended by itself: its status."""
    say(f"{TOOL}: {running.failure()}")
    return running.finish()


def lines_of(lines, comparison, name) -> Iterator[tuple[int, str]]:
    """The lines of a log with their numbers. The last line of a recorder's log, if it isn't whole, is told and ends all."""
    for number, line in enumerate(lines, 1):
        if not line.endswith(b"\n") and comparison.is_marked:
            fail(TOOL, f"{name}:{number}: {CUT}, after {comparison.count} calls that are answered alike here", WRONG_USE)
        yield number, line.decode("utf-8", "replace").rstrip("\r\n")


def compare(comparison, name) -> int:
    """Plays and compares the lines of a log."""
    number = 0
    with opened(name) as lines:
        for number, line in lines_of(lines, comparison, name):
            try:
                comparison.take(line, text.folder_of(name))
            except TextError as error:
                fail(TOOL, text.report(f"{name}:{number}", line, error), WRONG_USE)
            except compared.Difference as other:
                running = comparison.player.running
                return end(running) if running.has_failed() else differ(f"{name}:{number}", line, other, comparison.before)
    print(comparison.words())
    if comparison.is_marked and not comparison.is_ended:
        print(f"{name}:{number}: this line is the last one, and no `{calls.LOG} {calls.END}` follows it: calls may be missing")
    return 0


def add_arguments(parser) -> None:
    parser.add_argument("--expect", choices=[KNOWN], metavar="known")
    for name in ("session", "log"):
        parser.add_argument(name, metavar=name.upper())


def main(chosen, _parser) -> int:
    with contextlib.ExitStack() as closing:
        folder, started = closing.enter_context(tempfile.TemporaryDirectory()), []

        def open_run() -> live.Running:
            started.append(live.Running(folder))
            closing.callback(started[-1].finish)
            return started[-1]

        try:
            comparison = compared.Comparison(open_run, chosen.expect == KNOWN)
        except programs.NoProgram as none:
            fail(TOOL, str(none), programs.NO_PROGRAM)
        comparison.play(inputs.session_of(TOOL, chosen.session, closing))
        return compare(comparison, chosen.log)
