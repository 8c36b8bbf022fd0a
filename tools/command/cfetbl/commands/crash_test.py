"""Crash tests of an application's own code.

    cfetbl crash-test PROGRAM [WORD..]                runs a crash test, and prints what it found
    cfetbl crash-test --html FILE PROGRAM [WORD..]    makes a page of it too
    cfetbl crash-test --json PROGRAM [WORD..]         prints a JSON object a test in place of text

PROGRAM is a test that calls CFETBL_ForEachReset of cfetbl_crash.h, once or more often; it is called with the words after it.
docs/use/crash-tests.md shows how to write one. The processor is reset before each write that the application makes to the
Critical Data Store, and after each number of its bytes, and the application's start code is called over what is left. A finding
is a reset after which the application doesn't start, or its invariant doesn't hold: it is told with the write, the call and the
application's line, what the restart was answered, and what the invariant said.

Standard error says every few seconds how many resets and other troubles were tried. What the program writes to standard output
isn't shown.

Exit status: 0 without a finding; 1 with findings; 2 for wrong use, if the program can't be run or makes no crash test, if a test
couldn't be tried to its end, or if the program ends otherwise than its tests; 4 where a write fails.
"""
import argparse
import contextlib
import json
import os
import subprocess

from tblkit import crashes, inputs, programs
from tblkit.progress import Ticker, span
from tblkit.streams import WRONG_USE, fail, output_to, say

TOOL = "cfetbl crash-test"
# What tells a program where its reports go.
VARIABLE = "CFETBL_CRASH_REPORT"
FOUND = 1


def add_arguments(parser) -> None:
    parser.add_argument("--json", action="store_true")
    parser.add_argument("--html")
    parser.add_argument("program")
    parser.add_argument("words", nargs=argparse.REMAINDER)


def path_of(name) -> str:
    """The program of a name. One without a folder may stand in the working folder."""
    return os.path.abspath(name) if os.path.isfile(name) else name


def tests_of(chosen) -> tuple[list[crashes.Report], int]:
    """Runs the program, and gives the reports of its tests, and its status."""
    reader, (ours, theirs) = crashes.Reader(), os.pipe()
    words = [path_of(chosen.program), *chosen.words]
    with open(ours, encoding="utf-8", errors="replace") as lines:
        try:
            program = subprocess.Popen(words, stdin=subprocess.DEVNULL, stdout=subprocess.DEVNULL, pass_fds=(theirs,),
                                       env=os.environ | {VARIABLE: f"/dev/fd/{theirs}"})
        except OSError as error:
            fail(TOOL, f"{chosen.program} can't be run: {error.strerror}", WRONG_USE)
        finally:
            os.close(theirs)
        with program, Ticker(lambda seconds: f"{TOOL}: {crashes.tell(reader.progress, span(seconds))}", is_beside=True):
            for line in lines:
                reader.take(line.rstrip("\n"))
            status = program.wait()
    reader.end()
    return reader.reports, programs.status_of(status)


def status_of(reports, status) -> int:
    """What the tool ends with. Where it isn't that of the reports, it says why."""
    found = any(it.findings for it in reports)
    if not reports:
        say(f"{TOOL}: the program makes no crash test; it ended with {status}")
    elif not all(it.is_whole for it in reports):
        say(f"{TOOL}: {next(it.told['message'] for it in reports if not it.is_whole)}")
    elif status > FOUND or (status and not found):
        say(f"{TOOL}: the program ended with {status}")
    else:
        return FOUND if found else 0
    return WRONG_USE


def main(chosen, parser) -> int:
    if chosen.html not in (None, "-"):
        inputs.keep(parser.prog, f"--html {chosen.html}", chosen.html, [it for it in (chosen.program,) if os.path.isfile(it)])
    if chosen.html == "-" and chosen.json:
        parser.error("--html - and --json both go to standard output")
    try:
        reports, status = tests_of(chosen)
    except crashes.NoReport as wrong:
        fail(TOOL, str(wrong), WRONG_USE)
    if chosen.html:
        with contextlib.ExitStack() as closing:
            output_to(chosen.html, closing).write(crashes.html(os.path.basename(chosen.program), reports))
    if chosen.html != "-":
        for it in reports:
            print(json.dumps(it.told) if chosen.json else "\n".join(it.lines))
    return status_of(reports, status)
