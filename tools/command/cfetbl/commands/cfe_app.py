"""An application of cFE that makes the calls of sessions, so that they can be compared with what this service answers.

    cfetbl cfe-app [--cover] [SESSION..] -o DIR

Each SESSION is text or records. DIR gets sources in C, CMakeLists.txt, lines for the startup script of cFE, and README.txt, which says
what to do with them in a tree of cFS. On cFE the applications make the calls of the sessions, one after the other, each its own. They
send the commands over the Software Bus, write the files, and record all in calls.log, which `cfetbl compare` compares.

Requests that cFE can't be asked for are left out, and each is listed with its line and the reason; DIR/left-out.txt has them too.
A read isn't listed: a get records all bytes at the address. Files have names of cFE's file system there, as /ram/f1. A session begins
with what those before it have left, except their tables, which are given back.

  -o DIR    the folder that is written, even if it is there
  --cover   adds sessions that make each call in each state of a table that can be reached, as `cfetbl states --cover` shows them:
            some 6,000 requests, which take about ten minutes in cFE

Exit status: 0; 2 for wrong use, or if a session can't be read or is none; 4 if a write fails; 125 without a program.
"""
import contextlib
import tempfile

from tblkit import cfeapp, content, coverage, inputs, live, programs, text
from tblkit.numbers import counted
from tblkit.streams import WRITE_FAILED, WRONG_USE, fail, opened
from tblkit.words import TextError

TOOL = "cfetbl cfe-app"


def is_text(name) -> bool:
    with opened(name) as source:
        return content.kind_of(content.front_of(source)) is content.Kind.TEXT


def take(writer, name, open_run, closing) -> None:
    """Takes the requests of a session."""
    records = None if is_text(name) else inputs.session_of(TOOL, name, closing)
    running = open_run()
    try:
        for place, piece in cfeapp.pieces_of(name, records, text.folder_of(name)):
            writer.take(place, piece, running)
    except TextError as error:
        fail(TOOL, f"{name}: {error}", WRONG_USE)
    writer.end_session(running)


def tell(writer, folder) -> None:
    """Tells what was left out, and what was made."""
    for place, line, why in writer.left_out:
        if not place.startswith(cfeapp.WALK):
            print(f"{place}: {line}\n    {why}")
    print(f"{folder}: {counted(writer.calls(), 'call')} of {counted(len(writer.apps) - 1, 'application')}; "
          f"{counted(len(writer.left_out), 'request')} left out; README.txt says what to do")


def add_arguments(parser) -> None:
    parser.add_argument("-o", metavar="DIR", dest="folder", required=True)
    parser.add_argument("--cover", action="store_true")
    parser.add_argument("sessions", metavar="SESSION", nargs="*")


def main(chosen, parser) -> int:
    if not chosen.cover and not chosen.sessions:
        parser.error("a session is needed, or --cover")
    if "-" in chosen.sessions:
        parser.error("a session is a file here")
    writer = cfeapp.Writer()
    with contextlib.ExitStack() as closing:

        def open_run() -> live.Running:
            running = live.Running(closing.enter_context(tempfile.TemporaryDirectory()))
            closing.callback(running.finish)
            return running

        try:
            for name in chosen.sessions:
                take(writer, name, open_run, closing)
            for lines in coverage.walks(open_run)[0] if chosen.cover else ():
                writer.take_lines(lines, open_run())
        except programs.NoProgram as none:
            fail(TOOL, str(none), programs.NO_PROGRAM)
    called = [*chosen.sessions, *(["each call in each state of a table"] if chosen.cover else [])]
    try:
        cfeapp.write(chosen.folder, cfeapp.contents(writer, ", ".join(called)))
    except OSError as error:
        fail(TOOL, f"{error.filename}: {error.strerror}", WRITE_FAILED)
    tell(writer, chosen.folder)
    return 0
