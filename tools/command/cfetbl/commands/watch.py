"""`cfetbl watch`: plays a session as `crew` does, and writes a report of what application 16 gets."""
import argparse
import contextlib
import subprocess

from tblkit import inputs, programs, runs, stores, watched
from tblkit.options import Parser
from tblkit.streams import fail, opened

from .. import overview
from . import play


def help_of(word: str) -> str:
    return overview.of_word(word, ("Options:", "Status:"), is_of_sessions=True)


def add_arguments(parser: Parser) -> None:
    play.add_session(parser)
    parser.add_argument("--report")


def tell(tool: str, session: runs.Source, report: bytes) -> None:
    """Writes each line of a report with its request below it."""
    try:
        print("\n".join(watched.lines(session.again(), report.decode("latin-1"))))
    except watched.Wrong as wrong:
        fail(tool, wrong, 1)


def main(chosen: argparse.Namespace, parser: Parser) -> int:
    play.look_at_session(chosen, parser)
    tool = parser.prog
    with contextlib.ExitStack() as closing:
        if chosen.report:
            if not chosen.files or chosen.store or chosen.durable:
                parser.error("--report takes a report that you kept, and its session after it")
            session = runs.Source(inputs.session_of(tool, chosen.files[0], closing))
            tell(tool, session, closing.enter_context(opened(chosen.report)).read())
            return 0
        source = play.session_of(chosen, tool, closing)
        opening = stores.opening(tool, chosen, closing)
        is_told = bool(chosen.files) and source.file is not None
        run = runs.Run([programs.needed("play"), *opening, "watch"], source.given(), subprocess.PIPE if is_told else None)
        report = run.output.read() if run.output else b""
        status = run.finish()
        runs.tell(tool, status, run.said, programs.store_of(opening), source)
        if is_told and not status:
            tell(tool, source, report)
    return status
