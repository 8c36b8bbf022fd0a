"""`cfetbl play` and `cfetbl crew`: play a session, and write its transcript, or show it."""
import argparse
import contextlib
import itertools
import os
import re
import subprocess

from tblkit import inputs, programs, runs, stores, transcript
from tblkit.options import Parser
from tblkit.streams import say

from .. import overview
from . import show

LISTS = "--admit takes two lists, of spacecraft and of processors: any, or one or two numbers with a comma between them"
NUMBER = "(0|[1-9][0-9]{0,9})"
LIST = re.compile(f"any|{NUMBER}(,{NUMBER})?")
# Options of showing, by the names that they have when they are chosen.
OF_SHOW = ("all", "json", "end", "session_order", "diff", "pcap", "shape", "shape_of")


def help_of(word: str) -> str:
    return overview.of_word(word, ("Options:", "Options after --show:", "Status:"), is_of_sessions=True)


def add_arguments(parser: Parser) -> None:
    add_session(parser)
    parser.add_argument("--admit", nargs=2)
    parser.add_argument("--show", action="store_true")
    show.add_options(parser)


def add_session(parser: Parser) -> None:
    """What names a session, and the store that it is played over."""
    stores.add_written(parser)
    parser.add_argument("--text", action="store_true")
    parser.add_argument("files", nargs="*", metavar="SESSION")


def is_list(word: str) -> bool:
    """Whether it lists identifiers as the program takes them."""
    return LIST.fullmatch(word) is not None and all(it == "any" or int(it) < 1 << 32 for it in word.split(","))


def look_at_session(chosen: argparse.Namespace, parser: Parser) -> None:
    """Ends where more than one session is named."""
    word = parser.prog.split()[-1]
    if len(chosen.files) > 1:
        parser.error(f"{word} takes one session")
    if chosen.files and chosen.text:
        parser.error("--text is for standard input; a session that you name is known by its content")


def look(chosen: argparse.Namespace, parser: Parser) -> None:
    """Looks at the words before anything is played."""
    look_at_session(chosen, parser)
    if chosen.admit and not all(map(is_list, chosen.admit)):
        parser.error(LISTS)
    if not chosen.show:
        for name in OF_SHOW:
            if getattr(chosen, name):
                parser.error(f"--{name.replace('_', '-')} has to be after --show")
        keep_off_terminal(chosen, parser)
        return
    if not chosen.files:
        parser.error(f"{parser.prog.split()[-1]} --show takes a session")
    show.look(chosen, parser)
    show.check(chosen, parser.prog)


def keep_off_terminal(chosen: argparse.Namespace, parser: Parser) -> None:
    """Ends where the transcript, which is bytes, would go to a terminal."""
    if os.isatty(1):
        session = chosen.files[0] if chosen.files else "SESSION"
        parser.error("the transcript is bytes, and none were written to the terminal: "
                     f"`{parser.prog} --show {session}` prints it for reading, and `> FILE` keeps it")


def session_of(chosen: argparse.Namespace, tool: str, closing: contextlib.ExitStack) -> runs.Source:
    """The session that the words name."""
    name = "-" if chosen.text else chosen.files[0] if chosen.files else None
    return runs.source_of(tool, name, closing) if name else runs.Source()


def main(chosen: argparse.Namespace, parser: Parser) -> int:
    look(chosen, parser)
    tool, word = parser.prog, parser.prog.split()[-1]
    with contextlib.ExitStack() as closing:
        source = session_of(chosen, tool, closing)
        opening = stores.opening(tool, chosen, closing)
        if chosen.show:
            say(f"{tool}: {stores.told(tool, chosen.store)}")
        words = [programs.needed("play"), *opening, word, *(["admit", *chosen.admit] if chosen.admit else [])]
        shown = 0
        if chosen.show:
            chosen.session_order |= word == "crew"
            run, shown = show_run(chosen, tool, words, source, closing)
        else:
            run = runs.Run(words, source.given())
        status = run.finish()
        runs.tell(tool, status, run.said, programs.store_of(opening), source)
    return status or shown


def show_run(chosen: argparse.Namespace, tool: str, words: list[str], source: runs.Source,
             closing: contextlib.ExitStack) -> tuple[runs.Run, int]:
    """Plays a session and shows its transcript as it comes. Gives the run, and the status of what was shown."""
    session = source.file or inputs.session_of(tool, chosen.files[0], closing)
    beside = closing.enter_context(inputs.reopened(session))
    run = runs.Run(words, runs.Source(session).given(), subprocess.PIPE)
    # (the program says itself why it wrote no transcript)
    parts = itertools.takewhile(lambda it: not (isinstance(it, transcript.Broken) and it.is_empty), transcript.parts(run.output))
    return run, show.show_parts(chosen, tool, beside, parts, closing)
