"""`cfetbl drill`: plays a session that a seed decides, and prints how many of its requests were answered how."""
import argparse
import contextlib
import subprocess

from tblkit import programs, runs, stores
from tblkit.options import Parser
from tblkit.progress import Ticker, span
from tblkit.streams import WRONG_USE, say

from .. import overview

NUMBERS = "a seed is a number below 2^64, and a number of rounds one from 0 to 32,759, both without leading zeros"
# What each number of the program's line is.
MEANINGS = {
    "entries": "requests were played: 9 that begin a drill, and one for each round",
    "success": "of them were answered with status 0",
    "info": "with a status from 1 to 31, as 9 if a table is locked",
    "refused": "with a status from 32 on",
    "images": "{} went active; one that is recovered from the store counts too",
}


def help_of(word: str) -> str:
    return overview.of_word(word, ("Options:", "Status:"), is_of_sessions=False)


def add_arguments(parser: Parser) -> None:
    stores.add_written(parser)
    parser.add_argument("numbers", nargs="*", metavar="NUMBER")


def lines(line: str) -> list[str]:
    """The line of a drill, and below it what each number of it is."""
    words = line.split()
    found = dict(zip(words[::2], words[1::2]))
    noun = "image" if found.get("images") == "1" else "images"
    return [line.rstrip("\n"), *(f"  {name:8} {found.get(name, ''):>6}  {said.format(noun)}" for name, said in MEANINGS.items())]


def main(chosen: argparse.Namespace, parser: Parser) -> int:
    if len(chosen.numbers) != 2:
        parser.error("drill takes a seed and a number of rounds")
    tool = parser.prog
    # It begins with a power-on, so it is played over the store file here only if that is named.
    chosen.store = stores.NONE if chosen.store is None else chosen.store
    with contextlib.ExitStack() as closing:
        opening = stores.opening(tool, chosen, closing)
        run = runs.Run([programs.needed("play"), *opening, "drill", *chosen.numbers], subprocess.DEVNULL, subprocess.PIPE)
        with Ticker(lambda seconds: f"{tool}: at work, {span(seconds)} so far"):
            line = run.output.read() if run.output else b""
            status = run.finish()
        if status == WRONG_USE:
            say(f"{tool}: {NUMBERS}")
        else:
            runs.tell(tool, status, run.said, programs.store_of(opening), runs.Source(is_whole=False))
    if not status:
        print("\n".join(lines(line.decode("latin-1"))))
    return status
