"""`cfetbl test`: what tools/develop/test does, in a clone."""
import argparse
import os

from tblkit import programs
from tblkit.options import Parser

from .. import overview


def help_of(word: str) -> str:
    return overview.of_word(word, (), is_of_sessions=False)


def add_arguments(parser: Parser) -> None:
    parser.add_argument("--quick", action="store_true")


def main(chosen: argparse.Namespace, parser: Parser) -> int:
    tests = os.path.join(programs.TOP, "tools", "develop", "test")
    if not os.path.isfile(tests):
        parser.error("test needs a clone")
    os.execv(tests, [tests, *(["--quick"] if chosen.quick else [])])
