"""The command line: a tree with a parser for each word. The module of a word is read once the word is taken."""
import argparse
import importlib
import os
import subprocess
import sys
from typing import Any, NoReturn, Protocol, cast

from tblkit import programs
from tblkit.near import meant
from tblkit.options import Parser
from tblkit.streams import WRONG_USE, fail, run

from . import overview

TOOL = "cfetbl"
# Each word, and the module of `commands` that does it.
WORDS = {
    "play": "play", "crew": "play", "watch": "watch", "drill": "drill", "resets": "resets", "repl": "repl", "serve": "serve", "call": "call",
    "text": "text", "show": "show", "report": "report", "make": "table_files", "describe": "table_files", "file": "table_files",
    "table": "table", "store": "store", "map": "map", "xtce": "xtce", "cosmos": "cosmos", "compare": "compare", "cfe-app": "cfe_app",
    "states": "states", "crash-test": "crash_test", "explain": "explain", "test": "test", "help": "help"}
# What the front command does itself, and the word by which it has the end of a run told.
OF_THE_FRONT, ENDED = ("--version", "--program"), "--ended"
HELP = ("-h", "--help")


class Command(Protocol):
    """What the module of a word has. Its own text is the help, but where it has a `help_of` for each of its words."""

    def add_arguments(self, parser: Parser) -> None:
        """Adds what the word takes."""

    def main(self, chosen: argparse.Namespace, parser: Parser) -> int:
        """Does it, and answers the status."""


class Word(Parser):
    """The parser of a word, which is empty until it is asked for something."""

    def __init__(self, prog: str) -> None:
        super().__init__(prog)
        self.word, self._command = prog.split()[-1], cast("Command | None", None)

    def command(self) -> Command:
        """The module of the word, by which the parser is filled."""
        if self._command is None:
            self._command = cast(Command, importlib.import_module(f"{__package__}.commands.{WORDS[self.word]}"))
            self.text = getattr(self._command, "help_of", lambda _: self._command.__doc__)(self.word)
            self._command.add_arguments(self)
        return self._command

    def parse_known_args(self, args: Any = None, namespace: Any = None) -> Any:
        self.command()
        chosen, left = super().parse_known_args(args, namespace)
        chosen.parser = self
        return chosen, left


class Tree(Parser):
    """The parser of the whole command line."""

    def __init__(self) -> None:
        super().__init__(TOOL)
        branches = self.add_subparsers(dest="word", parser_class=Word)
        self.words: dict[str, Word] = {word: branches.add_parser(word) for word in WORDS}

    def format_help(self) -> str:
        return overview.text()


def refuse(reason: str) -> NoReturn:
    """Ends for words that aren't right."""
    fail(TOOL, f"{reason} (see {TOOL} --help)", WRONG_USE)


def refuse_word(word: str, is_first: bool = True) -> NoReturn:
    """Ends for a word that isn't known."""
    if is_first and os.path.isfile(word):
        refuse(f"{word} is a file, not a word: `cfetbl play --show {word}` plays it if it is a session")
    refuse(f"{word} isn't known{meant(word, WORDS)}")


def status_of(words: list[str]) -> int:
    """Does what the words of a command line say, and answers the status."""
    if not words:
        refuse("no words were given")
    if words[0] in OF_THE_FRONT:
        return subprocess.run([programs.front() or TOOL, *words], check=False).returncode
    if words[0] == ENDED:
        from tblkit import runs

        return runs.told(*words[1:])
    if words[0] not in (*WORDS, *HELP):
        refuse_word(words[0])
    if words[0] in HELP and len(words) > 1:
        refuse(f"{words[0]} takes no further word")
    chosen = Tree().parse_args(words)
    return chosen.parser.command().main(chosen, chosen.parser)


def main() -> None:
    """Does what the command line says."""
    word = sys.argv[1] if len(sys.argv) > 1 else ""
    run(f"{TOOL} {word}" if word in WORDS else TOOL, status_of)
