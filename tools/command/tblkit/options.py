"""The command line of a word: its help under the name that is typed, and one line about words that aren't right."""
import argparse
import sys
from collections.abc import Sequence
from typing import Any, NoReturn

from .near import meant
from .streams import WRONG_USE, fail


class _Help(argparse.Action):
    """Writes the help of its parser, and ends."""

    def __init__(self, option_strings: Sequence[str], dest: str) -> None:
        super().__init__(option_strings, dest, nargs=0)

    def __call__(self, parser: argparse.ArgumentParser, *_: Any) -> NoReturn:
        print(parser.format_help())
        sys.exit(0)


class Parser(argparse.ArgumentParser):
    """A parser of the words after `prog`, as `cfetbl show`. Options are written out, and stand before or after other words."""

    def __init__(self, prog: str, text: str = "") -> None:
        super().__init__(prog=prog, add_help=False, allow_abbrev=False)
        self.text = text
        self.add_argument("-h", "--help", action=_Help)

    def format_help(self) -> str:
        """The text that was given, as it stands."""
        return self.text.strip()

    def parse_known_args(self, args: Any = None, namespace: Any = None) -> Any:
        chosen, left = super().parse_known_args(args, namespace)
        if left:
            known = list(self._option_string_actions) if left[0].startswith("-") else []
            self.error(f"unrecognized arguments: {' '.join(left)}{meant(left[0].partition('=')[0], known)}")
        return chosen, left

    def error(self, message: str) -> NoReturn:
        fail(self.prog, f"{message} (see {self.prog} --help)", WRONG_USE)
