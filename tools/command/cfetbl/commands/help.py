"""The help of the command line, or of a word of it.

    cfetbl help [WORD]
"""
import argparse

from tblkit.options import Parser

from .. import command_line, overview


def add_arguments(parser: Parser) -> None:
    parser.add_argument("words", nargs="*")


def main(chosen: argparse.Namespace, _parser: Parser) -> int:
    if len(chosen.words) > 1:
        command_line.refuse("help takes one word at most")
    if chosen.words and chosen.words[0] not in command_line.WORDS:
        command_line.refuse_word(chosen.words[0], is_first=False)
    word = command_line.Tree().words[chosen.words[0]] if chosen.words else None
    if word:
        word.command()
    print(word.format_help() if word else overview.text())
    return 0
