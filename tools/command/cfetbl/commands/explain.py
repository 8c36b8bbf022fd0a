"""What statuses and events mean, and what cFE's words are here.

    cfetbl explain NUMBER               the status, the event and the end of a run that have this number
    cfetbl explain NAME                 those of this name, or of a name that has it as a part, as NOT_VALIDATED
    cfetbl explain WORD                 what a word of cFE is here: a return code, the id of an event, the code of a command, a message id, a
                                        call, an option or a limit, as CFE_TBL_ERR_NEVER_LOADED or CFE_PLATFORM_TBL_MAX_NUM_TABLES
    cfetbl explain status|event|run ..  the same as NUMBER or NAME, of these alone
    cfetbl explain                      the numbers and names of all, and cFE's words

It says what each is called in cFE, what it means, when it is returned or sent, and what to do. `run` is the status with which the program
ends. docs/reference/statuses.md has all of them as an index, made of the same table (tools/command/names.tsv), and the order in which refusals are
tested. What is said of cFE is said of its default configuration as far as this project knows it.

Exit status: 0; 2 if there is no such number or name; 4 if a write fails.
"""
import textwrap
from collections.abc import Iterator
from typing import NoReturn

from tblkit import names
from tblkit.near import meant
from tblkit.streams import WRONG_USE, fail

TOOL, WIDTH = "cfetbl explain", 100
REFUSED = "it is sent as a command is refused; here that is event 2, which has the status"


def is_meant(word, one) -> bool:
    """Whether a word is the number of one, or its name or a part of it."""
    return str(one.number) == word if word.isdigit() else word.lower() in one.name.lower()


def found(word, chosen) -> list[tuple[str, names.Named]]:
    """What is meant by a word: those of just this name, if there are any."""
    met = [it for it in chosen if is_meant(word, it[1])]
    return [it for it in met if it[1].name.lower() == word.lower()] or met


def found_words(word) -> list[names.Word]:
    """cFE's words that are meant."""
    met = [it for it in names.cfe_words() if word.lower() in it.name.lower()]
    return [it for it in met if it.name.lower() == word.lower()] or met


def refuse(word, chosen) -> NoReturn:
    known = [it.name for _, it in chosen] + [it.name for it in names.cfe_words()]
    near = meant(word, known) or "; without a word it lists the numbers and names of all"
    fail(TOOL, f"no status, event, end of a run or word of cFE is called {word}{near}", WRONG_USE)


def lines(kind, one) -> list[str]:
    """What is told of a status, an event or an end of a run."""
    told: list[tuple[str, str]] = list(zip(("means", "when", "to do"), names.explained()[kind, one.number]))
    told = [("in cFE", ", ".join(names.in_cfe(kind, one.number))), *told]
    return [f"{kind} {one.number} {one.name}", *filled(told)]


def filled(told) -> list[str]:
    return [textwrap.fill(f"{head}: {words}", WIDTH, initial_indent="  ", subsequent_indent=" " * 9, break_on_hyphens=False)
            for head, words in told if words]


def word_blocks(word) -> Iterator[list[str]]:
    """What is told of a word of cFE, and then of what it is here."""
    said = word.said or (REFUSED if word.kind == "status" else "")
    yield [word.name, *filled([("here", word.here()), ("means", said)])]
    key = word.section, int(word.number, 0) if word.section else 0
    if key in names.explained():
        yield lines(word.section, names.named(word.section)[key[1]])


def add_arguments(parser) -> None:
    parser.add_argument("words", nargs="*")


def main(chosen, _parser) -> int:
    words = chosen.words
    section = words.pop(0) if words and words[0] in names.EXPLAINED else None
    known = [(kind, it) for kind in ([section] if section else names.EXPLAINED) for it in names.named(kind).values()
             if (kind, it.number) in names.explained()]
    if not words:
        print("\n".join(f"{kind} {it.number} {it.name}" for kind, it in known))
        if section is None:
            print("\n".join(f"{it.name}: {it.here()}" for it in names.cfe_words()))
        return 0
    word = " ".join(words)
    met = [lines(*it) for it in found(word, known)]
    if not met and section is None:
        met = [block for it in found_words(word) for block in word_blocks(it)]
    print("\n\n".join("\n".join(it) for it in met or refuse(word, known)))
    return 0
