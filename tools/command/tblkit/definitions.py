"""The words of the tools that write definitions for ground systems."""
import contextlib

from . import cfe, cfe_events, dictionary
from .streams import WRONG_USE, fail, output_to


def add_arguments(parser) -> None:
    """The words that name a layout."""
    for option in ("--cfe-layout", "--big-endian"):
        parser.add_argument(option, action="store_true")
    parser.add_argument("--event-ids", metavar="HEADER")
    parser.add_argument("-o", dest="output", default="-")


def write(chosen, parser, made_of) -> int:
    """Writes the definition that is made of the commands and packets in the layout that the words name."""
    if (chosen.big_endian or chosen.event_ids) and not chosen.cfe_layout:
        parser.error(f"{'--big-endian' if chosen.big_endian else '--event-ids'} needs --cfe-layout")
    try:
        numbers = cfe_events.numbers_of(chosen.event_ids)
    except cfe_events.WrongHeader as wrong:
        fail(parser.prog, str(wrong), WRONG_USE)
    known = dictionary.Dictionary(chosen.cfe_layout, cfe.BIG if chosen.big_endian else cfe.LITTLE, numbers)
    with contextlib.ExitStack() as closing:
        output_to(chosen.output, closing).write(made_of(known))
    return 0
