"""The commands and packets as a definition in XTCE 1.2, for ground systems.

    cfetbl xtce [-o FILE] [--cfe-layout [--big-endian] [--event-ids HEADER]] [--base CONTAINER]

It is written to FILE or to standard output. With --cfe-layout it is of cFE's default layouts, in which `cfetbl serve --cfe-layout`
sends its telemetry, and without it of those of docs/reference/packets.md. In cFE's layouts the numbers in payloads begin with their low
byte, as on most processors; with --big-endian they begin with the high one. --event-ids takes the numbers of events
from your cfe_tbl_eventids.h.

Packets begin with the abstract container `packet`, and commands with the abstract command `command`, which has the primary header
of CCSDS. Each entry says its place from the start of the whole packet. With --base the container `packet` extends one of another
database, such as /CCSDS/tm_packet, whatever that reads of the headers.

XTCE can't state the checksum of a command: it is a fixed zero byte. The ground system sets it, so that the exclusive or of 0xFF
and all bytes is 0, or the service takes any (`cfetbl serve --any-checksum`, and always with --cfe-layout).

Exit status: 0; 2 for wrong use; 4 if a write fails.
"""
from tblkit import definitions, xtce


def add_arguments(parser) -> None:
    definitions.add_arguments(parser)
    parser.add_argument("--base", metavar="CONTAINER")


def main(chosen, parser) -> int:
    return definitions.write(chosen, parser, lambda known: xtce.definition(known, chosen.base))
