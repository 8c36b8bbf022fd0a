"""The commands and packets as definitions of COSMOS (OpenC3), for ground systems.

    cfetbl cosmos [-o FILE] [--cfe-layout [--big-endian] [--event-ids HEADER]]

They are written to FILE or to standard output, as one file for the folder cmd_tlm/ of a target that is called CFE_TBL.
With --cfe-layout they are of cFE's default layouts, in which `cfetbl serve --cfe-layout` sends its telemetry, and without it of those
of docs/reference/packets.md. In cFE's layouts the numbers in payloads begin with their low byte, as on most processors; with --big-endian
they begin with the high one. --event-ids takes the numbers of events from your cfe_tbl_eventids.h.

The definitions leave the checksum of a command 0. The ground system sets it, so that the exclusive or of 0xFF and all bytes is 0,
or the service takes any (`cfetbl serve --any-checksum`, and always with --cfe-layout).

Exit status: 0; 2 for wrong use; 4 if a write fails.
"""
from tblkit import cosmos, definitions


def add_arguments(parser) -> None:
    definitions.add_arguments(parser)


def main(chosen, parser) -> int:
    return definitions.write(chosen, parser, cosmos.definition)
