"""Transcripts to read.

    cfetbl show [OPTION..] SESSION TRANSCRIPT    each request of the session with its answer
    cfetbl show [OPTION..] TRANSCRIPT            the answers alone

SESSION is a session, as text or as records. TRANSCRIPT is what the service wrote for it, and - is standard input, as it is
without any name. An entry is shown with the next record of its actor, so a transcript of `cfetbl crew` is shown in the
order of turns.

A line is a request, its status, and what its detail and its reply bytes say. The packets it sent are listed below it,
with the fields that aren't 0 (rows and validators: that aren't none). With a session at hand a row, which is cFE's registry
index, is shown with the name of its table, and a refusal for the wrong handle lists the handles that the application has. Long
data is cut short. The last line is the end record. Fields have the names of tools/command/names.tsv. On a terminal, place, request and
answer are columns that fit its width; what is longer goes on below.

    --all            all fields, those of the headers too, and all data
    --json           a JSON object a line, with all fields; numbers as numbers, bytes in hexadecimal
    --end            the end record alone
    --shape NAME=SHAPE
                     prints images of this table by field, in reads, dumps, loads and files: SHAPE has the types and names
                     of its fields, as u16:limit,i16:gain,hex2:key (`cfetbl describe` takes the same). It may be given for
                     several tables, and needs the session
    --shape-of NAME=OBJ
                     the same by the object file that defines the table (`cfetbl table --help`); of more than 24 fields
                     the first ones, and with --all all of them
    --diff OTHER     the first entry that differs in the transcript OTHER, by field: TRANSCRIPT | OTHER
    --pcap FILE      writes no lines, but a capture of the session's commands and of what the service sent, which Wireshark
                     opens; tools/command/cfetbl.lua has the fields
    --color WHEN     colors for what was refused and for events: always, never or auto, which is on a terminal, if NO_COLOR isn't set
    --session-order  the lines of a transcript of `cfetbl crew` in the order of the session; requests that meet are in the order
                     of their turns. The number before a request is its place in the order of turns. Two requests meet if they
                     name the same table, file, block or slot; if both give out or take back handles, or make or delete blocks;
                     or if one sets the time and the other sends a packet. A reset, HOUSEKEEPING, RESET_COUNTERS and
                     DUMP_REGISTRY meet all others, and so does a request that is answered with 10, 42, 43, 57, 69, 71, 75, 76
                     or 85, and a LOAD that is answered with 64
    --check          looks at the words alone, and at whether the session has the tables of --shape, and writes nothing

Exit status: 0; 1 if the transcript breaks off or isn't one, or if OTHER differs; 2 for wrong use, or if a file can't be read
or a line of the session is wrong; 4 if a write fails.
"""
import contextlib
import json
import os

from tblkit import diff, inputs, order, pcap, records, shapes, show, terminal, transcript
from tblkit.near import meant
from tblkit.streams import WRONG_USE, created, fail, opened


def add_options(parser) -> None:
    """The options of how a transcript is shown."""
    for option in ("--all", "--json", "--end", "--session-order"):
        parser.add_argument(option, action="store_true")
    for option in ("--diff", "--pcap"):
        parser.add_argument(option)
    shapes.add_options(parser)
    terminal.add_option(parser)


def add_arguments(parser) -> None:
    add_options(parser)
    parser.add_argument("--check", action="store_true")
    parser.add_argument("files", nargs="*")


def look(chosen, parser) -> None:
    """Looks at what the options name, before anything is read or played."""
    chosen.shapes = shapes.of_options(parser.prog, parser, chosen)
    chosen.look = terminal.look(chosen.color)
    if chosen.pcap:
        inputs.keep(parser.prog, f"--pcap {chosen.pcap}", chosen.pcap, chosen.files)


def show_all(parts, index, chosen, capture) -> transcript.Broken | None:
    """Writes each part as it is read, and answers what stands where no whole transcript was there."""
    broken = None
    for part in parts:
        broken = part if isinstance(part, transcript.Broken) else broken
        is_answer = isinstance(part, show.Answer)
        if capture and is_answer:
            capture.add(part)
        if chosen.end and is_answer or chosen.pcap:
            continue
        if chosen.json:
            print(json.dumps(show.as_object(part, index)))
        elif is_answer:
            chosen.look.write(part, chosen.all, chosen.shapes)
        else:
            chosen.look.write_end(part, show.end_lines(part, index))
    return broken


def check(chosen, tool) -> int:
    """Looks at what the words name. A session that can be read once only is left for the play."""
    if chosen.diff is not None:
        opened(chosen.diff).close()
    if chosen.shapes and chosen.files and os.path.isfile(chosen.files[-1]):
        with contextlib.ExitStack() as closing:
            want_tables(chosen, tool, inputs.session_of(tool, chosen.files[-1], closing))
    return 0


def want_tables(chosen, tool, session) -> None:
    """Ends where a shape is that of a table which the session neither registers nor has in a file."""
    known = shapes.tables_of(session)
    for name in chosen.shapes.names:
        if name not in known:
            fail(tool, f"--shape: the session has no table {name}{meant(name, known)}", WRONG_USE)


def show_parts(chosen, tool, source, parts, closing) -> int:
    """Shows the parts of a transcript beside its session, if that is at hand, and answers the status."""
    if source and chosen.shapes:
        want_tables(chosen, tool, source)
    index = records.Index(source) if source else None
    parts = show.answers(parts, index, not chosen.diff)
    if chosen.diff:
        found = list(diff.lines(parts, inputs.parts_of(tool, chosen.diff, closing)))
        print("\n".join(found or ["no difference"]))
        return 1 if found else 0
    if chosen.session_order and not (chosen.json or chosen.end or chosen.pcap):
        parts = order.in_session_order(parts)
    with contextlib.ExitStack() as writing:
        capture = pcap.Capture(writing.enter_context(created(chosen.pcap))) if chosen.pcap else None
        broken = show_all(parts, index, chosen, capture)
    if broken and capture:
        fail(tool, f"{broken.reason}; {chosen.pcap} has what came before", 1)
    return 1 if broken else 0


def main(chosen, parser) -> int:
    if len(chosen.files) > 2:
        parser.error("at most a session and a transcript")
    look(chosen, parser)
    if chosen.shapes and len(chosen.files) < 2 and not chosen.check:
        parser.error("--shape needs the session before the transcript")
    if chosen.check:
        return check(chosen, parser.prog)
    *session, name = chosen.files or ["-"]
    with contextlib.ExitStack() as closing:
        source = inputs.session_of(parser.prog, session[0], closing) if session else None
        return show_parts(chosen, parser.prog, source, inputs.parts_of(parser.prog, name, closing), closing)
