"""A session as a page to look at.

    cfetbl report [OPTION..] SESSION               plays the session, and makes a page of it
    cfetbl report [OPTION..] SESSION TRANSCRIPT    makes a page of a transcript that you kept

    -o FILE                        writes the page to FILE
    --store FILE, --durable        where the Critical Data Store is, and whether its writes are synced; for a session that is played
    --shape NAME=SHAPE, --shape-of NAME=OBJ
                                   shows images of the table by field, as `cfetbl show` does

The page is one file in HTML, written to FILE or to standard output. It needs no network, but a browser of 2023 or later. It begins
with counts: requests, refusals by status, images by table, and events. Below is a time line with a place for each request: who made
it, and for each table from where to where it was registered, which image was active, how its load or its dump went on, which handles
held its address, and which requests about it were refused, with their status. A reset is a line through all. You can zoom, by buttons
or by dragging over the strip above it, and show all requests or those of a table, with a status, with an event, or with some words.
Each of these is listed below with its answer and its packets, as by `cfetbl play --show`. A click on one marks the other, and the
arrow keys go from one to the next. Of a transcript that breaks off the page has what is there.

All of it is worked out from the session and its transcript. SESSION is text or records; - is standard input. The Critical Data
Store is cds.store of the working folder, or the FILE of --store; none is a fresh one that is thrown away. --durable syncs it
after each write.

Exit status: that of the run, if it is played; 1 if the transcript breaks off, isn't one or is of another session; 2 for wrong use,
or if a file can't be read or a line of the session is wrong; 4 if a write fails; 125 without a program.
"""
import contextlib
import os
from typing import Any

from tblkit import inputs, locks, matching, programs, records, report, shapes, show, stores, transcript
from tblkit.programs import STORE, STORE_FAILED
from tblkit.progress import Ticker, span
from tblkit.streams import fail, output_to, say

TOOL = "cfetbl report"


def add_arguments(parser) -> None:
    parser.add_argument("-o", dest="output", default="-")
    parser.add_argument("session", nargs="?")
    parser.add_argument("transcript", nargs="?")
    stores.add_written(parser)
    shapes.add_options(parser)


def look(chosen, parser) -> None:
    """Looks at the words before anything is played."""
    if chosen.session is None:
        parser.error("a session is missing")
    if chosen.transcript and (chosen.store or chosen.durable):
        parser.error("--store and --durable are for a session that is played, and with a transcript none is")
    chosen.shapes = shapes.of_options(TOOL, parser, chosen)
    if chosen.output != "-":
        inputs.keep(TOOL, f"-o {chosen.output}", chosen.output, [it for it in (chosen.session, chosen.transcript) if it])


def report_of(chosen, closing) -> tuple[report.Report, Any, int]:
    """The report of a session, the last part of its transcript, and the status of the run, which is 0 if it isn't played here."""
    session = inputs.session_of(TOOL, chosen.session, closing, say)
    index, status = records.Index(session), 0
    progress = report.Progress(session, index)
    with Ticker(lambda seconds: f"{TOOL}: {progress.words()}; {span(seconds)} so far"):
        if chosen.transcript is None:
            parts, status = inputs.played(TOOL, session, closing, stores.opening(TOOL, chosen, closing))
        else:
            parts = inputs.parts_of(TOOL, chosen.transcript, closing)
        answers = list(show.answers(parts, index))
        # A transcript that was kept is held against the session.
        following = matching.Match() if chosen.transcript is not None else None
        made = report.Report(f"Session {os.path.basename(chosen.session)}", index, chosen.shapes, following)
        try:
            for progress.done, part in enumerate(answers, 1):
                made.add(part)
            if following:
                matching.look_at_rest(answers, index)
        except matching.Another:
            fail(TOOL, "the transcript is of another session", 1)
        return made, answers[-1], status


def main(chosen, parser) -> int:
    look(chosen, parser)
    with contextlib.ExitStack() as closing:
        made, last, status = report_of(chosen, closing)
        is_broken = isinstance(last, transcript.Broken)
        # If the store can't be opened nothing was played. The program has said why, but not whose process has it.
        if is_broken and status == STORE_FAILED:
            if owner := locks.in_use(chosen.store or STORE):
                say(f"{TOOL}: {owner}")
            return status
        output_to(chosen.output, closing).write(made.page())
    if status:
        fail(TOOL, programs.end_words(status, chosen.store or STORE), status)
    if is_broken:
        fail(TOOL, f"{last.reason}; the page has {made.had()}", 1)
    return 0
