"""Which calls and commands sessions make of a table in which state, and with what answers.

    cfetbl states [-o FILE] SESSION..
    cfetbl states [-o FILE] --cover

A line is a state of a table: how it was registered, whether it was loaded, what is pending, and whether a handle has its address. A
column is a call or a command, with the statuses that it was answered with in this state (`cfetbl explain` says what they mean). A dot
is a pair of a state and a call that can be reached and that the sessions don't reach; a blank one can't be reached.

What can be reached is found by a walk: over tables with one buffer, with two, and dump-only ones, with a validation function and without,
it makes each call and command once in each state that it reaches. --cover shows this walk itself. `cfetbl cfe-app --cover` makes an
application of cFE of it, so that `no difference` there is said of all these pairs.

  -o FILE   writes a page in HTML

Exit status: 0; 2 for wrong use, or if a session can't be read or is none; 4 if a write fails; 125 without a program.
"""
import contextlib
import tempfile
from collections.abc import Iterator

from tblkit import coverage, inputs, live, names, pages, programs, records
from tblkit.numbers import counted
from tblkit.streams import WRITE_FAILED, WRONG_USE, fail

TOOL = "cfetbl states"
NONE, REACHABLE = "", "."


def taken(pairs, name, open_run, closing) -> None:
    """Takes the pairs of a session."""
    running = open_run()
    for piece in records.pieces(inputs.session_of(TOOL, name, closing)):
        before = coverage.Before(running.states)
        for answer in running.ask(piece.content):
            pairs.take(answer, before)


def cell(pairs, reachable, state, call) -> str:
    """What stands in the column of a call in the line of a state."""
    found = pairs.found.get((state, call))
    return "/".join(map(str, sorted(found))) if found else REACHABLE if (state, call) in reachable.found else NONE


def table_of(pairs, reachable) -> list[tuple[str, list[str]]]:
    """The lines of the matrix: a state and its cells."""
    states = list(dict.fromkeys(state for state, _ in (*reachable.found, *pairs.found)))
    return [(state, [cell(pairs, reachable, state, call) for call in coverage.CALLS]) for state in sorted(states)]


def summary(pairs, reachable) -> str:
    reached = len(pairs.found.keys() & reachable.found.keys())
    statuses = {(call, status) for (_, call), found in pairs.found.items() for status in found}
    return (f"{reached} of {counted(len(reachable.found), 'pair')} of a state and a call that can be reached are reached; "
            f"{counted(len(statuses), 'pair')} of a call and its status")


def lines(table) -> Iterator[str]:
    """The matrix as lines of text: the names of calls stand upright above their columns' numbers."""
    widths = [max(len(call), *(len(cells[number]) for _, cells in table)) for number, call in enumerate(coverage.CALLS)]
    first = max(len(state) for state, _ in table)
    for head, cells in [("state", coverage.CALLS), *table]:
        yield f"{head:{first}}  {'  '.join(f'{it:{width}}' for it, width in zip(cells, widths))}".rstrip()


def page(table, words) -> str:
    """The matrix as a page."""
    known = names.named("status")
    heads = "".join(pages.element("th", pages.text(it)) for it in ("state", *coverage.CALLS))
    rows = [pages.element("tr", heads)]
    for state, cells in table:
        told = [pages.element("td", pages.text(it), title=_meaning(it, known)) for it in cells]
        rows.append(pages.element("tr", pages.element("td", pages.text(state)) + "".join(told)))
    return pages.page("Calls by the state of their table", pages.element("p", pages.text(words)) + pages.element("table", "\n".join(rows)), STYLE)


def _meaning(told, known) -> str | None:
    """The names of the statuses of a cell."""
    return ", ".join(f"{it} {known[int(it)].name}" for it in told.split("/")) if told not in (NONE, REACHABLE) else None


STYLE = "table { border-collapse: collapse; } td, th { border: 1px solid #ccc; padding: 2px 5px; text-align: left; }"


def add_arguments(parser) -> None:
    parser.add_argument("-o", metavar="FILE", dest="page")
    parser.add_argument("--cover", action="store_true")
    parser.add_argument("sessions", metavar="SESSION", nargs="*")


def main(chosen, parser) -> int:
    if chosen.cover == bool(chosen.sessions):
        parser.error("sessions are needed, or --cover without one")
    with contextlib.ExitStack() as closing:

        def open_run() -> live.Running:
            running = live.Running(closing.enter_context(tempfile.TemporaryDirectory()))
            closing.callback(running.finish)
            return running

        try:
            _, reachable = coverage.walks(open_run)
            pairs = reachable if chosen.cover else coverage.Pairs()
            for name in chosen.sessions:
                taken(pairs, name, open_run, closing)
        except programs.NoProgram as none:
            fail(TOOL, str(none), programs.NO_PROGRAM)
    table, told = table_of(pairs, reachable), summary(pairs, reachable)
    if chosen.page:
        try:
            with open(chosen.page, "w", encoding="utf-8") as file:
                file.write(page(table, told))
        except OSError as error:
            fail(TOOL, f"{chosen.page}: {error.strerror}", WRITE_FAILED)
    else:
        print("\n".join(lines(table)) + "\n")
    print(told)
    return 0
