"""What crash tests found: the reports that a program with cfetbl_crash.h writes, and their page."""
import json
from collections.abc import Iterator
from dataclasses import dataclass, field
from typing import Any

from .numbers import counted
from .pages import element, fitting, legend, page, swatch, table, text

# What comes of a trouble, by its word in a report: the kind of its bar, and what is said of it.
OUTCOMES = {"holds": ("holds", "the application starts, and the invariant holds"),
            "not up": ("crossed not-up", "the application doesn't start"),
            "broken": ("stripes broken", "the invariant doesn't hold"),
            "hangs": ("dotted hangs", "the application doesn't return in time"),
            "dies": ("empty dies", "the application's process ends")}
HEADS = ("write", "bytes", "call", "line of the application", "what is written", "a reset after so many bytes, from 0 to all", "what comes")
FINDING_HEADS = ("finding", "trouble", "what comes", "the restart was answered")
STYLE = """\
.holds { --color: var(--validated); } .not-up { --color: var(--refused); } .broken { --color: var(--open); }
.hangs { --color: var(--rejected); } .dies { --color: var(--reset); }
.writes { width: 100%; } .writes th:nth-child(6) { width: 24%; } .writes th:nth-child(7) { width: 24%; }
@media (min-width: 1000px) { .writes th:nth-child(-n+2), .writes td:nth-child(3) { white-space: nowrap; } }
.bytes { display: flex; min-width: 160px; margin-top: 2px; }
.bytes .bar { flex: 1 1 0; min-width: 4px; height: 17px; margin-right: 1px; }
"""


class NoReport(Exception):
    """A line is no report."""


@dataclass(frozen=True)
class Place:
    """A write, and after how many of its bytes a trouble comes: from the first to the last number. One of no bytes is the scenario's end.
    Troubles were tried at so many places in it."""
    write: int
    first: int
    last: int
    length: int
    at: int
    places: int
    call: int
    name: str
    line: str
    what: str

    @property
    def after(self) -> str:
        return f"{self.first} to {self.last}" if self.first != self.last else str(self.first)

    @property
    def step(self) -> int:
        """How many bytes are between the places that were tried."""
        return -(-self.length // self.places) if self.places else 1

    @property
    def bytes(self) -> str:
        return str(self.length) if self.step == 1 else f"{self.length} (each {self.step}. tried)"


@dataclass(frozen=True)
class Finding:
    """What was found in troubles in a row."""
    kind: str
    outcome: str
    count: int
    place: Place
    second: Place | None
    returned: str
    answers: str
    why: str

    @property
    def words(self) -> str:
        """What comes of it."""
        if self.outcome == "not up":
            return f"the restart returned {self.returned}"
        return self.why or OUTCOMES[self.outcome][1]

    @property
    def trouble(self) -> str:
        """What comes in which way."""
        if not self.place.length:
            return "at the end of the scenario" if self.kind == "end" else f"{self.kind} at the end of the scenario"
        words = f"{self.kind.removeprefix('second ')} in write {self.place.write}, after {self.place.after} of {self.place.length}"
        if self.second:
            words += f", and one in the restart's write {self.second.write}, after {self.second.after} of {self.second.length}"
        return f"{words} ({self.count} times)" if self.count > 1 else words


@dataclass
class Report:
    """A report with its lines as text."""
    told: dict[str, Any]
    lines: list[str]
    writes: list[Place] = field(default_factory=list)
    findings: list[Finding] = field(default_factory=list)

    @property
    def is_whole(self) -> bool:
        return self.told["whole"]


def _finding(told) -> Finding:
    second = told.get("second")
    return Finding(**(told | {"place": Place(**told["place"]), "second": Place(**second) if second else None}))


def read(told, lines) -> Report:
    """The report of an object that a program wrote."""
    try:
        report = Report(told, lines, [Place(**it) for it in told["writes"]], [_finding(it) for it in told["findings"]])
        if not isinstance(report.is_whole, bool) or any(it.outcome not in OUTCOMES for it in report.findings):
            raise NoReport("a report has another form")
        return report
    except (KeyError, TypeError):
        raise NoReport("a report has another form") from None


class Reader:
    """Takes what a program writes, a line at a time: progress, the lines of a report as text, and the report itself."""

    def __init__(self) -> None:
        self.reports, self.progress, self._lines = [], {}, []

    def take(self, line: str) -> None:
        if not line.startswith("{"):
            self._lines.append(line)
            return
        try:
            told = json.loads(line)
        except ValueError:
            raise NoReport("a report is cut off") from None
        if "progress" in told:
            self.progress = told["progress"]
            return
        self.reports.append(read(told, self._lines))
        self._lines, self.progress = [], {}

    def end(self) -> None:
        """The program has ended."""
        if self._lines:
            raise NoReport("a report is cut off")


def tell(progress, seconds) -> str:
    """How far a test is, by what it told last."""
    if not progress:
        return f"the scenario is played; {seconds} so far"
    failed = f", {progress['failed']} with a finding" if progress["failed"] else ""
    return f"{counted(progress['tried'], 'trouble')} tried{failed}, write {progress['write']} of {progress['writes']}; {seconds} so far"


# ---- the page

def _bar(write, findings) -> str:
    """The bytes of a write from left to right, by what comes of a reset after them."""
    parts, at = [], 0
    for first, last, outcome, words in _spans(write, findings):
        kind, _ = OUTCOMES[outcome]
        after = f"{first} to {last}" if first != last else str(first)
        parts.append(element("span", fitting(after), class_=f"bar {kind}", style=f"flex-grow: {last - first + 1}", data_write=write.write,
                             data_from=first, data_to=last, data_outcome=outcome, title=f"after {after} of {write.length} bytes: {words}"))
        at = last + 1
    return element("div", "".join(parts), class_="bytes") if at else ""


def _spans(write, findings) -> Iterator[tuple[int, int, str, str]]:
    """The bytes of a write in pieces by what comes of a reset after them. What has no finding holds. Where not each byte was tried, what
    comes at one goes up to the next."""
    at = 0
    for it in sorted(findings, key=lambda it: it.place.first):
        last = min(it.place.last + write.step, write.length) - 1
        if it.place.first > at:
            yield at, it.place.first - 1, "holds", OUTCOMES["holds"][1]
        yield it.place.first, last, it.outcome, it.words
        at = last + 1
    if at < write.length:
        yield at, write.length - 1, "holds", OUTCOMES["holds"][1]


def _rows(report) -> Iterator[tuple[str, ...]]:
    for write in report.writes:
        found = [(number, it) for number, it in enumerate(report.findings, 1) if it.place.write == write.write and it.place.length]
        resets = [it for _, it in found if it.kind == "reset"]
        said = [element("div", text(f"{number}. {it.kind} after {it.place.after}: {it.words}")) for number, it in found]
        yield (*map(text, (str(write.write), write.bytes, f"{write.call} {write.name}", write.line, write.what)), _bar(write, resets), "".join(said))


def _finding_rows(report) -> Iterator[tuple[str, ...]]:
    for number, it in enumerate(report.findings, 1):
        yield (*map(text, (str(number), it.trouble, it.words)), "".join(element("div", text(answer)) for answer in it.answers.split(", ") if answer))


def _section(report, number) -> Iterator[str]:
    if number:
        yield element("h2", text(f"Test {number}"))
    heads = [it for it in report.lines if it.startswith(("crash test over ", "tried: ", "not all was tried: ", "no finding"))]
    yield element("pre", text("\n".join(heads)))
    if report.writes:
        yield table(HEADS, _rows(report), class_="cards writes")
    if report.findings:
        yield table(FINDING_HEADS, _finding_rows(report), class_="cards")


def html(name, reports) -> str:
    """The page of the reports of a program."""
    title = f"Crash test {name}"
    body = [element("h1", text(title)), legend([(swatch(kind), words) for kind, words in OUTCOMES.values()])]
    for number, report in enumerate(reports, 1):
        body += _section(report, number if len(reports) > 1 else 0)
    return page(title, "\n".join(body), STYLE)
