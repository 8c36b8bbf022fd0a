"""A session as a page: a summary, its time line as a picture, and each request with its answer.

The page has the session packed, and report.js draws what is in view.
"""
import base64
import json
import os
import zlib
from collections.abc import Iterator
from typing import Any

from . import names, show, transcript
from .numbers import counted
from .pages import beside, element, legend, page, picture, table, text
from .timeline import Timeline

PACKING = 6
# How many rows of the summary stand in the page at most.
MOST_ROWS = 200
BUTTONS = (("earlier", "earlier"), ("later", "later"), ("in", "zoom in"), ("out", "zoom out"), ("all", "whole session"))


class Progress:
    """How far the work is: what of the session the program has read, and then how many of its requests are in the page."""

    def __init__(self, session, index) -> None:
        self._session, self._count = session, index.count
        self.done: int | None = None
        self._size = session.seek(0, os.SEEK_END)

    def words(self) -> str:
        if self.done is None:
            # The program moves the place in the file that it shares with this tool.
            return f"{os.lseek(self._session.fileno(), 0, os.SEEK_CUR):,} of {self._size:,} bytes of the session were played"
        return f"{min(self.done, self._count):,} of {self._count:,} requests are in the page"


class Report:
    """A page that is made as a session's answers come. `following` is that of its time line."""

    def __init__(self, title, index, shapes=None, following=None) -> None:
        self._title, self._index, self._shapes = title, index, shapes
        self.timeline, self._lines, self._events, self._end = Timeline(following), [], {}, ""

    def add(self, part) -> None:
        """Takes the next part of the transcript."""
        if not isinstance(part, show.Answer):
            self._end = show.end_lines(part, self._index)
            if isinstance(part, transcript.Broken):
                self._end += f"; the page has {self.had()}"
            return
        place = self.timeline.length
        self.timeline.add(part)
        self._lines.append("\n".join(show.lines(part, shapes=self._shapes)))
        for number in {it.told.number for it in part.packets if it.told}:
            self._events.setdefault(number, []).append(place)

    def had(self) -> str:
        """How many requests it has, of how many."""
        return f"{self.timeline.length:,} of the {counted(self._index.count, 'request')} of the session"

    def content(self) -> dict[str, Any]:
        """What the page's script draws: columns by the places of the requests, and lanes."""
        marks, actors = self.timeline.marks, sorted(self.timeline.actors)
        asked = sorted({it.request for it in marks})
        by_actor, by_request = ({it: at for at, it in enumerate(some)} for some in (actors, asked))
        return {
            "requests": asked, "actors": [{"number": it, "name": self.timeline.actor_words(it)} for it in actors],
            "statuses": _names_of("status", {it.status for it in marks}), "phases": PHASES,
            "actor": [by_actor[it.actor] for it in marks], "request": [by_request[it.request] for it in marks],
            "status": [it.status for it in marks], "lines": self._lines, "end": self._end,
            "refused": [it.place for it in marks if it.is_refused], "resets": [it.place for it in self.timeline.resets],
            "events": self._events, "tables": [_table(it) for it in self.timeline.tables.values()]}

    def page(self) -> str:
        """The page, once all parts were taken."""
        self.timeline.end()
        content = self.content()
        body = [element("h1", text(self._title)), element("p", text(self._end), class_="end"), *_summary(self.timeline, content),
                _controls(content), _picture(content), element("h2", "Requests and answers"), element("div", id="log"),
                element("p", text(self._end), class_="end"), packed(content)]
        return page(self._title, "\n".join(body), beside("report.css"), beside("report.js"))


def packed(content) -> str:
    """An object in a page, as its script reads it: JSON, deflated, in base 64."""
    said = zlib.compress(json.dumps(content, separators=(",", ":")).encode("ascii"), PACKING)
    return element("script", base64.b64encode(said).decode("ascii"), type="application/octet-stream", id="session")


def unpacked(markup) -> Any:
    """The object in a page."""
    said = markup.split('id="session">')[1].split("<")[0]
    return json.loads(zlib.decompress(base64.b64decode(said)))


def _names_of(section, numbers) -> dict[int, str]:
    known = names.named(section)
    return {it: known[it].name for it in sorted(numbers) if it in known}


def _table(lane) -> dict[str, Any]:
    """A table for the script: its spans, and the places of what is about it and of what was refused."""
    spans = [(it.first, it.last, it.kind, it.words, it.number) for it in sorted(lane.spans, key=lambda it: it.first)]
    return {"name": lane.name, "spans": spans, "refusals": [it.place for it in lane.marks], "about": lane.about}


# ---- what stands above the picture

def _link(place) -> str:
    return element("a", str(place), href=f"#entry-{place}")


def _counts(title, heads, rows) -> str:
    """A table of counts with its title; nothing if it has no row, and of many rows the first ones."""
    if not rows:
        return ""
    more = element("p", f"and {len(rows) - MOST_ROWS:,} more") if len(rows) > MOST_ROWS else ""
    return element("div", element("h3", title) + table(heads, rows[:MOST_ROWS]) + more)


def _by_number(section, places) -> list[tuple[str, str, str]]:
    """Rows of the numbers of a section: what it is, how often it came, and the first request with it."""
    known = _names_of(section, places)
    rows = sorted(places.items(), key=lambda it: (-len(it[1]), it[0]))
    return [(text(f"{number} {known.get(number, '')}".rstrip()), f"{len(some):,}", _link(some[0])) for number, some in rows]


def _summary(timeline, content) -> Iterator[str]:
    """How many requests there were and were refused, by actor, status, event and table; then the legend."""
    statuses = {}
    for place in content["refused"]:
        statuses.setdefault(content["status"][place], []).append(place)
    actors = [(text(it["name"]), f"{len(lane.marks):,}", f"{sum(mark.is_refused for mark in lane.marks):,}")
              for it in content["actors"] for lane in [timeline.actors[it["number"]]]]
    tables = [(text(it.name), f"{sum(span.kind == 'image' for span in it.spans):,}", f"{len(it.marks):,}", f"{len(it.about):,}")
              for it in timeline.tables.values()]
    total = ("all", f"{timeline.length:,}", f"{len(content['refused']):,}")
    found = [_counts("Requests", ("actor", "requests", "refused"), [*actors, total]),
             _counts("Refusals", ("status", "times", "first"), _by_number("status", statuses)),
             _counts("Tables", ("table", "images", "refusals", "requests"), tables),
             _counts("Events", ("event", "times", "first"), _by_number("event", content["events"]))]
    yield element("section", "".join(found), class_="summary", aria_label="Summary")
    yield PATTERNS + legend([(_sample(it), words) for it, words in LEGEND])


def _sample(mark) -> str:
    """A mark in the legend."""
    return picture(22, 13, mark, aria_hidden="true")


def _bar(kind) -> str:
    return element("rect", x=1, y=2, width=20, height=9, class_=kind)


# The phases of loads and dumps, with the classes of their bars.
PHASES = {"load open": "load-open", "validation pending": "load-pending", "load rejected": "load-rejected", "load validated": "load-validated",
          "activation asked": "load-asked", "dump asked": "dump-asked", "dump filled": "dump-filled"}
LEGEND = ((element("circle", cx=11, cy=7, r=5, class_="accepted"), "accepted"),
          (element("path", d="M11 2l5 9h-10z", class_="refused"), "refused, with its status; \u00d7: how many with it; +: others"),
          (element("line", x1=11, x2=11, y1=0, y2=13, class_="reset") + element("path", d="M6 1h10l-5 9z", class_="reset-mark"), "reset"),
          *((_bar(kind), words) for words, kind in PHASES.items()),
          ("".join(element("rect", x=1 + 5 * it, y=2, width=5, height=9, class_=f"image-{it}") for it in range(4)), "active image, each in the next color"),
          (_bar("recovered"), "image recovered from the Critical Data Store"), (_bar("many"), "several, too short to tell apart"),
          (element("rect", x=1, y=5, width=20, height=4, class_="held"), "address held"), (_bar("registered"), "registered"),
          (_bar("cursor"), "the request that is marked"))


def _pattern(name, kind, size, lines) -> str:
    return element("pattern", element("path", d=lines, class_=f"pattern-{kind}", fill="none", stroke_width=1.5), id=name, width=size, height=size,
                   patternUnits="userSpaceOnUse")


PATTERNS = element("svg", element("defs", _pattern("dots", "pending", 4, "M1 2h1.5") + _pattern("crosses", "rejected", 5, "M0 0l5 5M5 0l-5 5")
                                  + _pattern("stripes", "validated", 5, "M-1 6L6 -1") + _pattern("lines", "dump", 3, "M1 0v3")),
                   class_="defs", aria_hidden="true")


# ---- the picture

def _choice(name, words, options) -> str:
    """A choice with its label."""
    return element("label", text(words) + element("select", "".join(element("option", text(said), value=value) for value, said in options), id=name))


def _controls(content) -> str:
    """What chooses requests, and which part of the session is in the picture."""
    kinds = [("all", "all"), ("refused", "refused")]
    kinds += [(f"status-{it}", f"status {it} {content['statuses'].get(it, '')}".rstrip()) for it in sorted({content["status"][at] for at in content["refused"]})]
    known = _names_of("event", content["events"])
    kinds += [(f"event-{it}", f"event {it} {known.get(it, '')}".rstrip()) for it in sorted(content["events"])]
    tables = [("", "all"), *((str(at), it["name"]) for at, it in enumerate(content["tables"]))]
    bounds = {"type": "number", "min": 0, "max": max(0, len(content["status"]) - 1)}
    part = [element("label", f"{words} " + _empty("input", id=name, **bounds)) for name, words in (("from", "from request"), ("to", "to"))]
    buttons = [element("button", words, type="button", data_do=name) for name, words in BUTTONS]
    chosen = [_choice("kind", "Requests", kinds), _choice("table", "Table", tables),
              element("label", "Words " + _empty("input", type="search", id="words")), element("output", id="count", aria_live="polite")]
    return element("div", "".join(chosen) + element("span", "".join(part + buttons)), id="controls", role="group", aria_label="What is shown")


def _empty(name, **attributes) -> str:
    """An element that has no content."""
    return element(name, **attributes).removesuffix(f"</{name}>")


def _lane(kind, name, **more) -> str:
    drawn = element("div", element("svg", role="img", aria_label=f"{kind} {more.get('said', '')}".strip()))
    own = {key: value for key, value in more.items() if key != "said"}
    return element("div", name + drawn, class_="lane", data_kind=kind, **own)


def _picture(content) -> str:
    """Where the script draws: a strip of the whole session, and lanes of the part that is chosen."""
    lanes = [_lane("ruler", element("span", "request", class_="name"))]
    lanes += [_lane("actor", element("span", text(it["name"]), class_="name"), data_number=at, said=it["name"]) for at, it in enumerate(content["actors"])]
    lanes += [_lane("table", element("button", text(it["name"]), type="button", class_="name", data_choose=at, title="this table alone, or all"),
                    data_number=at, data_lane=at, said=it["name"]) for at, it in enumerate(content["tables"])]
    strip = element("svg", id="overview", role="img", aria_label="the whole session: drag over a part to see it below", preserveAspectRatio="none")
    timeline = element("div", "\n".join(lanes), class_="timeline", id="timeline", tabindex=0, role="group",
                       aria_label="Time line. The arrow keys go from request to request; + and - zoom.")
    script_less = element("noscript", element("p", "The picture and the requests need scripts."))
    return element("div", strip, class_="strip") + timeline + element("p", id="said", class_="said", aria_live="polite") + script_less
