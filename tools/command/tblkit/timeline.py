"""A session as a time line: who asked for what at each place, and from where to where each table had which image, load, dump and
address held. Places are the numbers of the entries; what stands from one on begins there, and ends at the place where it went.
"""
import typing
from dataclasses import dataclass, field
from typing import Any

from . import names, order, states
from .states import pin_words
from .records import APPLICATIONS
from .tables import STOPPED

# From this status on a request is refused; a locked table is one too, and a command is refused by all but 0.
FIRST_REFUSAL = 32
# What a request of so few bytes is about is kept.
FEW = 512


class Span(typing.NamedTuple):
    """What a table had from one place to another: `kind` is registered, image, load, dump or pin, `words` says which, and
    `number` is that of an image, or of the handle of a pin."""
    first: int
    last: int
    kind: str
    words: str
    number: int | None = None
    phase: states.Load | states.Dump | None = None


class Mark(typing.NamedTuple):
    """A request at its place, with the status that it was answered with."""
    place: int
    actor: int
    request: str
    status: int
    is_refused: bool


@dataclass
class Lane:
    """A table with all that it had and was refused, and the places of the requests about it; or an actor with its requests."""
    name: str
    spans: list = field(default_factory=list)
    marks: list = field(default_factory=list)
    about: list = field(default_factory=list)


def is_refused(answer) -> bool:
    """Whether a request is refused. A warning registers its table all the same, and a call may be told that nothing was to do."""
    if answer.kind == "Command":
        return answer.status != 0
    return answer.status >= FIRST_REFUSAL or answer.status == states.LOCKED


class Timeline:
    """The requests of a session and its lanes, by its answers in their order. `following` goes on from state to state with them."""

    def __init__(self, following=None) -> None:
        self.actors, self.tables, self.resets, self.marks = {}, {}, [], []
        self._states, self._begun, self._names = following or states.States(), {}, {}
        self._view, self._about = None, {}

    @property
    def length(self) -> int:
        """How many answers there were."""
        return len(self.marks)

    @property
    def is_known(self) -> bool:
        """Whether all requests were of the session at hand, so that tables and handles are known."""
        return self._states.view.is_known

    @property
    def standing(self) -> dict[str, Any]:
        """The tables that are registered by now, by name."""
        return self._states.tables

    def actor_words(self, actor) -> str:
        """Who an actor is: an application by its number, and by the last name under which it ran."""
        if actor not in APPLICATIONS:
            return "ground"
        name = self._names.get(actor)
        return f"app {actor} {names.quoted(name)}" if name else f"app {actor}"

    def add(self, answer) -> None:
        """Goes on to the next answer."""
        place, before = self.length, self.standing
        self._states.follow(answer)
        after = self.standing
        if answer.request == "Start":
            self._names |= self._states.view.applications
        mark = Mark(place, answer.actor, answer.request or "", answer.status, is_refused(answer))
        self.marks.append(mark)
        _lane(self.actors, answer.actor).marks.append(mark)
        if answer.request == "Reset" or answer.status == STOPPED:
            self.resets.append(mark)
        self._change(before, after, place)
        for name in self._named(answer):
            if name in after or name in before:
                lane = _lane(self.tables, name)
                lane.about.append(place)
                if mark.is_refused and name in after:
                    lane.marks.append(mark)

    def _named(self, answer) -> set[str]:
        """The tables that a request is about: the same ones for the same request, as long as tables and handles are the same."""
        if answer.view is not self._view:
            self._view, self._about = answer.view, {}
        if answer.record is None or len(answer.record.content) > FEW:
            return order.tables_named(answer)
        key = (answer.actor, answer.record.content, *(it.told.row for it in answer.packets if it.told))
        if key not in self._about:
            self._about[key] = order.tables_named(answer)
        return self._about[key]

    def end(self) -> None:
        """Ends what still stands at the end of the session."""
        self._change(self.standing, {}, self.length)

    def _change(self, before, after, place) -> None:
        """Ends the spans of what a table has no more, and begins those of what it has now."""
        if before is after:
            return
        changed = [name for name, it in after.items() if before.get(name) is not it] + [name for name in before if name not in after]
        for name in changed:
            has, begun = _had_by(after.get(name)), self._begun.setdefault(name, {})
            _lane(self.tables, name).spans += [Span(begun.pop(it), place, *it) for it in list(begun) if it not in has]
            for it in has:
                begun.setdefault(it, place)


def _lane(lanes, name) -> Lane:
    if name not in lanes:
        lanes[name] = Lane(name)
    return lanes[name]


def _had_by(table) -> list[tuple[Any, ...]]:
    """What a table has: the kind, words, number and phase of each span."""
    if table is None:
        return []
    found = [("registered", table.registered_words(), None, None)]
    found += [("image", table.image_words(), table.images, None)] if table.images else []
    found += [("load", table.load.value, None, table.load)] if table.load else []
    found += [("dump", table.dump.value, None, table.dump)] if table.dump else []
    return found + [("pin", pin_words(*it), it[0], None) for it in table.pins]
