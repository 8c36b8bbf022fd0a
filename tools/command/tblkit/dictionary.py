"""The commands and packets of the service as a ground system is told of them: in the layout of this project, or in cFE's."""
from collections.abc import Iterator
from dataclasses import dataclass, replace
from typing import Any

from . import cfe, layouts, names, packets

TELEMETRY = ("housekeeping", "event", "registry")
NOTICE = "notice"
VALIDATION_FINISHED = layouts.number_of("event", "validation finished")
SAYS = {"housekeeping": "the state of Table Services", "event": "an event of Table Services",
        "registry": "the registry record of a table", NOTICE: "a notice to the owner of a table"}
BITS = {"flags": 2, "count": 14}
# What fields of commands are for, where their names alone don't say it.
FIELD_SAYS = {"select": "which image of the table", "table": "the full name of the table: its application's, a dot, its own",
              "file": "the name of the file with its whole path"}
HEADER, ASKS_HOUSEKEEPING = "command", "the state of Table Services is sent, and the files of filled dumps are written before"


@dataclass(frozen=True)
class Item:
    """A field: its key, its bits, its form (`name` for a text, `zeros` for bytes, `signed`, else a number), the words of its
    numbers, the value that it always has, and whether its low byte comes first."""
    key: str
    bits: int
    form: str
    says: str
    states: dict
    fixed: int | None = None
    is_little: bool = False


@dataclass(frozen=True)
class Known:
    """What tells a packet from others: an item by its key is a value, or is none."""
    key: str
    value: int
    is_equal: bool = True


@dataclass(frozen=True)
class Layout:
    """A command or a packet: its items in order, what tells it from others, and the layout that it begins with, if there is one."""
    name: str
    says: str
    items: tuple
    known_by: tuple
    base: "Layout | None" = None

    def whole(self) -> tuple[tuple[Item, ...], tuple[Any, ...]]:
        """All items, and all that it is known by."""
        items, known_by = self.base.whole() if self.base else ((), ())
        return (*items, *self.items), (*known_by, *self.known_by)


COMMANDS = frozenset(it.name for it in names.named("command").values())


def _says(code) -> str:
    """What a command does, by the words that the table of names has for cFE's name of it."""
    return next(it.said for it in names.cfe_words() if it.kind == "command" and int(it.number) == code)


def _item(field, prefix="", fixed=None, is_little=False, form=None) -> Item:
    form = form or field.form
    states = {} if form in ("signed", "row", "validator") else names.words(form)
    says = FIELD_SAYS.get(field.name, field.name) if field.owner in COMMANDS else field.name
    return Item(prefix + names.key(field.name), BITS.get(field.form, 8 * field.width), form, says, states, fixed,
                is_little and field.form not in ("name", "zeros") and field.width > 1)


class Dictionary:
    """All commands and packets, in the layout here or in cFE's with the numbers in payloads in a byte order. `numbers` has numbers of
    cFE's events by their names that stand in the place of those of the table of names."""

    def __init__(self, is_cfe=False, order=cfe.LITTLE, numbers=None) -> None:
        self.is_cfe, self._is_little, self._numbers = is_cfe, is_cfe and order == cfe.LITTLE, numbers or {}
        self._ids = {it.name: number for number, it in names.named("message").items()}

    def commands(self) -> Iterator[Layout]:
        """The commands, and the request for housekeeping. The checksum is the one item that no definition can state."""
        for code, it in names.named("command").items():
            yield self._command(it.name, packets.COMMAND_ID, code, _says(code))
        yield self._command(packets.HOUSEKEEPING, packets.HOUSEKEEPING_ID, 0, ASKS_HOUSEKEEPING)

    @staticmethod
    def command_header() -> Layout:
        """What all commands begin with: the headers of CCSDS and of cFE. The sequence count and the checksum are the sender's."""
        fixed = {"sequence flags": 3, "sequence count": 0, "checksum": 0}
        fields = names.fields("primary header") + names.fields("command header")
        items = [_item(it, fixed=fixed.get(it.name)) for it in fields]
        return Layout(HEADER, "what each command begins with: the primary header of CCSDS, function code and checksum", tuple(items), ())

    def _command(self, name, message, code, says) -> Layout:
        payload = [_item(it, is_little=self._is_little) for it in names.fields(name)]
        length = sum(it.bits for it in payload) // 8 + packets.COMMAND_HEADER - packets.LENGTH_LESS
        fixed = {"message id": message, "sequence flags": 3, "sequence count": 0, "length": length, "function code": code,
                 "checksum": 0}
        head = [_item(it, fixed=fixed[it.name]) for it in names.fields("primary header") + names.fields("command header")]
        return Layout(name, says, (*head, *payload), (Known("message_id", message), Known("function_code", code)))

    def telemetry(self) -> Iterator[Layout]:
        """What the service sends. An event whose detail is a verdict has a layout of its own, and both begin as events do."""
        header = Layout("packet", "what each packet begins with", tuple(_item(it) for it in names.fields("primary header")), ())
        yield header
        for kind in TELEMETRY:
            known_by = (Known("message_id", self._ids[kind]),)
            items = self._after_header(kind)
            if kind != "event" or self.is_cfe:
                yield Layout(kind, SAYS[kind], items, known_by, header)
            else:
                yield from _events(Layout(kind, SAYS[kind], items[:-1], known_by, header), items[-1])
        yield self._notice(header)

    @staticmethod
    def _notice(header) -> Layout:
        """What the service sends to the owner of a table, under a message id that the owner chose."""
        items = [_item(it) for it in names.fields("command header") + names.fields(NOTICE)]
        length = packets.COMMAND_HEADER + names.size_of(NOTICE) - packets.LENGTH_LESS
        return Layout(NOTICE, SAYS[NOTICE], tuple(items), (Known("length", length),), header)

    def _after_header(self, kind) -> tuple[Item, ...]:
        head = [_item(it) for it in names.fields("telemetry header")]
        if not self.is_cfe:
            return (*head, *(_item(it) for it in names.fields(kind)))
        spare = Item("spare", 8 * cfe.SPARE, "zeros", "spare bytes", {})
        return (*head, spare, *(self._numbered(_item(it.field, is_little=self._is_little)) for it in cfe.sources(kind)))

    def _numbered(self, item) -> Item:
        """An item with the numbers of cFE's events that were given, if it has such as states."""
        if item.form != names.CFE_EVENT:
            return item
        states = {self._numbers.get(name, number): name for number, name in item.states.items()}
        return replace(item, states=dict(sorted(states.items())))


def _events(event, detail) -> Iterator[Layout]:
    """An event as far as all have it, and what follows there: a verdict, which has a sign, or another detail."""
    yield event
    verdict = Item("verdict", detail.bits, "signed", "verdict", {})
    for says, item in (("a verdict", verdict), ("no verdict", detail)):
        known_by = (Known("number", VALIDATION_FINISHED, item is verdict),)
        yield Layout(f"event_{item.key}", f"{SAYS['event']} that tells {says}", (item,), known_by, event)
