"""Answers as lines for people, and as objects for programs."""
import functools
import typing
from collections.abc import Iterator
from typing import Any

from . import names, packets, records, transcript
from .answers import Answer, end_words
from .tables import NONE_KNOWN, Tables

INDENT = "      "
# An answer that has no more bytes than this is short; the place of an entry has so many.
FEW, PLACE = 512, names.field("entry", "place").width
# The event that tells that a command was refused.
REFUSED = 2


class Line(typing.NamedTuple):
    """A line of an answer: what it is (request, reply, image, event, refusal or another packet), its words, and of a request the place
    before them and the answer after them."""
    kind: str
    words: str
    place: str = ""
    answer: str = ""

    def plain(self) -> str:
        return f"{self.place} {self.words} -> {self.answer}" if self.kind == "request" else INDENT + self.words


def answers(parts, index, is_named=True) -> Iterator[Any]:
    """The parts of a transcript, each entry as an answer beside its record: the next one of its actor. Where they are to be
    named, each has the tables and handles that were there before it."""
    tables = Tables()
    for part in parts:
        if isinstance(part, transcript.Entry):
            record = index.next_of(part.number("actor")) if index else None
            answer = Answer(part, record, index is not None and record is None, tables.view if is_named else NONE_KNOWN)
            tables.follow(answer)
            yield answer
        else:
            yield part


def listed(fields, is_all=False) -> str:
    """Fields as words: those that have something to tell, or all."""
    return ", ".join(f"{it.name} {it.words}" for it in fields if is_all or not it.is_blank)


def lines(answer, is_all=False, shapes=None) -> Iterator[str]:
    """The lines of an answer as they stand in a file."""
    return (it.plain() for it in parts_of(answer, is_all, shapes))


def parts_of(answer, is_all=False, shapes=None) -> Iterator[Line]:
    """The lines of an answer: the request with its status, then what it replied, the images of tables whose shapes are known
    by field, and each packet that it sent."""
    line, told, replies = _front(answer, is_all)
    yield Line("request", line, str(answer.entry.number("place")), told)
    yield from replies
    if shapes:
        yield from (Line("image", it) for it in shapes.lines(answer, is_all))
    for packet in answer.packets:
        kind = "refusal" if packet.told and packet.told.number == REFUSED else packet.kind
        if is_all:
            yield from (Line(kind, it) for it in _block(packet.kind, packet.header + named_rows(packet, answer.view), True))
        else:
            yield Line(kind, _packet_words(packet, answer.view.rows))


def _front(answer, is_all) -> tuple[str, str, list[Line]]:
    """The request, its answer, and the lines of what it replied. What is short and told by itself is kept, since it comes again."""
    entry, record = answer.entry, answer.record
    # (what a Manage did is told by its packets too)
    is_kept = record and not is_all and answer.request != "Manage" and len(record.content) + len(entry.reply) <= FEW
    return _kept_front(answer.view, record.content, entry.head[PLACE:], entry.reply) if is_kept else _read_front(answer, is_all)


@functools.lru_cache(packets.KEPT)
def _kept_front(view, content, head, reply) -> tuple[str, str, list[Line]]:
    return _read_front(Answer(transcript.Entry(bytes(PLACE) + head, reply, b""), records.Piece(0, content), False, view), False)


def _read_front(answer, is_all) -> tuple[str, str, list[Line]]:
    replies = answer.reply()
    told = [answer.status_words(), answer.detail_words(), answer.table(), answer.sizes_words(), answer.handles_words()]
    if len(replies) == 1 and len(replies[0][1]) == 1 and not is_all:
        told.append(listed(replies[0][1]))
        replies = []
    lines_of = [Line("reply", it) for kind, fields in replies for it in _block(kind, fields, is_all)]
    return answer.line(is_all), ", ".join(it for it in told if it), lines_of


def named_rows(packet, view) -> tuple[Any, ...]:
    """The fields of a packet's body, in an event the row beside its table, where one is known."""
    if packet.kind != "event":
        return packet.body
    return tuple(it._replace(words=view.row_words(it.words, it.value)) if it.name == "row" else it for it in packet.body)


def _packet_words(packet, rows) -> str:
    if packet.told:
        content = packet.content[packets.TELEMETRY_HEADER:]
        kind, front = _front_words(content[:packets.DETAIL.place], rows.get(packet.told.row))
        detail = packets.detail_of_event(content)
        told = [front, "" if detail.is_blank else f"{detail.name} {detail.words}"]
    else:
        kind, told = packet.kind, [listed(packet.body)]
    return f"{kind}: {', '.join(filter(None, told + _header_words(packet))) or 'all 0'}"


@functools.lru_cache(packets.KEPT)
def _front_words(content, table) -> tuple[str, str]:
    """What an event is, and its fields before its detail in words, its row beside the table where that is known."""
    event, *fields = packets.front_of_event(content)
    return f"event {event.words}", listed([it._replace(words=f"{it.words} {table}") if it.name == "row" and table else it for it in fields])


def _header_words(packet) -> list[str]:
    """What is told of the headers of a packet: its id and code where its kind doesn't tell them, its count and its time."""
    if packet.kind == "unknown":
        return []
    own = [it for it in packet.header if it.name in ("message id", "function code")] if packet.kind == "notice" else []
    seconds, subseconds = packet.time if packet.kind != "notice" else (0, 0)
    numbers = (("sequence count", packet.count), ("seconds", seconds), ("subseconds", subseconds))
    return [f"{it.name} {it.words}" for it in own] + [f"{name} {value}" for name, value in numbers if value]


def _block(kind, fields, is_all) -> Iterator[str]:
    if is_all:
        yield kind
        yield from (f"  {it.name}: {it.words}" for it in fields)
    else:
        yield f"{kind}: {listed(fields) or 'all 0'}"


def end_lines(part, index) -> str:
    """The line of what ends a transcript."""
    if isinstance(part, transcript.End):
        return f"end: {end_words(part, index)}"
    return f"broken: {part.reason}" + (f": {part.content.hex().upper()}" if part.content else "")


def _values(fields) -> dict[str, Any]:
    found = {}
    for it in fields:
        if it.is_detail:
            found |= {"detail": it.value, "detail_name": names.key(it.name)}
        else:
            found[names.key(it.name)] = it.value
    return found


_body_values = functools.lru_cache(packets.KEPT)(_values)


def _table_of(packet, view) -> dict[str, str]:
    """The table of the row that an event tells, where it is known."""
    return {"table": view.rows[packet.told.row]} if packet.told and packet.told.row in view.rows else {}


def as_object(part, index) -> dict[str, Any]:
    """A part of a transcript for JSON: its fields by name with their numbers, bytes in hexadecimal."""
    if isinstance(part, transcript.End):
        return {"end": True, "status": part.status, "entries": part.entries, "place": part.place,
                "words": end_words(part, index)}
    if isinstance(part, transcript.Broken):
        return {"broken": part.reason, "bytes": part.content.hex().upper()}
    entry, detail = part.entry, part.detail()
    known = names.named("status").get(part.status)
    told = {"place": entry.number("place"), "actor": part.actor, "request": part.request,
            "line": part.line(True) if part.record else None, "status": part.status,
            "status_name": known.name if known else None, "detail": entry.number("detail")}
    told |= _values([detail] if detail else [])
    told["reply"] = entry.reply.hex().upper()
    told["reply_fields"] = [{"kind": kind} | _values(fields) for kind, fields in part.reply()]
    if part.table():
        told["table"] = part.handle().table
    if part.sizes():
        told["image_bytes"], _, told["bytes_needed"] = part.sizes()
    told["packets"] = [{"kind": it.kind} | it.header_values() | _body_values(it.body) | _table_of(it, part.view) for it in part.packets]
    return told
