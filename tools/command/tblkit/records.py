"""Session records: kind (1 byte), actor (1), length of the body (2), body. A session is records without anything between.

Layouts of the bodies stand in the table of names. A reader gives each piece of an input: the good records, and whatever
else stands there with the reason why it is none, so that the pieces together are the input, byte for byte.
"""
import functools
import itertools
import typing
from collections.abc import Iterator
from typing import Any

from . import layouts, names
from .numbers import counted

HEAD_OF = layouts.shape("record head")
HEAD = HEAD_OF.size
MOST_BODY = layouts.number("bytes of a record's body")
MOST_RECORDS = layouts.number("records of a session")
APPLICATIONS = range(1, layouts.number("applications") + 1)


class Piece(typing.NamedTuple):
    """Bytes of a session from place `at` on: one record, or bytes that are none for the reason `fault`."""
    at: int
    content: bytes
    fault: str = ""

    @property
    def request(self) -> names.Request:
        return names.requests()[self.content[0]]

    @property
    def actor(self) -> int:
        return self.content[1]

    @property
    def body(self) -> bytes:
        return self.content[HEAD:]


def spelling(request, actor, body) -> bytes:
    """The record of a request."""
    return HEAD_OF.pack(request.number, actor, len(body)) + body


def length_of(head) -> int:
    """The length of the whole record that a head states."""
    return HEAD + HEAD_OF.unpack(head)[-1]


def lengths(request) -> tuple[int, int]:
    """The least and the greatest length that the body of a request has."""
    last = names.fields(request.name)[-1] if names.fields(request.name) else None
    if last is None:
        return 0, 0
    return (last.place, MOST_BODY) if last.width is None else (last.place + last.width,) * 2


@functools.cache
def _rules(kind) -> tuple[Any, ...] | None:
    """What makes a record of this kind a good one: its request, its actors, the bounds of its length, and the fields whose
    bytes are looked at. None where there is no such kind."""
    request = names.requests().get(kind)
    if request is None:
        return None
    looked_at = tuple(it for it in names.fields(request.name) if it.form in ("name", "reset"))
    return request, range(1) if request.is_ground else APPLICATIONS, lengths(request), looked_at


def head_fault(head) -> str:
    """Why the four bytes of a head begin no record; empty where they do."""
    kind, actor, length = HEAD_OF.unpack(head)
    rules = _rules(kind)
    if rules is None:
        return f"kind {kind:02X}, which is none"
    request, actors, (least, most), _ = rules
    if actor not in actors:
        return f"kind {kind:02X} {request.name} of actor {actor}"
    if not least <= length <= most:
        return f"kind {kind:02X} {request.name} with a body of {counted(length, 'byte')}"
    return ""


def body_fault(kind, body) -> str:
    """Why the whole body of a good head isn't of the right form; empty where it is."""
    request, _, _, looked_at = _rules(kind)
    for field in looked_at:
        content = field.of(body)
        if field.form == "name" and content[len(names.name_in(content)):].strip(b"\0"):
            return f"kind {kind:02X} {request.name} with bytes after the name in its field `{field.name}`"
        if field.form == "reset" and content[0] not in names.words("reset"):
            return f"kind {kind:02X} {request.name} with the byte {content.hex().upper()}"
    return ""


def pieces(stream) -> Iterator[Piece]:
    """The pieces of a session, in order. What stands after a bad record is read as records again."""
    at = 0
    while head := stream.read(HEAD):
        if len(head) < HEAD:
            yield Piece(at, head, f"{counted(len(head), 'byte')}, which is less than the head of a record")
            return
        length = length_of(head) - HEAD
        body = stream.read(length)
        fault = head_fault(head)
        if not fault and len(body) < length:
            fault = f"kind {head[0]:02X} cut off: {len(body)} of {counted(length, 'byte')} of its body"
        elif not fault:
            fault = body_fault(head[0], body)
        yield Piece(at, head + body, fault)
        at += HEAD + len(body)


class Index:
    """Where the records of a session stand, by actor, so that those of each actor can be read in order.

    A transcript has the requests of one actor in the order of the session, and those of several actors in any order where
    each had a thread. At most as many records as a session has are ever played, so that many places are kept and no contents.
    """

    def __init__(self, stream) -> None:
        self._stream = stream
        self._places = {actor: [] for actor in (0, *APPLICATIONS)}
        self._taken = dict.fromkeys(self._places, 0)
        # How many bytes the records have that were taken.
        self.bytes_taken = 0
        for number, piece in enumerate(itertools.islice(pieces(stream), MOST_RECORDS)):
            if piece.fault:
                break
            self._places[piece.actor].append((number, piece.at, len(piece.content)))

    @property
    def count(self) -> int:
        """How many records there are."""
        return sum(map(len, self._places.values()))

    def next_of(self, actor) -> Piece | None:
        """The next record of an actor, or None where it has no further one."""
        places, taken = self._places.get(actor, []), self._taken.get(actor, 0)
        if taken == len(places):
            return None
        self._taken[actor] = taken + 1
        _, at, length = places[taken]
        self.bytes_taken += length
        self._stream.seek(at)
        return Piece(at, self._stream.read(length))

    def first_left(self) -> tuple[int, int] | None:
        """The number and the place of the first record that wasn't taken, or None where all were."""
        left = [places[self._taken[actor]] for actor, places in self._places.items() if self._taken[actor] < len(places)]
        return min(left)[:2] if left else None

    def piece_at(self, place) -> Piece | None:
        """What stands at a place of the session: None at its end and beyond."""
        self._stream.seek(place)
        return next(pieces(self._stream), None)
