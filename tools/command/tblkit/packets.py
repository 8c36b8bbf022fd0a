"""Space packets of the service: commands, and what it sends (housekeeping, event, registry record, notice).

The primary header is that of CCSDS 133.0-B; the secondary headers are those of cFE's msg module
(CFE_MSG_CommandSecondaryHeader, CFE_MSG_TelemetrySecondaryHeader).
"""
import functools
import operator
import struct
import typing
from collections.abc import Iterator
from dataclasses import dataclass
from typing import Any

from . import layouts, names

PRIMARY, COMMAND_HEADER, TELEMETRY_HEADER = (layouts.end_of(it) for it in ("primary header", "command header", "telemetry header"))
IS_COMMAND = layouts.number("type bit of a command's message id")
COMMAND_ID, HOUSEKEEPING_ID = (layouts.number_of("message", it) for it in ("command", "request for housekeeping"))
HOUSEKEEPING = "HOUSEKEEPING"
UNSEGMENTED = layouts.number("sequence flags of a packet")
# How many bytes more than its length field says a packet has.
LENGTH_LESS = layouts.number("bytes of a packet that its length field leaves out")
MOST_COUNT = 0x3FFF
EVENT = layouts.shape("event")
DETAIL = names.field("event", "detail")
REFUSED = layouts.number_of("event", "command refused")
TIME = struct.Struct(">IH")
UNKNOWN = ("unknown", None, None)
# What so few bytes read as is kept, for so many of them: in a long session most of them come again and again.
FEW, KEPT = 128, 1 << 12


def number(content) -> int:
    return int.from_bytes(content, "big")


def exclusive_or(content) -> int:
    return functools.reduce(operator.xor, content, 0)


@functools.cache
def _codes() -> dict[str, int]:
    """The function codes by the names of the commands."""
    return {it.name: number for number, it in names.named("command").items()}


def command(name, payload, count=0) -> bytes:
    """A command packet as the service writes them: sequence flags 3, and the checksum that makes it whole."""
    code = _codes().get(name, 0)
    message = HOUSEKEEPING_ID if name == HOUSEKEEPING else COMMAND_ID
    head = struct.pack(">HHH", message, UNSEGMENTED | count, COMMAND_HEADER + len(payload) - LENGTH_LESS)
    checksum = 0xFF ^ exclusive_or(head) ^ code ^ exclusive_or(payload)
    return head + bytes([code, checksum]) + payload


def is_whole(packet) -> bool:
    """Whether bytes are a whole command packet: its length field and its checksum are right."""
    return len(packet) >= COMMAND_HEADER and number(packet[4:6]) + LENGTH_LESS == len(packet) and exclusive_or(packet) == 0xFF


def command_name(packet) -> str | None:
    """The name of the command that a packet of the right form is; None for all others."""
    return _kept_name(packet) if len(packet) <= FEW else _command_name(packet)


def _command_name(packet) -> str | None:
    if not is_whole(packet):
        return None
    message, code, payload = number(packet[:2]), packet[6] & 0x7F, packet[COMMAND_HEADER:]
    known = names.named("command").get(code) if message == COMMAND_ID else None
    if message == HOUSEKEEPING_ID:
        name = HOUSEKEEPING
    else:
        name = known.name if known else None
    parts = names.fields(name) if name else ()
    wanted = parts[-1].place + parts[-1].width if parts else 0
    return name if len(payload) == wanted else None


_kept_name = functools.lru_cache(KEPT)(_command_name)


class Told(typing.NamedTuple):
    """What an event tells: its number, its status, the row of its table, and its detail."""
    number: int
    status: int
    row: int
    detail: int


class Shown(typing.NamedTuple):
    """A field as it is shown: its name, its number or text for programs, its words, whether it has nothing to tell, and
    whether it is a detail under the name of what it tells."""
    name: str
    value: int | str
    words: str
    is_blank: bool = False
    is_detail: bool = False


def shown_field(field, content) -> Shown:
    """A field in a layout's bytes. Names, spare bytes and sets of bits have a text as value, all others a number."""
    raw = field.of(content)
    return _kept_field(field, raw) if len(raw) <= FEW else _shown_field(field, raw)


def _shown_field(field, raw) -> Shown:
    words = names.shown(field.form, raw)
    value: str | int
    if field.form == "name":
        value = names.name_in(raw).decode("latin-1")
    elif field.form in ("data", "zeros"):
        value = words
    else:
        value = names.value(field.form, raw)
    return Shown(field.name, value, words, names.is_blank(field.form, raw))


_kept_field = functools.lru_cache(KEPT)(_shown_field)


@functools.lru_cache(KEPT)
def shown_detail(meaning, raw) -> Shown:
    """A detail of four bytes, where it is known what it tells."""
    words = names.shown(meaning.form, raw)
    return Shown(meaning.detail, names.value(meaning.form, raw), words, is_detail=True)


class Packet:
    """A packet that the service sent: its kind, the fields of its headers, and those of its body. They are looked at once they are
    asked for. One of no kind that is known is of the kind `unknown`, with its bytes as the one field."""

    def __init__(self, content) -> None:
        self.content = content
        self.kind, self._header, self._body = _layout(content[:2], len(content)) if len(content) >= COMMAND_HEADER else UNKNOWN
        # What an event tells, as numbers; None for any other packet.
        self.told = Told(*EVENT.unpack_from(content, TELEMETRY_HEADER)) if self.kind == "event" else None

    @property
    def _header_fields(self) -> tuple[Any, ...]:
        return _headers(self._header) if self._header else ()

    @functools.cached_property
    def header(self) -> tuple[Shown, ...]:
        return tuple(shown_field(it, self.content) for it in self._header_fields)

    def header_values(self) -> dict[str, int]:
        """The numbers of the headers by the names that programs have."""
        content = self.content
        return {key: int.from_bytes(content[bounds], "big") >> shift & mask for key, bounds, shift, mask in _numbers_of(self._header)}

    @property
    def body(self) -> tuple[Shown, ...]:
        if self._body is None:
            digits = self.content.hex().upper()
            return (Shown("bytes", digits, digits),)
        return body_of(self._body, self.content[COMMAND_HEADER if self.kind == "notice" else TELEMETRY_HEADER:])

    def field(self, name) -> Shown | None:
        return next((it for it in self.header + self.body if it.name == name), None)

    @property
    def count(self) -> int:
        """The sequence count in the header."""
        return number(self.content[2:4]) & MOST_COUNT

    @property
    def time(self) -> tuple[Any, ...]:
        """The seconds and subseconds in the header of telemetry."""
        return TIME.unpack_from(self.content, PRIMARY)


@functools.lru_cache(KEPT)
def _layout(front, length) -> Any:
    """What a packet of so many bytes is that begins with these two, and the names of the layouts of its secondary header and its body."""
    message = number(front)
    if message & IS_COMMAND:
        return ("notice", "command header", "notice") if length == COMMAND_HEADER + 4 else UNKNOWN
    kind = names.named("message").get(message)
    if kind and length == TELEMETRY_HEADER + names.size_of(kind.name):
        return kind.name, "telemetry header", kind.name
    return UNKNOWN


@functools.cache
def _headers(secondary) -> tuple[names.Field, ...]:
    """The fields of a packet's headers."""
    return names.fields("primary header") + names.fields(secondary)


@functools.cache
def _numbers_of(secondary) -> Any:
    """The numbers of a packet's headers: the name that programs have, where its bytes stand, by how many bits it is shifted there, and
    its bits."""
    fields = _headers(secondary) if secondary else ()
    return [(names.key(it.name), slice(it.place, it.place + it.width), *names.PARTS_OF_BITS.get(it.form, (0, (1 << 8 * it.width) - 1)))
            for it in fields]


@functools.lru_cache(KEPT)
def body_of(owner, content) -> tuple[Shown, ...]:
    """The fields of a packet's body."""
    if owner == "event":
        return *front_of_event(content[:DETAIL.place]), detail_of_event(content)
    return tuple(shown_field(it, content) for it in names.fields(owner))


def decode(packet) -> Packet:
    """A packet by its fields."""
    return Packet(packet)


@functools.lru_cache(KEPT)
def front_of_event(content) -> tuple[Shown, ...]:
    """The fields of an event before its detail, which tells more events apart than all others do."""
    return tuple(shown_field(it, content) for it in names.fields("event")[:-1])


def detail_of_event(content) -> Shown:
    """The detail of an event, under the name that fits the event or the refusal that it tells of."""
    event, status = EVENT.unpack(content)[:2]
    meaning = names.named("status").get(status) if event == REFUSED else names.named("event").get(event)
    return shown_detail(meaning, DETAIL.of(content)) if meaning and meaning.detail else shown_field(DETAIL, content)


def split(content) -> Iterator[bytes]:
    """The packets in a reply, one after the other. Bytes that are no whole packet come last, as they stand."""
    at, size = 0, len(content)
    while at < size:
        length = number(content[at + 4:at + PRIMARY]) + LENGTH_LESS
        if size - at < length or size - at < COMMAND_HEADER:
            length = size - at
        yield content[at:at + length]
        at += length
