"""Packets in cFE's default layouts: telemetry whose payload begins at byte 16, with cFE's fields in cFE's order, and commands whose
numbers have the byte order of the processor. Which field has what stands in the table of names.
"""
import functools
import struct
from collections.abc import Iterator
from dataclasses import dataclass
from typing import Any

from . import cfe_events, names, packets, tables

TELEMETRY_HEADER = 16
SPARE = TELEMETRY_HEADER - packets.TELEMETRY_HEADER
APPLICATION, SPACECRAFT, PROCESSOR = b"CFE_TBL", 66, 1
ZEROS, WORDS, BIT, SUBSECONDS = "zeros", "=", "state: ", "subseconds"
LITTLE, BIG = "little", "big"
# How numbers are packed, by their bytes.
NUMBERS = {1: "B", 2: "H", 4: "I"}
MESSAGE = names.field("cfe event", "Message").width
# CFE_PLATFORM_TBL_DEFAULT_REG_DUMP_FILE, by cFE's default.
REGISTRY_FILE = b"/ram/cfe_tbl_reg.log"


@dataclass(frozen=True)
class Source:
    """A field of cFE's, and the field here whose value it has, or how it comes by one."""
    field: names.Field
    said: str


def owner_of(kind) -> str:
    """The name of cFE's layout of a kind of packet."""
    return f"cfe {kind}"


@functools.cache
def sources(kind) -> tuple[Source, ...]:
    """The fields of cFE's layout of a kind of packet; none where it has no such layout."""
    said = {field: source for owner, field, source in names.rows_of("cfe") if owner == owner_of(kind)}
    return tuple(Source(it, said[it.name]) for it in names.fields(owner_of(kind)))


class Sender:
    """Sends what a service answers in cFE's layouts: its packets have counts of their own, which begin with 1 as those of the Software
    Bus do, and events are cFE's. Those of type DEBUG are left out, as cFE does until they are enabled, unless they are asked for."""

    def __init__(self, order=LITTLE, numbers=None, is_debug=False) -> None:
        self._order, self._is_debug = order, is_debug
        self._events, self._counts = cfe_events.Events(numbers), {}

    def packets(self, answer) -> Iterator[bytes]:
        """The packets of an answer that go to the ground. What the answer changes is followed once all were taken."""
        events = iter(self._events.of(answer))
        if answer.request == "Reset" or answer.status == tables.STOPPED:
            self._counts = {}
        for packet in answer.packets:
            event = next(events) if packet.kind == "event" else None
            if sources(packet.kind) and (packet.kind != "event" or self._is_sent(event)):
                yield self._packet(packet, event)
        self._events.follow(answer)

    def know(self, name) -> None:
        """A file of this name is there already, where a dump may write it."""
        self._events.files.put(name, b"")

    def _is_sent(self, event) -> bool:
        return event is not None and (self._is_debug or event.kind != cfe_events.DEBUG)

    def _packet(self, packet, event) -> bytes:
        count = self._counts[packet.kind] = self._counts.get(packet.kind, 0) + 1 & packets.MOST_COUNT
        return telemetry(packet, self._order, count, self._values(packet, event))

    def _values(self, packet, event) -> dict[str, Any]:
        """What cFE's packet has that isn't a field of the one here. The text of an event ends in a zero byte."""
        if packet.kind == "housekeeping":
            return {"NumValRequests": packet.field("VALIDATE commands accepted").value - self._events.assumed & 0xFF}
        if event is None:
            return {}
        return {"PacketID.AppName": APPLICATION, "PacketID.EventID": event.number, "PacketID.EventType": event_types()[event.kind],
                "PacketID.SpacecraftID": SPACECRAFT, "PacketID.ProcessorID": PROCESSOR, "Message": event.text[:MESSAGE - 1]}


@functools.cache
def event_types() -> dict[str, int]:
    """The numbers of the types of events."""
    return {word: number for number, word in names.words("event type").items()}


def telemetry(packet, order, count, values) -> bytes:
    """A packet that the service sends to the ground, in cFE's layout, with a sequence count."""
    packing = _packing(packet.kind, order)
    if packing:
        payload = packing.pack(*values.values())
    else:
        content = packet.content[packets.TELEMETRY_HEADER:]
        payload = b"".join(_bytes_of(it, packet.kind, content, values, order) for it in sources(packet.kind))
    head = packet.content[:2] + struct.pack(">HH", packets.UNSEGMENTED | count, TELEMETRY_HEADER + len(payload) - packets.LENGTH_LESS)
    return head + packet.content[packets.PRIMARY:packets.TELEMETRY_HEADER] + bytes(SPARE) + payload


@functools.cache
def _packing(kind, order) -> struct.Struct | None:
    """How a layout is packed at once whose fields are all in words, as an event's is; None for any other. Its values stand in the order
    of the fields."""
    if not all(it.said == ZEROS or it.said.startswith(WORDS) for it in sources(kind)):
        return None
    codes = [f"{it.field.width}x" if it.said == ZEROS else f"{it.field.width}s" if it.field.form == "name" else NUMBERS[it.field.width]
             for it in sources(kind)]
    return struct.Struct(("<" if order == LITTLE else ">") + "".join(codes))


def _bytes_of(source, kind, content, values, order) -> bytes:
    """The bytes of a field."""
    field, said = source.field, source.said
    if said == ZEROS:
        return bytes(field.width)
    if said.startswith(WORDS):
        value = values[field.name]
        return value.ljust(field.width, b"\0") if isinstance(value, bytes) else value.to_bytes(field.width, order)
    name, _, bit = said.partition(": ")
    own = names.field(kind, name)
    raw = own.of(content)
    if own.form == "name":
        return raw.ljust(field.width, b"\0")
    value = packets.number(raw)
    if bit:
        value = int(bool(value & next(it for it, word in names.bits(own.form).items() if word == bit)))
    elif own.form == "validator":
        # cFE has an address there: none is 0.
        value = 0 if names.is_blank(own.form, raw) else value + 1
    elif own.name.startswith(SUBSECONDS):
        value <<= 8 * (field.width - own.width)
    return value.to_bytes(field.width, order)


def command(packet, order=LITTLE) -> bytes:
    """A command as the service takes it, of one in cFE's layout: its numbers have another byte order, and a DUMP_REGISTRY without a
    name writes the file of the platform's default. A checksum stays right where it was."""
    known = _known(packet)
    for field in names.fields(known) if order == LITTLE and known else ():
        begin = packets.COMMAND_HEADER + field.place
        if field.form != "name" and begin + field.width <= len(packet):
            packet = packet[:begin] + packet[begin:begin + field.width][::-1] + packet[begin + field.width:]
    return _with_default(packet) if known == "DUMP_REGISTRY" else packet


def _known(packet) -> str | None:
    """The name of the command that a packet is by its message id and its code; None for all others."""
    if len(packet) < packets.COMMAND_HEADER or packets.number(packet[:2]) != packets.COMMAND_ID:
        return None
    known = names.named("command").get(packet[6] & 0x7F)
    return known.name if known else None


def _with_default(packet) -> bytes:
    """A DUMP_REGISTRY with the default name, if it has none."""
    content = packet[packets.COMMAND_HEADER:]
    if content.strip(b"\0") or len(content) != names.size_of("DUMP_REGISTRY"):
        return packet
    checksum = packet[7] ^ packets.exclusive_or(REGISTRY_FILE)
    return packet[:7] + bytes([checksum]) + REGISTRY_FILE.ljust(len(content), b"\0")
