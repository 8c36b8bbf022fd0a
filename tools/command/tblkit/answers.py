"""Answers by name: a request with its answer, its reply bytes and the packets that it sent, for people and for programs."""
import functools
from typing import Any

from . import files, layouts, names, packets, text, transcript
from .numbers import counted
from .packets import Shown
from .tables import NONE_KNOWN, SUCCESS, WRONG_HANDLE

LONGEST_DATA = 32
# Where these stand in the head of an entry.
STATUS, ACTOR = transcript.NUMBERS["status"], transcript.NUMBERS["actor"]
NO_BUFFER, IMAGE_SIZE = layouts.statuses("NO_BUFFER_AVAIL", "IMAGE_SIZE")
BUFFERS = layouts.number("shared working buffers")
VALIDATION_FINISHED, IMAGE_ACTIVE, COPY_FAILED = layouts.numbers_of(
    "event", "validation finished", "image went active", "copy to the store failed")
NO_DETAIL = bytes(4)
# The event that tells what a thing came to that a Manage did, by the value of its bit.
WORK_EVENTS = {layouts.bit("work", word): event for word, event in (
    ("active image validated", VALIDATION_FINISHED), ("inactive image validated", VALIDATION_FINISHED), ("updated", IMAGE_ACTIVE))}


class Answer:
    """An entry of a transcript beside its record, where the session is at hand and has one: one that has none is foreign.
    `view` has the tables and handles that were there before it, by which rows and handles are named."""

    def __init__(self, entry, record=None, is_foreign=False, view=NONE_KNOWN) -> None:
        self.entry, self.record, self.is_foreign, self.view = entry, record, is_foreign, view
        self._fields: list[tuple[names.Field, bytes]] | None = None
        numbers = transcript.HEAD.unpack(entry.head)
        self.status, self.actor = numbers[STATUS], numbers[ACTOR]
        self.packets = [packets.decode(it) for it in packets.split(entry.sent)] if entry.sent else []
        # The name of the record, and what was asked: the same, or the name of the command in it.
        self.kind = self.request = record and record.request.name
        if self.kind == "Command":
            self.request = packets.command_name(record.body) or "Command"

    def fields(self) -> list[tuple[names.Field, bytes]]:
        """The fields of the record, and of the command that it is, each with its bytes."""
        if self._fields is None:
            self._fields = self._read_fields()
        return self._fields

    def _read_fields(self) -> list[tuple[names.Field, bytes]]:
        if self.record is None:
            return []
        body = self.record.body
        found = [(it, it.of(body)) for it in names.fields(self.kind)]
        if self.kind != "Command" or self.request == "Command":
            return found
        return found + [(it, it.of(body[packets.COMMAND_HEADER:])) for it in names.fields(self.request)]

    def line(self, is_all=False) -> str:
        """The request as a line of session text, long data cut short."""
        if self.record is None:
            actor = "ground" if self.actor == 0 else f"app {self.actor}"
            return f"{actor}, whose request isn't in this session" if self.is_foreign else actor
        line = text.line_of(self.record)
        return line if is_all or len(line) <= 100 else f"{line[:80]}.. ({len(self.record.body)} bytes)"

    def status_words(self) -> str:
        return _status_words(self.entry.raw("status"))

    def detail(self) -> Shown | packets.Shown | None:
        """The detail with what it tells, or None where it is 0 and nothing is known that it tells."""
        raw = self.entry.raw("detail")
        meaning = names.named("status").get(self.status)
        if self.status == 0 and self.record is not None:
            meaning = self.record.request
        if meaning is not None and meaning.detail:
            return packets.shown_detail(meaning, raw)
        return None if raw == NO_DETAIL else Shown("detail", packets.number(raw), str(packets.number(raw)))

    def detail_words(self) -> str:
        """The same in words; empty where there is nothing to tell."""
        detail = self.detail()
        return f"{detail.name} {detail.words}" if detail else ""

    def reply(self) -> list[tuple[str, list[Any]]]:
        """The reply bytes: their fields by name, one list for each thing that they tell."""
        content = self.entry.reply
        if not content:
            return []
        if self.status == NO_BUFFER and len(content) == BUFFERS:
            rows = " ".join(map(str, content))
            named = self.view.rows and ", ".join(self.view.row_words(str(it), it) for it in content)
            return [("buffers used", [Shown("rows", rows, named or rows)])]
        if self.request == "Manage" and len(content) == 1:
            return [("work", [Shown("done", content[0], self._work_words(content[0]), not content[0])])]
        reader = REPLIES.get(self.request, lambda it: [_data("reply", it)])
        return reader(content)

    def _work_words(self, done) -> str:
        """What a Manage did, each thing with what it came to, as its events tell."""
        events = [it.body for it in self.packets if it.kind == "event"]
        told = []
        for bit, word in names.bits("work").items():
            if not done & bit:
                continue
            if events and events[0][0].value == WORK_EVENTS.get(bit):
                event = events.pop(0)
                word += f", {event[-1].name} {event[-1].words}"
            if events and events[0][0].value == COPY_FAILED:
                word += f", {events.pop(0)[0].words.partition(' ')[2]}"
            told.append(word)
        return "; ".join(told)

    def handle(self) -> Any:
        """The handle that the request names, as it stood before, or None."""
        field = handle_field(self.kind) if self.record else None
        return self.view.handles.get(packets.number(field.of(self.record.body))) if field else None

    def table(self) -> str:
        """The row and the table of which a read gave bytes, in words; empty where they aren't known."""
        if self.request != "Read" or self.status != SUCCESS:
            return ""
        handle = self.handle()
        return f"row {handle.row} {handle.table}" if handle and handle.table else ""

    def sizes(self) -> tuple[int, str, int] | None:
        """How many bytes the image of a load or a copy has, and how many its table or block, where it was refused for that."""
        if self.status != IMAGE_SIZE or self.record is None or self.kind not in ("LoadImage", "CdsCopy"):
            return None
        image = names.field(self.kind, "image").of(self.record.body)
        if self.request == "LoadImage":
            handle = self.handle()
            return (len(image), handle.table, handle.size) if handle and handle.table else None
        slot = packets.number(names.field("CdsCopy", "slot").of(self.record.body))
        return (len(image), f"the block in slot {slot}", self.view.blocks[slot]) if slot in self.view.blocks else None

    def sizes_words(self) -> str:
        """The same in words, empty if it isn't known."""
        found = self.sizes()
        return f"the image has {counted(found[0], 'byte')}, and {found[1]} has {found[2]}" if found else ""

    def handles_words(self) -> str:
        """Which handles the application has, where the request was refused for its handle."""
        is_asked = self.status in WRONG_HANDLE and self.actor and self.record and self.view.is_known
        return self.view.handle_words(self.actor) if is_asked else ""


@functools.cache
def handle_field(request) -> names.Field | None:
    """The field of a request that names a handle, or None."""
    return next((it for it in names.fields(request) if it.name == "handle"), None)


@functools.lru_cache(packets.KEPT)
def _status_words(raw) -> str:
    return names.shown("status", raw)


def _data(kind, content) -> tuple[str, list[Any]]:
    """Bytes that aren't looked into."""
    digits = content.hex().upper()
    return kind, [Shown("bytes", digits, _shortened(content))]


def _shortened(content) -> str:
    digits = content.hex().upper()
    return digits if len(content) <= LONGEST_DATA else f"{digits[:2 * LONGEST_DATA]}.. ({len(content)} bytes)"


def _registry(content) -> list[tuple[str, list[Any]]]:
    if len(content) != files.REGISTRY_RECORD:
        return [_data("reply", content)]
    return [("registry", [packets.shown_field(it, content) for it in names.fields("registry")])]


def _files(content) -> list[tuple[str, list[Any]]]:
    """Table files and registry files, as dumps give them."""
    found = []
    for one in files.split(content):
        header = [packets.shown_field(it, one) for it in names.fields("file header")]
        if len(one) >= files.FILE_HEADER and header[1].value == files.REGISTRY_SUBTYPE:
            found.append(("registry file", header))
            for at in range(files.FILE_HEADER, len(one), files.REGISTRY_RECORD):
                found += _registry(one[at:at + files.REGISTRY_RECORD])
        elif files.read_table_file(one):
            header += [packets.shown_field(it, one) for it in names.fields("table file header")]
            image = one[files.TABLE_HEADER:]
            found.append(("table file", header + [Shown("image", image.hex().upper(), _shortened(image), not image)]))
        else:
            found.append(_data("reply", one))
    return found


REPLIES = {"GetInfo": _registry, "DUMP": _files, "DUMP_REGISTRY": _files,
           packets.HOUSEKEEPING: _files}


def end_words(end, index=None) -> str:
    """The end record in words; with the session at hand also what stands where the records that were played end."""
    run = names.named("run").get(end.status)
    said = [f"status {end.status}, {run.name if run else 'which is none'}", counted(end.entries, "entry", "entries")]
    if index is None:
        said.append(f"the records that were played have {counted(end.place, 'byte')}")
    elif index.bytes_taken != end.place:
        said.append(f"the records that were played have {counted(end.place, 'byte')}, and those of this session {index.bytes_taken}: "
                    "the transcript is of another one")
    else:
        said.append(_left_words(end, index))
    return "; ".join(said)


def _left_words(end, index) -> str:
    """What of a session wasn't played. Where each actor had a thread and they broke off, records after that may have been."""
    number, place = index.first_left() or (end.entries, end.place)
    piece = index.piece_at(place)
    if piece is None:
        return f"all {end.place} bytes of the session were played"
    if piece.fault:
        return f"record {number}, at byte {place}, is bad: {piece.fault}"
    first = "wasn't played" if place == end.place else "is the first that wasn't played"
    return f"record {number}, at byte {place}, {first}: kind {piece.content[0]:02X} {piece.request.name}"
