"""Runs of sessions as text: the lines of a session, and what each of its records was answered. tools/develop/break-cases writes recorded runs
so, and tools/develop/run-rows reads them.

An answer has the status, a detail that isn't 0, and then what comes with it, each after a comma: `bytes` of the reply, and packets by
the fields that have something to tell, as tools/command/names.tsv calls them. Answers stand one after the other, with semicolons between:

    0; 1, bytes 0A0B; 77 4294967295; 0, event number 5 row 0 detail 1; 0, housekeeping open loads 1 table of the last load "A.T"

A packet's count and time aren't written: they are those of docs/reference/packets.md after the answers before. One that has others, or that isn't
whole, stands as `packet` with its bytes.
"""
import io
import re
import struct

from tblkit import layouts, names, packets, records, transcript

KINDS = ("event", "housekeeping", "registry")
TOKEN = re.compile(r'"(?:[^"\\]|\\.)*"|[,;]|[^\s",;]+')
STOPPED = layouts.number_of("status", "INFO_STOPPED")
ENTRY = layouts.shape("entry")
NONE = {"row": 0xFFFF, "validator": 0xFF}


def pieces_of(session):
    """The records of a session up to the first bytes that are none, which come last."""
    found = []
    for piece in records.pieces(io.BytesIO(session)):
        found.append(piece)
        if piece.fault:
            break
    return found


def is_short(content):
    """Whether bytes that are no record are the beginning of one."""
    head = content[:records.HEAD]
    return len(head) < records.HEAD or not records.head_fault(head) and len(content) < records.length_of(head)


class Clock:
    """The counts and the time that the next packets have."""

    def __init__(self):
        self._counts, self._time = {}, bytes(6)

    def follow(self, record, status):
        """Goes on to the packets of the answer to a record."""
        if record.request.name == "Reset" or status == STOPPED:
            self._counts = {}
        elif record.request.name == "Time":
            self._time = record.body

    def packet(self, kind, body):
        """A packet of this kind that is sent next."""
        count = self._counts.get(kind, 0)
        length = packets.TELEMETRY_HEADER + len(body) - packets.LENGTH_LESS
        front = struct.pack(">HHH", layouts.number_of("message", kind), packets.UNSEGMENTED | count & packets.MOST_COUNT, length)
        return front + self._time + body

    def sent(self, kind):
        """One of this kind was sent."""
        self._counts[kind] = self._counts.get(kind, 0) + 1


# ---- as text

def value_words(field, raw):
    if field.form == "name":
        return f'"{names.escaped(names.name_in(raw))}"'
    return str(int.from_bytes(raw, "big", signed=field.form == "signed"))


def packet_words(content, clock):
    """A packet in words: by its fields, where these give its bytes."""
    kind = packets.decode(content).kind
    if kind in KINDS:
        body = content[packets.TELEMETRY_HEADER:]
        told = [(it, it.of(body)) for it in names.fields(kind)]
        words = " ".join([kind] + [f"{it.name} {value_words(it, raw)}" for it, raw in told if not names.is_blank(it.form, raw)])
        if clock.packet(kind, body_of(kind, TOKEN.findall(words)[1:])) == content:
            clock.sent(kind)
            return words
    if kind in KINDS:
        clock.sent(kind)
    return f"packet {content.hex().upper()}"


def answer_words(entry, clock):
    detail = entry.number("detail")
    found = [str(entry.number("status")) + (f" {detail}" if detail else "")]
    if entry.reply:
        found.append(f"bytes {entry.reply.hex().upper()}")
    return ", ".join(found + [packet_words(it, clock) for it in packets.split(entry.sent)])


def answers_of(played, output):
    """The answers of a transcript to records in words, and how many of its bytes they are."""
    clock, found, length = Clock(), [], 0
    for record, entry in zip(played, transcript.parts(io.BytesIO(output))):
        if not isinstance(entry, transcript.Entry) or record.fault:
            break
        clock.follow(record, entry.number("status"))
        found.append(answer_words(entry, clock))
        length += len(entry.head) + 2 * transcript.LENGTH + len(entry.reply) + len(entry.sent)
    return found, length


# ---- as bytes

def unescaped(word):
    """The bytes of a name in quotes."""
    return re.sub(r"\\(?:x([0-9A-F]{2})|(.))", lambda it: chr(int(it[1], 16)) if it[1] else it[2], word[1:-1]).encode("latin-1")


def body_of(kind, tokens):
    """The body of a packet whose fields stand in these words: all others are zeros, or ones where these stand for none."""
    given, name = {}, []
    fields = {it.name: it for it in names.fields(kind)}
    for token in tokens:
        if " ".join(name) in fields:
            given[" ".join(name)] = token
            name = []
        else:
            name.append(token)
    if name:
        raise ValueError(f"{kind} has no field {' '.join(name)}")
    return b"".join(bytes_of(it, given.get(it.name)) for it in fields.values())


def bytes_of(field, word):
    if word is None:
        return NONE.get(field.form, 0).to_bytes(field.width, "big")
    if field.form == "name":
        return unescaped(word).ljust(field.width, b"\0")
    return int(word).to_bytes(field.width, "big", signed=word.startswith("-"))


def entry_of(place, record, words, clock):
    """The entry of an answer."""
    parts, reply, sent = [[]], b"", b""
    for token in TOKEN.findall(words):
        if token == ",":
            parts.append([])
        else:
            parts[-1].append(token)
    (status, *detail), *others = parts
    clock.follow(record, int(status))
    for kind, *tokens in others:
        if kind == "bytes":
            reply = bytes.fromhex(tokens[0])
        elif kind == "packet":
            sent += bytes.fromhex(tokens[0])
            clock.sent(packets.decode(bytes.fromhex(tokens[0])).kind)
        else:
            sent += clock.packet(kind, body_of(kind, tokens))
            clock.sent(kind)
    head = ENTRY.pack(place, record.actor, int(status), int(detail[0]) if detail else 0)
    return head + b"".join(len(it).to_bytes(transcript.LENGTH, "big") + it for it in (reply, sent))


def entries_of(played, answers):
    """The entries of the first of these records, whose answers stand in words."""
    clock = Clock()
    return [entry_of(place, record, words, clock) for place, (record, words) in enumerate(zip(played, answers))]


def end_of(status, played):
    """The end record after these records."""
    length = sum(len(it.content) for it in played)
    return transcript.END_OF.pack(int.from_bytes(transcript.END, "big"), status, len(played), length)
