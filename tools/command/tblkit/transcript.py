"""The transcript: an entry for each request that was played, and the end record."""
import typing
from collections.abc import Iterator
from dataclasses import dataclass

from . import layouts, names

END_OF = layouts.shape("end record")
END = b"\xff" * names.field("end record", "place").width
END_SIZE = END_OF.size
ENTRY_HEAD = layouts.end_of("entry")
# The numbers of an entry's head by their names.
NUMBERS = {it.name: at for at, it in enumerate(names.fields("entry"))}
HEAD = layouts.shape("entry")
# Before the reply and before the packets stands how many bytes they have.
LENGTH = 4
MOST_REPLY = 1 << 26
INSIDE = "the transcript breaks off inside an entry"


class Entry(typing.NamedTuple):
    """The answer to one request. `head` has its place, actor, status and detail."""
    head: bytes
    reply: bytes
    sent: bytes

    def raw(self, name) -> bytes:
        return names.field("entry", name).of(self.head)

    def number(self, name) -> int:
        return HEAD.unpack(self.head)[NUMBERS[name]]


@dataclass(frozen=True)
class End:
    """How the run ended: its status, the number of entries, and the bytes of the records that were played."""
    status: int
    entries: int
    place: int


@dataclass(frozen=True)
class Broken:
    """What stands where no whole entry or end record does: why, and its first bytes."""
    reason: str
    content: bytes
    # Whether no byte of a transcript came before.
    is_empty: bool = False


def parts(stream) -> Iterator[Entry | Broken | End]:
    """The entries of a transcript, then its end record. `Broken` comes last where the bytes go another way."""
    is_empty = True
    while True:
        head = stream.read(ENTRY_HEAD)
        if head.startswith(END) and len(head) == END_SIZE:
            yield End(*END_OF.unpack(head)[1:])
            further = stream.read(ENTRY_HEAD)
            if further:
                yield Broken("there are bytes after the end record", further)
            return
        try:
            if len(head) < ENTRY_HEAD:
                raise _Cut(INSIDE if head else "there is no end record")
            reply, sent = _counted(stream), _counted(stream)
        except _Cut as cut:
            yield Broken(str(cut), head, is_empty and not head)
            return
        is_empty = False
        yield Entry(head, reply, sent)


class _Cut(Exception):
    pass


def _counted(stream) -> bytes:
    """Bytes after their length."""
    length = stream.read(LENGTH)
    if len(length) < LENGTH:
        raise _Cut(INSIDE)
    count = int.from_bytes(length, "big")
    if count > MOST_REPLY:
        raise _Cut(f"an entry states {count} bytes, which no answer has")
    content = stream.read(count) if count else b""
    if len(content) < count:
        raise _Cut(INSIDE)
    return content
