"""The first entry in which two transcripts differ, by field."""
import itertools
from collections.abc import Iterator
from typing import Any

from . import transcript
from .answers import Answer, end_words
from .show import listed


def _fields(answer) -> dict[str, str]:
    """The fields of an answer in the order of its bytes, by name and in words."""
    if answer is None:
        return {}
    if isinstance(answer, transcript.Broken):
        return {"broken": f"{answer.reason}: {answer.content.hex().upper()}"}
    if isinstance(answer, transcript.End):
        return {"end": end_words(answer)}
    entry = answer.entry
    told = {"place": str(entry.number("place")), "actor": str(answer.actor), "status": answer.status_words()}
    detail = answer.detail()
    told[detail.name if detail else "detail"] = detail.words if detail else "0"
    for number, (kind, fields) in enumerate(answer.reply(), 1):
        told[f"reply {number}, {kind}"] = listed(fields, True)
    for number, packet in enumerate(answer.packets, 1):
        told[f"packet {number}"] = packet.kind
        told |= {f"packet {number}, {it.name}": it.words for it in packet.header + packet.body}
    return told


def _beside(one, other) -> Any:
    """A part of the other transcript, an entry as an answer to the same record."""
    if not isinstance(other, transcript.Entry):
        return other
    is_same = isinstance(one, Answer) and one.actor == other.number("actor")
    return Answer(other, one.record if is_same else None)


def lines(answers, parts) -> Iterator[str] | Iterator[str | str]:
    """What to say of the first part in which two transcripts differ: no line where they are the same."""
    for one, other in itertools.zip_longest(answers, parts):
        if (one.entry if isinstance(one, Answer) else one) == other:
            continue
        other = _beside(one, other)
        known = next((it for it in (one, other) if isinstance(it, Answer)), None)
        yield f"entry {known.entry.number('place')}, {known.line()}:" if known else "the end:"
        left, right = _fields(one), _fields(other)
        found = [f"  {name}: {left.get(name, 'none')} | {right.get(name, 'none')}"
                 for name in left | right if left.get(name) != right.get(name)]
        yield from found or _first_byte(one, other)
        return


def _first_byte(one, other) -> Iterator[str]:
    """The first byte in which two answers differ whose fields read the same: in long data, or where nobody looks."""
    for name, left, right in (("reply bytes", one.entry.reply, other.entry.reply),
                              ("packets", one.entry.sent, other.entry.sent)):
        for place, (a, b) in enumerate(zip(left, right)):
            if a != b:
                yield f"  byte {place} of the {name}: {a:02X} | {b:02X}"
                return
