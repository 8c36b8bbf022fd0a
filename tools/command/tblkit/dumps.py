"""The files that a service's dumps write, as its answers tell."""
from typing import Any

from . import files, names, packets, tables
from .states import DUMP_DROPPED, DUMP_WRITTEN

UNKNOWN = b"?"


def field_of(answer, name) -> bytes | None:
    """The bytes of a field of a record or of the command in it; None where it has no such field, as a command of a wrong form."""
    return next((raw for field, raw in answer.fields() if field.name == name), None)


def name_of(answer, field) -> bytes:
    """A name that a record or the command in it has; empty where it has none."""
    return names.name_in(field_of(answer, field) or b"")


class Dumps:
    """Follows the answers of a service. The file of a dump-only table's dump is written by a later request for housekeeping."""

    def __init__(self) -> None:
        self._files = {}

    def file_of(self, answer, row) -> bytes | None:
        """The file that an event of an answer is about, which is of the table in this row."""
        if answer.request == packets.HOUSEKEEPING:
            return self._files.get(answer.view.rows.get(row), UNKNOWN)
        return name_of(answer, "file")

    def written(self, answer) -> list[tuple[Any, bytes]]:
        """The names and contents of the files that a request wrote."""
        rows = [it.told.row for it in answer.packets if _tells(it, DUMP_WRITTEN)]
        if not rows:
            return []
        contents = files.split(answer.entry.reply) if answer.request == packets.HOUSEKEEPING else [answer.entry.reply]
        return list(zip([self.file_of(answer, it) for it in rows], contents))

    def follow(self, answer) -> None:
        """Goes on to what stands after an answer."""
        if answer.request == "Reset" or answer.status == tables.STOPPED:
            self._files = {}
        elif answer.request == "DUMP" and answer.status == tables.SUCCESS:
            self._files[names.quoted(name_of(answer, "table"))] = name_of(answer, "file")
        for packet in answer.packets:
            if _tells(packet, DUMP_WRITTEN, DUMP_DROPPED):
                self._files.pop(answer.view.rows.get(packet.told.row), None)


def _tells(packet, *numbers) -> bool:
    return packet.told is not None and packet.told.number in numbers
