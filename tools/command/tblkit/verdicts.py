"""How the verdicts of an application's own validation functions are handed to the program, whose functions are its own: a table with
a function is played with one byte more in front, at which the program's function looks. It is 1 for the verdict 0, and 0 for another.
"""
from . import files, layouts, names

ACCEPTED, REJECTED = b"\1", b"\0"
# The most bytes that a table may have, so that one more finds room.
MOST = layouts.number("bytes of a table") - 1
HEADER = files.TABLE_HEADER


def function_of(actor) -> int:
    """The number of the program's function of an application that looks at the first byte alone."""
    return 2 * actor - 2


def verdict_byte(verdict) -> bytes:
    return ACCEPTED if verdict == 0 else REJECTED


def table_of(content) -> str | None:
    """The full name of the table that a table file names, or None where it has no such header."""
    return names.quoted(names.name_in(names.field("table file header", "table").of(content[:HEADER]))) if len(content) >= HEADER else None


def file_with_verdict(content, verdict=0) -> bytes:
    """A table file for the table with a byte more: at its front if it begins there, and else one byte further on. What is wrong with
    the file stays so."""
    offset, count = (int.from_bytes(names.field("table file header", it).of(content), "big") for it in ("offset", "image bytes"))
    if offset == 0 and 0 < count < (1 << 32) - 1:
        return _with_number(content[:HEADER], "image bytes", count + 1) + verdict_byte(verdict) + content[HEADER:]
    return content if offset == 0 or offset == (1 << 32) - 1 else _with_number(content, "offset", offset + 1)


def file_without_byte(content) -> bytes:
    """A table file as the log has it, of one that was dumped of a table with a byte more."""
    count = int.from_bytes(names.field("table file header", "image bytes").of(content), "big")
    return _with_number(content[:HEADER], "image bytes", count - 1) + content[HEADER + 1:]


def _with_number(content, name, value) -> bytes:
    field = names.field("table file header", name)
    return content[:field.place] + value.to_bytes(field.width, "big") + content[field.place + field.width:]
