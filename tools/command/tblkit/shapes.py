"""Images by field: which fields the shapes of tables give to bytes that stand at an offset of an image."""
import argparse
from collections.abc import Iterator
from typing import Any

from . import described, files, names, programs, records
from .fields import definitions, loads
from .fields.wrong import NoReader, Wrong
from .numbers import counted
from .streams import WRONG_USE, fail

READ, WRITTEN = "Read", ("LoadImage", "Edit")
# How many fields of an object's table are told at once.
MOST_FIELDS = 24


class _Forms:
    """A shape that is written out, as u16:limit,i16:gain."""

    def __init__(self, word) -> None:
        self._forms = described.read_shape(word)

    def told(self, offset, content, _is_all) -> list[str]:
        told, at = [], 0
        for form in self._forms:
            begin, end = at - offset, at - offset + form.size
            if 0 <= begin and end <= len(content):
                told.append(f"{form.name} {form.text_of(content[begin:end])}")
            at += form.size
        if offset + len(content) > at:
            told.append(f"{counted(offset + len(content) - max(at, offset), 'byte')} after the last field")
        return told


class _Object:
    """The shape of the table that an object file defines."""

    def __init__(self, path) -> None:
        self._definition = definitions.read(path)

    def told(self, offset, content, is_all) -> list[str]:
        layout, part = self._definition.layout, loads.Part(offset, content[:max(0, self._definition.layout.size - offset)])
        whole = [it for it in layout.fields if part.has(it)]
        told = [f"{it.name} {part.text_of(it)}" for it in (whole if is_all else whole[:MOST_FIELDS])]
        if len(told) < len(whole):
            told.append(f"and {counted(len(whole) - len(told), 'more field')} (--all)")
        if offset + len(content) > layout.size:
            told.append(f"{counted(offset + len(content) - max(layout.size, offset), 'byte')} after the last field")
        return told


class Shapes:
    """The shapes of tables by their full names, as `--shape NAME=SHAPE` gives them, and `--shape-of NAME=OBJ`."""

    def __init__(self, words=(), objects=()) -> None:
        self._shapes = dict(_named(it, "CS_APP.Limits=u16:limit,i16:gain", _Forms) for it in words)
        self._shapes |= dict(_named(it, "CS_APP.Limits=limits.o", _Object) for it in objects)

    def __bool__(self) -> bool:
        return bool(self._shapes)

    @property
    def names(self) -> list[str]:
        """The full names of the tables."""
        return list(self._shapes)

    def lines(self, answer, is_all=False) -> Iterator[str]:
        """A line for each image, or part of one, that a request brought or that its reply has: the table and its fields."""
        for table, offset, content in _parts(answer):
            if table in self._shapes:
                yield f"{table}: {', '.join(self._shapes[table].told(offset, content, is_all)) or 'no whole field'}"


def _named(word, example, shape) -> tuple[str, Any]:
    """A table's name with its shape."""
    name, sign, rest = word.partition("=")
    if not sign:
        raise described.WrongShape(f"expected NAME={'SHAPE' if shape is _Forms else 'OBJ'}, as {example}, in {word!r}")
    return name, shape(rest)


def add_options(parser) -> None:
    """The options that give shapes."""
    for option in ("--shape", "--shape-of"):
        parser.add_argument(option, action="append", default=[])


def of_options(tool, parser: argparse.ArgumentParser, chosen) -> Shapes:
    """The shapes that options gave."""
    try:
        return Shapes(chosen.shape, chosen.shape_of)
    except described.WrongShape as wrong:
        parser.error(f"{'--shape' if 'NAME=OBJ' not in str(wrong) else '--shape-of'}: {wrong}")
    except Wrong as wrong:
        fail(tool, f"--shape-of: {wrong}", WRONG_USE)
    except NoReader as none:
        fail(tool, str(none), programs.NO_PROGRAM)


def tables_of(session) -> set[str]:
    """The full names of the tables that a session registers or has in its files, whatever their answers are."""
    applications, found = {}, set()
    session.seek(0)
    for piece in records.pieces(session):
        if piece.fault:
            break
        name, body = piece.request.name, piece.body
        fields = {it.name: it.of(body) for it in names.fields(name) if it.form == "name"}
        if name == "Start":
            applications[piece.actor] = names.name_in(fields["name"])
        elif name == "Register" and piece.actor in applications:
            found.add(names.quoted(applications[piece.actor] + b"." + names.name_in(fields["short name"])))
        elif name == "Share":
            found.add(names.quoted(names.name_in(fields["table"])))
        elif name == "File":
            found.update(table for table, _, _ in _images(body[names.field("File", "contents").place:]))
    session.seek(0)
    return found


def _images(content) -> Iterator[tuple[str, int, bytes]]:
    """The image of a table file, if these bytes are one, with its table's full name and its offset."""
    read = files.read_table_file(content)
    if read and read[0]["content"] == files.CONTENT and read[0]["subtype"] == files.TABLE_SUBTYPE:
        yield names.quoted(read[0]["table"]), read[0]["offset"], read[1]


def _parts(answer) -> Iterator[tuple[str, int, bytes]]:
    """The bytes of images in an answer, each with its table's full name and the offset of the first."""
    record = answer.record
    if record is None:
        return
    name, body = record.request.name, record.body
    if name == READ and answer.status == 0 or name in WRITTEN:
        handle = answer.handle()
        fields = {it.name: it.of(body) for it in names.fields(name)}
        offset = int.from_bytes(fields.get("offset", b""), "big")
        content = answer.entry.reply if name == READ else fields.get("image", fields.get("bytes", b""))
        if handle and handle.table:
            yield handle.table, offset, content
    contents = [body[64:]] if name == "File" else list(files.split(answer.entry.reply)) if name == "Command" else []
    for one in contents:
        yield from _images(one)
