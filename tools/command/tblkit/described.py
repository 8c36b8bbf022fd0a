"""Descriptions of table files: text that gives the exact file, and the text that a file gives back by a shape.

What `cfetbl make` and `cfetbl describe` write is the program's (`proved`). Here stands why an input has no answer. The rows of
test_maker have the files and texts of `make` and `describe` here, which share nothing with the program.
"""
import re
from collections.abc import Iterator
from dataclasses import dataclass

from . import files, layouts
from .numbers import counted

LIMIT = layouts.number("bytes of a table")
MOST_HEX = 64
NAME = re.compile(rb"[\x21-\x2D\x2F-\x7E]{1,20}\.[\x21-\x7E]{1,16}")
NUMBER = re.compile(rb"0|[1-9][0-9]*")
SIGNED = re.compile(rb"0|-?[1-9][0-9]*")
FIELD_NAME = re.compile(rb"[a-z0-9_]{1,16}")
HEX = re.compile(rb"([0-9A-F]{2}){1,64}")
TYPE = re.compile(rb"([ui])(8|16|32)")
TYPES = "u8, u16, u32, i8, i16, i32 or hex"


class WrongLine(Exception):
    """The first line that is none of a description: its number, its bytes, what was expected and at which byte."""

    def __init__(self, number, line, expected, at=0) -> None:
        super().__init__(expected)
        self.number, self.line, self.expected, self.at = number, line, expected, at

    def said_of(self, name) -> str:
        """The message, with a caret under the place."""
        line = self.line.decode("ascii", "replace")
        return f"{name}:{self.number}:{self.at + 1}: expected {self.expected}\n  {line}\n  {' ' * self.at}^"


class WrongShape(Exception):
    """A word that is no shape, and why."""


@dataclass(frozen=True)
class Form:
    """The type and the name of a field. `sign` is u or i, and empty for bytes in hexadecimal."""
    sign: str
    size: int
    name: str

    def text_of(self, raw) -> str:
        """The value of the field that has these bytes."""
        if not self.sign:
            return raw.hex().upper()
        return str(int.from_bytes(raw, "big", signed=self.sign == "i"))

    def line_of(self, raw) -> str:
        kind = f"{self.sign}{8 * self.size}" if self.sign else "hex"
        return f"{kind} {self.name} {self.text_of(raw)}\n"


def _split(text) -> tuple[list[bytes], bytes]:
    """The lines that a newline ends, and what stands after the last of them."""
    *lines, rest = text.split(b"\n")
    return lines, rest


def _value(line, at, kind, text) -> bytes:
    """The bytes of a value of a type, whose text stands at a byte of the line."""
    number, source = line
    if kind == b"hex":
        if not HEX.fullmatch(text):
            raise WrongLine(number, source, f"1 to {MOST_HEX} bytes as pairs of 0 to 9 and A to F", at)
        return bytes.fromhex(text.decode())
    sign, bits = TYPE.fullmatch(kind).groups()
    bits = int(bits)
    low, high = (0, (1 << bits) - 1) if sign == b"u" else (-(1 << bits - 1), (1 << bits - 1) - 1)
    if not SIGNED.fullmatch(text) or len(text) > 11 or not low <= int(text) <= high:
        raise WrongLine(number, source, f"a number from {low} to {high}, in decimal digits without leading zeros", at)
    return int(text).to_bytes(bits // 8, "big", signed=sign == b"i")


def _field(line, room) -> bytes:
    number, source = line
    kind, space, rest = source.partition(b" ")
    if not TYPE.fullmatch(kind) and kind != b"hex":
        raise WrongLine(number, source, f"a field: TYPE NAME VALUE, where TYPE is {TYPES}")
    if not space:
        raise WrongLine(number, source, "a space and the field's name", len(source))
    name, space, text = rest.partition(b" ")
    at = len(kind) + 1
    if not FIELD_NAME.fullmatch(name):
        raise WrongLine(number, source, "the field's name: 1 to 16 of a to z, 0 to 9 and _", at)
    if not space:
        raise WrongLine(number, source, "a space and the field's value", len(source))
    raw = _value(line, at + len(name) + 1, kind, text)
    if len(raw) > room:
        raise WrongLine(number, source, f"fields that end within {LIMIT} bytes: this one has {len(raw)}, and {room} are left")
    return raw


def make(text) -> bytes:
    """The table file of a description."""
    lines, rest = _split(text)

    def line(number) -> bytes:
        if number > len(lines):
            raise WrongLine(number, rest, "a newline at the line's end" if rest else
                            ("`table NAME`", "`offset N`", "a field: TYPE NAME VALUE")[min(number, 3) - 1], len(rest))
        return lines[number - 1]

    first = line(1)
    if not first.startswith(b"table "):
        raise WrongLine(1, first, "`table NAME`, with the table's full name")
    if not NAME.fullmatch(first[6:]):
        raise WrongLine(1, first, "a full name: an application's of at most 20 bytes, a dot, and a table's of at most 16", 6)
    second = line(2)
    if not second.startswith(b"offset "):
        raise WrongLine(2, second, "`offset N`, with the place of the first byte in the table's image")
    if not NUMBER.fullmatch(second[7:]) or len(second) > 12 or int(second[7:]) >= LIMIT:
        raise WrongLine(2, second, f"a number from 0 to {LIMIT - 1}, in decimal digits without leading zeros", 7)
    offset, image = int(second[7:]), b""
    line(3)
    for number in range(3, len(lines) + 1 + bool(rest)):
        image += _field((number, line(number)), LIMIT - offset - len(image))
    return files.table_file(image, {"table": first[6:], "offset": offset})


def wrong_line(text, number) -> WrongLine:
    """What is wrong with the first line that is none of a description, of which the number is known."""
    try:
        make(text)
    except WrongLine as wrong:
        if wrong.number == number:
            return wrong
    line = text.split(b"\n")[number - 1:number]
    return WrongLine(number, line[0] if line else b"", "a line of a description")


def read_shape(word) -> list[Form]:
    """The forms that a shape writes, as `u16:limit,i16:gain`."""
    forms = []
    for piece in word.split(","):
        kind, colon, name = piece.partition(":")
        number = TYPE.fullmatch(kind.encode("utf-8", "surrogateescape"))
        length = kind[3:] if kind.startswith("hex") else ""
        if number:
            sign, size = number[1].decode(), int(number[2]) // 8
        elif re.fullmatch("[1-9][0-9]?", length, re.ASCII) and int(length) <= MOST_HEX:
            sign, size = "", int(length)
        else:
            raise WrongShape(f"expected u8, u16, u32, i8, i16, i32 or hexN with N from 1 to {MOST_HEX} before the colon of {piece!r}")
        if not colon or not FIELD_NAME.fullmatch(name.encode("utf-8", "surrogateescape")):
            raise WrongShape(f"expected a colon and a name of 1 to 16 of a to z, 0 to 9 and _ in {piece!r}")
        forms.append(Form(sign, size, name))
    if size_of(forms) > LIMIT:
        raise WrongShape(f"the fields have {size_of(forms)} bytes, and a table at most {LIMIT}")
    return forms


def wrong_shape(word) -> WrongShape:
    """What is wrong with a word that is no shape."""
    try:
        read_shape(word)
    except WrongShape as wrong:
        return wrong
    return WrongShape("it is none")


def size_of(forms) -> int:
    return sum(form.size for form in forms)


def values(forms, image) -> Iterator[tuple[Form, bytes]]:
    """The fields of an image, each with its bytes."""
    at = 0
    for form in forms:
        yield form, image[at:at + form.size]
        at += form.size


class NotDescribed(Exception):
    """Why a file isn't described by a shape, and whether its number of bytes is the reason."""

    def __init__(self, reason, is_length=False) -> None:
        super().__init__(reason)
        self.is_length = is_length


def describe(forms, content) -> bytes:
    """The description of a table file by a shape."""
    found = files.read_table_file(content)
    if found is None or found[0]["content"] != files.CONTENT or found[0]["subtype"] != files.TABLE_SUBTYPE:
        raise NotDescribed("it is no table file")
    values_, image = found
    stated, name, offset = values_["image bytes"], values_["table"], values_["offset"]
    name = name if isinstance(name, bytes) else name.encode("latin-1")
    if stated != len(image):
        raise NotDescribed(f"it states {stated} image bytes, and has {len(image)}")
    if not NAME.fullmatch(name):
        raise NotDescribed("the name in it is no full name")
    if not image or offset + len(image) > LIMIT:
        raise NotDescribed(f"its {counted(len(image), 'image byte')} from offset {offset} on are no part of a table of at most {LIMIT} bytes")
    if size_of(forms) != len(image):
        raise NotDescribed(f"the shape has {counted(size_of(forms), 'byte')}, and the image {len(image)}", True)
    lines = "".join(form.line_of(raw) for form, raw in values(forms, image))
    return f"table {name.decode()}\noffset {offset}\n{lines}".encode()


def not_described(shape, content, is_length) -> NotDescribed:
    """Why a file isn't described by a shape, of which it is known whether its number of bytes is the reason."""
    try:
        describe(read_shape(shape), content)
    except NotDescribed as why:
        if why.is_length == is_length:
            return why
    return NotDescribed("the shape has another length" if is_length else "it is no table file", is_length)
