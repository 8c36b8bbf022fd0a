"""The words of a line of session text: how a line is cut into words, and how the fields of a request are read from them
and written as them."""
from __future__ import annotations

import re
from collections.abc import Iterable
from typing import Any

from . import described, files, folders, names, proved
from .near import meant
from .numbers import counted

WORD = re.compile(r'\s*(?:(#.*)|"((?:[^"\\]|\\.)*)"(?=\s|$)|([^\s"]+)(?=\s|$)|$)')
ESCAPE = re.compile(r'\\(?:x([0-9A-Fa-f]{2})|(["\\]))')

NO_ASCII = "a name is made of the bytes 0x21 to 0x7E, and this one has other characters, in UTF-8 (in quotes \\xNN is any byte)"


class TextError(Exception):
    """A line that is none: what was expected and what stands there, where that stands in the line (none where it is the whole
    line), and the words that are allowed in its place."""

    def __init__(self, reason, at=None, allowed=()) -> None:
        super().__init__(reason)
        self.at, self.allowed = at, tuple(allowed)


class Word(str):
    """A word of a line, and where it begins and ends there. A quoted one never is a keyword or a number. `is_ascii` is said
    of it as it stands in the line: an escape is ASCII, whatever byte it stands for."""
    at, end, is_quoted, is_ascii = 0, 0, False, True

    def shown(self) -> str:
        """The word as a message names it."""
        return f'"{self[:40]}"' if self.is_quoted else self[:40]

    def from_wrong_digit(self) -> Word:
        """The word from the first character on that is no hexadecimal digit; a quoted one whole."""
        digits = 0 if self.is_quoted else len(re.match("[0-9A-Fa-f]*", self)[0])
        left = Word(self[digits:])
        left.at, left.end, left.is_quoted = self.at + digits, self.end, self.is_quoted
        return left


def _unescaped(text, at) -> str:
    """The characters of a quoted word: `\\xNN` is the byte NN, and a quote or backslash stands after a backslash."""
    if "\\" in ESCAPE.sub("", text):
        raise TextError(f'expected \\xNN, \\" or \\\\ after a backslash in "{text}"', at)
    return ESCAPE.sub(lambda found: chr(int(found[1], 16)) if found[1] else found[2], text)


def cut(line) -> list[Word]:
    """The words of a line, without its comment."""
    found, at = [], 0
    while at < len(line):
        match = WORD.match(line, at)
        if match is None:
            at += len(line[at:]) - len(line[at:].lstrip())
            raise TextError(f"expected words, or text between quotes, found {line[at:at + 20].strip()}", at)
        comment, text, bare = match.groups()
        if comment is not None or not match[0].strip():
            break
        written = match[0].lstrip()
        begin, at = match.end() - len(written), match.end()
        word = Word(bare if text is None else _unescaped(text, begin))
        word.at, word.end, word.is_quoted, word.is_ascii = begin, at, text is not None, written.isascii()
        found.append(word)
    return found


class Words:
    """The words of a line that are still to be read. `folder` is where the files are that it names: a path, or a Folder."""

    def __init__(self, line, folder=".") -> None:
        self._words, self._at = cut(line), 0
        self._folder = folder if isinstance(folder, folders.Folder) else folders.Folder(folder)
        # The words that were looked for where the next one stands.
        self._looked_for = {}

    def wrong(self, what, found="", word=None) -> TextError:
        """The error that another thing was expected where a word stands, or where the next one should."""
        allowed: Iterable[str] = ()
        if word is None:
            allowed = self._looked_for
            word = self._words[self._at] if not self.is_done() else None
        if word is None:
            end = self._words[-1].end if self._words else 0
            return TextError(f"expected {what}, found the end of the line", end, allowed)
        near = "" if word.is_quoted else meant(word, allowed)
        return TextError(f"expected {what}, found {found or word.shown()}{near}", word.at, allowed)

    def is_next(self, *wanted) -> bool:
        """Whether the next word is one of these, which are no quoted ones."""
        self._looked_for |= dict.fromkeys(wanted)
        word = self._words[self._at] if self._at < len(self._words) else None
        return word is not None and not word.is_quoted and word in wanted

    def is_done(self) -> bool:
        return self._at == len(self._words)

    def raw(self, at) -> bytes:
        """The bytes of the word at a place of the line, as a name has them."""
        return self._words[at].encode("latin-1")

    def take(self, what) -> Word:
        """The next word, which should be `what`."""
        if self.is_done():
            raise self.wrong(what)
        self._at += 1
        self._looked_for = {}
        return self._words[self._at - 1]

    def take_if(self, *wanted) -> bool:
        """Whether the next word was one of these; then it is taken."""
        is_there = self.is_next(*wanted)
        if is_there:
            self.take(wanted[0])
        return is_there

    def take_word(self, known, what) -> str:
        """The next word, which has to be one of those that are known."""
        if not self.is_next(*known):
            raise self.wrong(what)
        return str(self.take(what))

    def end(self) -> None:
        if not self.is_done():
            raise self.wrong("the end of the line")

    def number(self, what, most, least=0, joint=", ") -> int:
        """A number, decimal or with 0x hexadecimal."""
        what = f"{what}{joint}a number from {least} to {most}"
        if self.is_done():
            raise self.wrong(what)
        word = self._words[self._at]
        if word.is_quoted or not re.fullmatch(r"[0-9]{1,20}|0[xX][0-9A-Fa-f]{1,16}", word):
            raise self.wrong(what)
        value = int(word, 16 if word[:2] in ("0x", "0X") else 10)
        if not least <= value <= most:
            raise self.wrong(what)
        self.take(what)
        return value

    def name(self, what, width) -> bytes:
        """A name, as a bare word or in quotes."""
        word = self.take(what)
        if not word.is_ascii:
            raise self.wrong(f"{what} in ASCII", f"{word.shown()}: {NO_ASCII}", word)
        content = word.encode("latin-1")
        if b"\0" in content:
            raise self.wrong(f"{what} without zero bytes", "one", word)
        if len(content) > width:
            raise self.wrong(f"{what} of at most {width} bytes", len(content), word)
        return content

    def hexadecimal(self, what, most=None) -> bytes:
        """All words that are left, as hexadecimal digits, or `empty` for no byte."""
        if self.take_if("empty"):
            return b""
        if self.is_done():
            raise self.wrong(f"{what} in hexadecimal, or empty")
        first, digits = self._words[self._at], ""
        while not self.is_done():
            word = self.take("hexadecimal digits")
            if word.is_quoted or not re.fullmatch("[0-9A-Fa-f]+", word):
                raise self.wrong(f"{what} in hexadecimal, two digits a byte, or empty", word=word.from_wrong_digit())
            digits += word
        if len(digits) % 2:
            raise self.wrong(f"{what} in hexadecimal, two digits a byte, or empty", counted(len(digits), "digit"), first)
        if most is not None and len(digits) > 2 * most:
            raise self.wrong(f"{what} of at most {most} bytes", len(digits) // 2, first)
        return bytes.fromhex(digits)

    def data(self, what, most) -> bytes:
        """Bytes: `hex ..`, `fill BYTE COUNT`, `from FILE` or `empty`."""
        first = None if self.is_done() else self._words[self._at]
        how = self.take_word(("hex", "fill", "from", "empty"), f"{what} as hex, fill, from or empty")
        if how == "hex":
            content = self.hexadecimal(what)
        elif how == "fill":
            content = self._filled(most)
        else:
            content = self._file(most) if how == "from" else b""
        if len(content) > most:
            raise self.wrong(f"{what} of at most {most} bytes", len(content), first)
        return content

    def _filled(self, most) -> bytes:
        byte = self.take("a byte in hexadecimal")
        if not re.fullmatch("[0-9A-Fa-f]{2}", byte):
            raise self.wrong("a byte in hexadecimal", word=byte)
        return bytes.fromhex(byte) * self.number("how many bytes", most)

    def contents(self, name, most) -> bytes:
        """The first bytes of a file here, one more than `most` if it has more. It raises OSError or ValueError."""
        return self._folder.read(name, most)

    def _file(self, most) -> bytes:
        name = self.take("the name of a file here")
        try:
            return self.contents(name, most)
        except (OSError, ValueError) as error:
            reason = getattr(error, "strerror", None) or error
            raise TextError(f"expected a file that can be read: {name}: {reason}", name.at) from None

    def made_file(self) -> bytes:
        """The bytes of the table file that a description gives, from the words after `made`."""
        first = None if self.is_done() else self._words[self._at]
        text = self._file(proved.MOST_INPUT)
        try:
            return proved.make(text)
        except described.WrongLine as wrong:
            raise TextError(wrong.said_of(first), first.at) from None
        except proved.NoAnswer as none:
            raise TextError(f"expected a description of which a file can be made: {first}: {none}", first.at) from None


def data_words(content) -> str:
    """Bytes as words: `fill` where eight or more of them are the same and no other is there."""
    if not content:
        return "empty"
    if len(content) >= 8 and content.count(content[0]) == len(content):
        return f"fill {content[0]:02X} {len(content)}"
    return "hex " + content.hex().upper()


def table_file_words(content) -> str | None:
    """The words of a table file, or None where `table_file` doesn't give these bytes from its fields."""
    found = files.read_table_file(content)
    if found is None or files.table_file(found[1], found[0]) != content:
        return None
    values, image = found
    usual = files.defaults(len(image))
    said = ["table", names.quoted(values["table"]), "at", str(values["offset"])]
    for field in files.layout():
        value = values[field.name]
        if field.name not in ("table", "offset") and value != usual[field.name]:
            said += [HEADER_WORDS[field.name], _header_value(field, value)]
    return " ".join(said + [data_words(image)])


HEADER_WORDS = {field.name: "states" if field.name == "image bytes" else field.name
                for field in files.layout() if field.name not in ("table", "offset")}


def _header_value(field, value) -> str:
    if field.form == "name":
        return names.quoted(value)
    return f"0x{value:08X}" if field.form == "hex" else str(value)


def read_table_file(words) -> bytes:
    """The bytes of a table file from the words after `table`."""
    values = {"table": words.name("the full name of a table", names.field("table file header", "table").width)}
    if words.take_if("at"):
        values["offset"] = words.number("the offset", (1 << 32) - 1)
    values |= read_header(words)
    return files.table_file(words.data("the image", files.MOST_IMAGE), values)


def read_header(words) -> dict[str, Any]:
    """The fields of the headers that are other than by default, from the words that are next."""
    values = {}
    fields = {HEADER_WORDS[it.name]: it for it in files.layout() if it.name in HEADER_WORDS}
    while words.is_next(*fields):
        word = str(words.take("a field of the header"))
        field = fields[word]
        values[field.name] = (words.name(word, field.width) if field.form == "name"
                              else words.number(word, (1 << 8 * field.width) - 1))
    return values
