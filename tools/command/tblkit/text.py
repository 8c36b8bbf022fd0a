"""Sessions as text, a line a request, and back. `cfetbl text --help` tells the forms of the lines."""
import functools
import os
import textwrap

from . import names, packets, records, words
from .fields import lines as by_field
from .words import TextError, Words

LONGEST_LINE = 1 << 20
LONGEST_SHOWN = 100
FEW = 256
MOST_WRONG = 10
BYTE_ORDER_MARK = b"\xef\xbb\xbf"
LABELS = {"size": "size", "offset": "at", "length": "length", "message id": "message", "function code": "code",
          "parameter": "parameter"}
RAW = "bytes"
START = bytes([next(number for number, it in names.requests().items() if it.name == "Start")])
# What makes the bytes of a file of the words after each of these.
FILES = {"table": words.read_table_file, "made": Words.made_file, "built": by_field.built, "set": by_field.changed}
# Which word the name is in `app 1 register NAME`.
NAME_AT = 3


def record_of(line, folder=".") -> bytes:
    """The bytes that a line stands for: none where it is empty or a comment."""
    left = Words(line, folder)
    if left.is_done():
        return b""
    word = left.take_word(("app", *_requests(True), RAW), "app, ground, file, time, reset or bytes")
    if word == RAW:
        content = left.hexadecimal("the bytes")
    elif word == "app":
        content = _application_record(left)
    else:
        request = _requests(True)[word]
        content = records.spelling(request, 0, _packet(left) if request.name == "Command" else _body(left, request))
    left.end()
    return content


@functools.cache
def _requests(is_ground) -> dict[str, names.Request]:
    """The requests of the ground or of applications, by their words."""
    return {it.word: it for it in names.requests().values() if it.is_ground == is_ground}


@functools.cache
def _commands() -> tuple[str, ...]:
    return tuple(it.name for it in names.named("command").values()) + (packets.HOUSEKEEPING,)


def _application_record(left) -> bytes:
    actor = left.number("the number of an application", max(records.APPLICATIONS), min(records.APPLICATIONS))
    known = _requests(False)
    request = known[left.take_word(known, "a request of an application")]
    return records.spelling(request, actor, _body(left, request))


def _body(left, request) -> bytes:
    return b"".join(_field_bytes(left, it, request) for it in names.fields(request.name))


def _packet(left) -> bytes:
    """The packet of a ground line: a command of its own form, or any bytes."""
    name = left.take_word((*_commands(), "packet"), "a command, or packet")
    if name == "packet":
        return left.hexadecimal("the packet", records.MOST_BODY)
    payload = b"".join(_field_bytes(left, it) for it in names.fields(name))
    count = left.number("the sequence count", packets.MOST_COUNT) if left.take_if("count") else 0
    return packets.command(name, payload, count)


def _field_bytes(left, field, request=None) -> bytes:
    """The bytes of a field, from the words that are next."""
    if field.form == "data":
        if field.owner == "File":
            for word, make in FILES.items():
                if left.take_if(word):
                    return make(left)
        return left.data(f"the {field.name}", records.lengths(request)[1] - field.place)
    if field.form == "name":
        return left.name(f"the {field.name}", field.width).ljust(field.width, b"\0")
    if field.form in OPTIONAL:
        value = OPTIONAL[field.form][0](left)
    elif names.words(field.form):
        value = _coded(left, field)
    else:
        label = LABELS.get(field.name)
        if label:
            left.take_word((label,), label)
        value = left.number(f"the {field.name}", (1 << 8 * field.width) - 1)
    return value.to_bytes(field.width, "big")


def _coded(left, field) -> int:
    """A number that has words. The kind of a reset is always a word: no other number makes a record."""
    known = {word: number for number, word in names.words(field.form).items()}
    if field.form != "reset" and not left.is_next(*known):
        return left.number(", ".join(known), (1 << 8 * field.width) - 1, joint=" or ")
    return known[left.take_word(known, " or ".join(known))]


def _read_options(left) -> int:
    if left.take_if("options"):
        return left.number("the options", 0xFFFF)
    known = {word: bit for bit, word in names.bits("options").items()}
    value = 0
    while left.is_next(*known):
        value |= known[str(left.take("an option"))]
    return value


def _write_options(value) -> str:
    known = names.bits("options")
    if value & ~sum(known):
        return f"options 0x{value:04X}"
    return " ".join(word for bit, word in known.items() if value & bit)


def _read_validator(left) -> int:
    return left.number("the number of a validator", 0xFF) if left.take_if("validator") else 0xFF


def _write_validator(value) -> str:
    return "" if value == 0xFF else f"validator {value}"


OPTIONAL = {"options": (_read_options, _write_options), "validator": (_read_validator, _write_validator)}


def line_of(piece) -> str:
    """The line of a piece of a session. It gives the same bytes again; a comment says why bytes are no record."""
    if piece.fault:
        return f"{RAW} {piece.content.hex().upper()}    # {piece.fault}"
    return _kept_line(piece.content) if len(piece.content) <= FEW else _line_of(piece)


@functools.lru_cache(packets.KEPT)
def _kept_line(content) -> str:
    """The line of a record of few bytes, which may come again and again."""
    return _line_of(records.Piece(0, content))


def _line_of(piece) -> str:
    request, body = piece.request, piece.body
    if request.name == "Command":
        return "ground " + _packet_words(body)
    front = request.word if request.is_ground else f"app {piece.actor} {request.word}"
    return " ".join(it for it in (front, *(_field_words(field, body) for field in names.fields(request.name))) if it)


def _packet_words(packet) -> str:
    name = packets.command_name(packet)
    if name:
        count = packets.number(packet[2:4]) & packets.MOST_COUNT
        said = [name] + [_field_words(it, packet[packets.COMMAND_HEADER:]) for it in names.fields(name)]
        payload = b"".join(_plain(it, packet[packets.COMMAND_HEADER:]) for it in names.fields(name))
        if packets.command(name, payload, count) == packet:
            return " ".join(said + ([f"count {count}"] if count else []))
    return "packet " + (packet.hex().upper() or "empty")


def _plain(field, content) -> bytes:
    """A field as its words give it: after a name only zeros."""
    raw = field.of(content)
    return names.name_in(raw).ljust(field.width, b"\0") if field.form == "name" else raw


def _field_words(field, body) -> str:
    """The words of a field; none for an option or validator that isn't there."""
    raw = field.of(body)
    value = packets.number(raw) if field.width else 0
    if field.form == "data":
        as_table = words.table_file_words(raw) if field.owner == "File" else None
        return as_table or words.data_words(raw)
    if field.form == "name":
        return names.quoted(names.name_in(raw))
    if field.form in OPTIONAL:
        return OPTIONAL[field.form][1](value)
    if names.words(field.form):
        return names.words(field.form).get(value) or str(value)
    label = LABELS.get(field.name)
    shown = f"0x{value:04X}" if field.form == "hex" else str(value)
    return f"{label} {shown}" if label else shown


class WrongLines(Exception):
    """The lines of a session that are none, each as the lines of its report."""

    def __init__(self, reports) -> None:
        super().__init__("\n".join(reports))


def doubled_name(content, applications) -> str | None:
    """The full name of the table or block that a record registers, if its short name begins with an application's name too. By
    their numbers `applications` has the names of those that started."""
    request = names.requests().get(content[0]) if len(content) > records.HEAD else None
    if request is None or request.name not in ("Register", "CdsRegister"):
        return None
    piece = records.Piece(0, content)
    short, own = names.name_in(names.field(request.name, "short name").of(piece.body)), applications.get(piece.actor)
    if own is None or not any(short.startswith(it + b".") for it in applications.values()):
        return None
    return names.quoted(own + b"." + short)


def doubled_words(full_name) -> str:
    """What is said of such a name."""
    return f"the application's name is put before this one, so the full name is {full_name}"


class Doubled:
    """Looks for such names in a session as text, and says of each where it is."""

    def __init__(self, say, name) -> None:
        self._say, self._name, self._applications = say, name, {}

    def take(self, number, line, content) -> None:
        """Takes a line and its record."""
        if content[:1] == START and len(content) > records.HEAD:
            self._applications[content[1]] = names.name_in(content[records.HEAD:])
        full_name = doubled_name(content, self._applications)
        if full_name:
            at = words.cut(line)[NAME_AT].at if not line.lstrip().startswith(RAW) else 0
            self._say(f"{self._name}:{number}:{at + 1}: {doubled_words(full_name)}")


def to_records(lines, into, folder=".", name="<stdin>", say=None) -> None:
    """Writes the records of the lines, which are bytes. Lines that are none end it with all of them, or with as many as are
    told at once. `say` says what may be meant otherwise."""
    doubled = Doubled(say or (lambda _: None), name)
    wrong, number, line = [], 0, b"\n"
    while len(wrong) < MOST_WRONG and line.endswith(b"\n") and (line := lines.readline(LONGEST_LINE)):
        number += 1
        if number == 1:
            line = line.removeprefix(BYTE_ORDER_MARK)
        text = line.decode("utf-8", "replace")
        try:
            if len(line) == LONGEST_LINE and not line.endswith(b"\n"):
                raise TextError(f"expected a line of fewer than {LONGEST_LINE} bytes, found a longer one")
            content = record_of(text, folder)
            into.write(content)
            doubled.take(number, text, content)
        except TextError as error:
            wrong.append(report(f"{name}:{number}", text, error))
    if len(wrong) == MOST_WRONG:
        wrong.append(f"{name}: no line was looked at after the {MOST_WRONG} wrong ones")
    if wrong:
        raise WrongLines(wrong)


def report(place, line, error) -> str:
    """What is said of a line that is none: where and why, then the line with a caret where it goes wrong, and the words that
    are allowed there."""
    said = [f"{place}:{(error.at or 0) + 1}: {error}"]
    if error.at is not None:
        plain = "".join(it if it.isprintable() else " " if it.isspace() else "?" for it in line.rstrip())
        first = max(0, error.at - LONGEST_SHOWN * 2 // 3) if len(plain) > LONGEST_SHOWN else 0
        said += ["    " + plain[first:first + LONGEST_SHOWN], "    " + " " * (error.at - first) + "^"]
    if error.allowed:
        said += textwrap.wrap("allowed here: " + " ".join(error.allowed), LONGEST_SHOWN, initial_indent="    ",
                              subsequent_indent="      ", break_on_hyphens=False)
    return "\n".join(said)


def to_text(session, into) -> None:
    """Writes the lines of a session, each as bytes."""
    for piece in records.pieces(session):
        into.write(line_of(piece).encode("ascii") + b"\n")


def folder_of(name) -> str:
    """The folder from which a session as text names files: its own, or that of the caller where it is no file."""
    return os.path.dirname(name) if name != "-" and os.path.dirname(name) else "."
