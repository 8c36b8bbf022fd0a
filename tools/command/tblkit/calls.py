"""The log of an application's calls on another implementation: `app N CALL ARGUMENTS -> RETURN CODE RESULTS`, what its validation
functions said, and what it wrote in place; and how each call is made here. Other lines are those of session text.
"""
from dataclasses import dataclass
from typing import Any

from . import layouts, names, verdicts
from .tables import REGISTERED, SUCCESS
from .words import TextError, Words

ARROW = "->"
# The version of a log, which its first line has if the recorder wrote it, and the words of that line and of the last one.
VERSION, LOG, END = 2, "log", "end"
DUPLICATE, EXISTS = layouts.statuses("DUPLICATE", "CDS_EXISTS")
LONGEST_NAME = 64
# A handle and a slot that nobody is given here, for one that the log doesn't have from a registration.
NO_HANDLE = 0xFFFF
HANDLE_GIVEN = {"Register": (*REGISTERED, DUPLICATE), "Share": (SUCCESS,), "CdsRegister": (SUCCESS, EXISTS)}


@dataclass(frozen=True)
class Call:
    """A call of the log: who made it, its name, its arguments, its return code, and what it gave, by words. `images` has the bytes at
    each address that it gave."""
    actor: int
    name: str
    arguments: Words
    code: str
    gave: dict
    images: tuple


@dataclass(frozen=True)
class Verdict:
    """What a validation function of an application said of an image of a table, inside the next call of the application."""
    actor: int
    table: bytes
    verdict: int


@dataclass(frozen=True)
class Written:
    """What an application wrote through the address of a handle: all bytes of the table by then."""
    actor: int
    handle: str
    content: bytes


@dataclass(frozen=True)
class Mark:
    """The first line of a log that the recorder wrote, or the last one."""
    is_end: bool


def read(line) -> Any:
    """What a line of the log has, or None if it is a line of session text."""
    front, arrow, back = line.partition(f" {ARROW} ")
    left = Words(front)
    if left.is_next(LOG):
        return _mark(left)
    if arrow:
        return _call(left, Words(back))
    words = line.split(maxsplit=3)
    return _told(Words(line)) if words[:1] == ["app"] and words[2:3] and words[2] in ("verdict", "wrote") else None


def _mark(left) -> Mark:
    left.take(LOG)
    is_end = left.take_if(END)
    if not is_end and left.number("the version of the log", 1 << 32) != VERSION:
        raise TextError(f"expected a log of version {VERSION}: this one is of another version", 0)
    left.end()
    return Mark(is_end)


def _actor(left) -> int:
    left.take_word(("app",), "app")
    return left.number("the number of an application", 16, 1)


def _call(left, results) -> Call:
    actor = _actor(left)
    name = left.take_word(CALLS, "a call of cFE")
    code = str(results.take("a return code"))
    gave, images = {}, []
    while not results.is_done():
        word = str(results.take("what the call gave"))
        value = results.take("its value")
        gave[word] = str(value)
        if word == "bytes":
            images.append(_image(results, value))
    return Call(actor, name, left, code if code.strip("0x") else "CFE_SUCCESS", gave, tuple(images))


def _image(left, digits) -> bytes | None:
    """Bytes as a word, or None for an address that wasn't given."""
    if digits in ("empty", "none"):
        return b"" if digits == "empty" else None
    try:
        return bytes.fromhex(digits)
    except ValueError:
        raise left.wrong("bytes in hexadecimal, two digits a byte, empty or none", word=digits) from None


def _told(left) -> Verdict | Written:
    actor = _actor(left)
    if left.take_word(("verdict", "wrote"), "verdict or wrote") == "wrote":
        handle = str(left.take("a handle"))
        return Written(actor, handle, left.hexadecimal("the bytes"))
    table, said = left.name("the name of a table", LONGEST_NAME), left.take("a verdict")
    left.end()
    try:
        return Verdict(actor, table, int(said, 0))
    except ValueError:
        raise left.wrong("a verdict, a number", word=said) from None


class Translation:
    """Makes lines of session text of calls. Handles of the log stand for those here that the same registrations gave."""

    def __init__(self) -> None:
        self._tables, self._blocks = {}, {}

    def lines(self, call) -> list[str]:
        """The lines of session text that make a call here: one, or one for each handle that it has."""
        words = CALLS[call.name](self, call)
        call.arguments.end()
        return [f"app {call.actor} {it}" for it in ([words] if isinstance(words, str) else words)]

    def gave_handle(self, call, answer) -> None:
        """Takes the handles that a call gave, there and here."""
        if "handle" in call.gave and answer.status in HANDLE_GIVEN.get(answer.request, ()):
            known = self._blocks if answer.request == "CdsRegister" else self._tables
            known[call.gave["handle"]] = answer.entry.number("detail")

    def moved(self, handles) -> None:
        """Takes the handles of a further session, by those of the session before."""
        self._tables = {there: handles[here] for there, here in self._tables.items() if here in handles}

    def handle(self, there) -> int:
        """The handle here for one of the log."""
        return self._tables.get(there, NO_HANDLE)

    def _table(self, call) -> int:
        return self.handle(str(call.arguments.take("a handle")))

    def _block(self, call) -> int:
        return self._blocks.get(str(call.arguments.take("a handle")), NO_HANDLE)

    def _register(self, call) -> str:
        name = _name(call)
        size, options, function = (call.arguments.take(it) for it in ("a size", "options", "function, or none"))
        validator = f" validator {verdicts.function_of(call.actor)}" if function == "function" else ""
        return f"register {name} size {size} options {options}{validator}"

    def _load(self, call) -> str:
        handle = self._table(call)
        if call.arguments.take_word(("address", "file"), "address or file") == "file":
            return f"load-file {handle} {_name(call, 'a file')}"
        return f"load {handle} {_data(call)}"

    def _notify(self, call) -> str:
        handle = self._table(call)
        message, function, parameter = (call.arguments.take(it) for it in ("a message id", "a function code", "a parameter"))
        return f"notify {handle} message {message} code {function} parameter {parameter}"

    def _cds_register(self, call) -> str:
        return f"cds-register {_name(call)} size {call.arguments.take('a size')}"

    def _cds_copy(self, call) -> str:
        return f"cds-copy {self._block(call)} {_data(call)}"

    def _each(self, call, word) -> list[str]:
        """A line for each handle."""
        lines = [f"{word} {self._table(call)}"]
        while not call.arguments.is_done():
            lines.append(f"{word} {self._table(call)}")
        return lines


def _name(call, what="a name") -> str:
    """A name as a word of session text, which says what of it is wrong."""
    return names.quoted(call.arguments.name(what, LONGEST_NAME))


def _data(call) -> str:
    digits = call.arguments.take("bytes in hexadecimal, or empty")
    return digits if digits == "empty" else f"hex {digits}"


def _by_handle(word) -> Any:
    return lambda translation, call: f"{word} {translation._table(call)}"


def _by_handles(word) -> Any:
    return lambda translation, call: translation._each(call, word)


def _by_name(word) -> Any:
    return lambda translation, call: f"{word} {_name(call)}"


MODIFIED = "CFE_TBL_Modified"
CALLS = {
    "CFE_TBL_Register": Translation._register,
    "CFE_TBL_Share": _by_name("share"),
    "CFE_TBL_Unregister": _by_handle("unregister"),
    "CFE_TBL_Load": Translation._load,
    "CFE_TBL_Update": _by_handle("update"),
    "CFE_TBL_Validate": _by_handle("validate"),
    "CFE_TBL_Manage": _by_handle("manage"),
    "CFE_TBL_DumpToBuffer": _by_handle("dump-to-buffer"),
    "CFE_TBL_GetAddress": _by_handle("get"),
    "CFE_TBL_ReleaseAddress": _by_handle("release"),
    "CFE_TBL_GetAddresses": _by_handles("get"),
    "CFE_TBL_ReleaseAddresses": _by_handles("release"),
    "CFE_TBL_GetStatus": _by_handle("get-status"),
    "CFE_TBL_GetInfo": _by_name("get-info"),
    # It has the status that a GetStatus has of a handle that may not be used.
    MODIFIED: _by_handle("get-status"),
    "CFE_TBL_NotifyByMessage": Translation._notify,
    "CFE_ES_RegisterCDS": Translation._cds_register,
    "CFE_ES_CopyToCDS": Translation._cds_copy,
    "CFE_ES_RestoreFromCDS": lambda translation, call: f"cds-restore {translation._block(call)}",
}
