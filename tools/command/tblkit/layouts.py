"""Numbers and layouts of the table of names for programs: numbers by what they are, and layouts as structs. Each module that reads or
writes a format takes what it knows of it from here and from `names`."""
import functools
import struct
from typing import Any

from . import names

# How struct spells an unsigned number of so many bytes.
_CODES = {1: "B", 2: "H", 4: "I"}


@functools.cache
def number(what) -> int:
    """The number that programs share and that is this."""
    return int(names.numbers()[what], 0)


@functools.cache
def number_of(section, name) -> int:
    """The number of a status, an event, a message, a command, a request or a status of a run, by its name."""
    known: Any = names.requests() if section == "request" else names.named(section)
    return next(it.number for it in known.values() if it.name == name)


def numbers_of(section, *known) -> tuple[int, ...]:
    """The numbers of several, by their names."""
    return tuple(number_of(section, it) for it in known)


def statuses(*words) -> tuple[int, ...]:
    """The statuses of these names, which are said without what kind of status each is: NO_ACCESS is ERR_NO_ACCESS."""
    known = {it.name.partition("_")[2]: number for number, it in names.named("status").items()} | {"SUCCESS": 0}
    return tuple(known[it] for it in words)


@functools.cache
def code(form, word) -> int:
    """The number of a word of a coded form."""
    return next(known for known, it in names.words(form).items() if it == word)


@functools.cache
def bit(form, word) -> int:
    """The value of the bit that a word of a set of bits stands for."""
    return next(known for known, it in names.bits(form).items() if it == word)


@functools.cache
def end_of(owner) -> int:
    """Where the last field of a layout of fixed size ends."""
    last = names.fields(owner)[-1]
    return last.place + last.width


@functools.cache
def shape(owner) -> struct.Struct:
    """The struct of a layout of fixed size, from the place of its first field on: numbers are unsigned, and begin with their high byte."""
    spelled, at = ">", names.fields(owner)[0].place
    for field in names.fields(owner):
        is_number = field.width in _CODES and field.form not in ("name", "data", "zeros")
        spelled += f"{field.place - at}x{_CODES[field.width]}" if is_number else f"{field.place - at}x{field.width}s"
        at = field.place + field.width
    return struct.Struct(spelled)
