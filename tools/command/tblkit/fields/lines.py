"""Table files in a line of session text: `file NAME built OBJ`, and `file NAME set OBJ FIELD=VALUE ..`."""
from typing import Any

from ..words import TextError, Word, Words, read_header
from . import definitions, loads, objects
from .definitions import Definition
from .wrong import NoReader, Wrong


def built(words: Words) -> bytes:
    """The table file of an object, from the words after `built`."""
    _, definition = _object(words)
    return loads.table_file(definition, loads.whole(definition), read_header(words))


def changed(words: Words) -> bytes:
    """The file of the smallest run of bytes that has the fields which are set, from the words after `set`."""
    _, definition = _object(words)
    header, settings = read_header(words), []
    while not settings or not words.is_done():
        settings.append(words.take("a field and its value, as wdt[3].limit=77.5"))
        _said(settings[-1], lambda word=settings[-1]: loads.assignment(definition.layout, word))
    made = _said(settings[-1], lambda: loads.changed(definition, loads.whole(definition), settings, False))
    return loads.table_file(definition, made.part, header)


def _object(words: Words) -> tuple[Word, Definition]:
    """The definition in the object file that is named next, with the members of unions that `member PATH=NAME` chooses."""
    name, members = words.take("the object file of a table"), []
    while words.take_if("member"):
        members.append(str(words.take("a union and its member, as entry[*].value=count")))
    return name, _said(name, lambda: _read(words, str(name), tuple(members)))


def _read(words: Words, name: str, members: tuple[str, ...]) -> Definition:
    content = words.contents(name, objects.MOST_BYTES)
    try:
        return definitions.of_content(name, objects.looked_at(content), members)
    except Wrong as wrong:
        raise Wrong(f"{name}: {wrong}") from None


def _said(word: Word, make) -> Any:
    """What `make` gives. Why it can't is said of the word."""
    try:
        return make()
    except (Wrong, NoReader) as wrong:
        raise TextError(f"expected {'a field and its value' if '=' in word else 'the object file of a table'}: {wrong}", word.at) from None
    except (OSError, ValueError) as error:
        raise TextError(f"expected a file that can be read: {word}: {getattr(error, 'strerror', None) or error}", word.at) from None
