"""The table of names, ../names.tsv, and the layouts that it has: what each number and each field is called."""
import functools
import os
import re
from dataclasses import dataclass
from typing import Any

TABLE = os.path.join(os.path.dirname(os.path.dirname(os.path.realpath(__file__))), "names.tsv")
NUMBER_FORMS = ("number", "signed", "hex", "two words", "row", "validator")
PARTS_OF_BITS = {"flags": (14, 0x3), "count": (0, 0x3FFF), "function": (0, 0x7F)}
CODED_FORMS = ("status", "event", "command")
# The form whose words are the names of cFE's events.
CFE_EVENT = "eid"
# The sections whose numbers are explained.
EXPLAINED = ("status", "event", "run")


@dataclass(frozen=True, eq=False)
class Field:
    """A field of a body, header or packet: `width` is None for one that takes the rest. There is one of each, so it is told by which one
    it is."""
    owner: str
    place: int
    width: int | None
    name: str
    form: str

    @functools.cached_property
    def _bounds(self) -> slice:
        return slice(self.place, None if self.width is None else self.place + self.width)

    def of(self, content) -> bytes:
        """The field's bytes in the bytes of what it is a part of."""
        return content[self._bounds]


@dataclass(frozen=True)
class Named:
    """A number with a name, and what the detail that comes with it is (`detail` is empty where it tells nothing)."""
    number: int
    name: str
    detail: str = ""
    form: str = ""


@dataclass(frozen=True)
class Request(Named):
    """A kind of session record: its number, its name, its word in a line of text, and whether the ground sends it."""
    word: str = ""
    is_ground: bool = False


@functools.cache
def rows() -> list[list[str]]:
    """The rows of the table as lists of columns, without the mark `later`. It is read once: later there may be no descriptor left."""
    found = []
    with open(TABLE, encoding="ascii") as lines:
        for line in lines:
            columns = line.rstrip("\n").split("\t")
            if not line.startswith("#"):
                found.append(columns[:-1] if columns[-1] == "later" else columns)
    return found


def rows_of(section) -> list[list[str]]:
    return [columns[1:] for columns in rows() if columns[0] == section]


@functools.cache
def numbers() -> dict[str, str]:
    """The numbers that programs share, as the table spells them, by what each is."""
    return {what: spelled for what, spelled, _ in rows_of("constant")}


def with_numbers(text) -> str:
    """A text with the numbers that it names."""
    return re.sub(r"\{(.+?)\}", lambda found: f"{int(numbers()[found[1]], 0):,}", text)


@functools.cache
def named(section) -> dict[int, Named]:
    """The statuses, events, commands, messages or run statuses by number."""
    found = (Named(int(number, 0), with_numbers(name), *more) for number, name, *more in rows_of(section))
    return {it.number: it for it in found}


@functools.cache
def explained() -> dict[tuple[str, int], tuple[str, ...]]:
    """What each number of a section means, when it comes, and what to do."""
    return {(section, int(number)): tuple(map(with_numbers, said)) for section, number, *said in rows_of("explain")}


@functools.cache
def return_codes() -> dict[int, str]:
    """cFE's return codes that say the same as statuses do, by these."""
    return {int(number): code for number, code in rows_of("return")}


@dataclass(frozen=True)
class Word:
    """One of cFE's words: what it is here (a section, `limit`, `option` or `none`), the number or value there, and what has to be said of
    that."""
    name: str
    kind: str
    number: str
    said: str

    @property
    def section(self) -> str:
        """The section that has its number; empty if none has."""
        return {"also": "status", "option": "", "limit": "", "none": ""}.get(self.kind, self.kind)

    def here(self) -> str:
        """What it is here, in words."""
        if not self.section:
            return self.number if self.kind != "none" else "none"
        numbers_of: Any = requests() if self.section == "request" else named(self.section)
        known = numbers_of.get(int(self.number, 0))
        return f"{self.section} {self.number} {known.name if known else 'which is none'}"


@functools.cache
def cfe_words() -> tuple[Word, ...]:
    """cFE's words: the return codes, then all others."""
    codes = tuple(Word(code, "status", str(number), "a call returns it") for number, code in return_codes().items())
    return codes + tuple(Word(name, kind, numbers()[number] if kind == "limit" else number, with_numbers(said))
                         for name, kind, number, said in rows_of("word"))


@functools.cache
def in_cfe(section, number) -> tuple[str, ...]:
    """The names in cFE of what this number of a section is: return code, event ids, command code."""
    return tuple(it.name for it in cfe_words() if it.kind == section and int(it.number, 0) == number)


@functools.cache
def requests() -> dict[int, Request]:
    """The kinds of session records by number."""
    found = {}
    for number, name, word, actor, *more in rows_of("request"):
        detail, form = (*more, "", "")[:2]
        found[int(number, 0)] = Request(int(number, 0), name, detail, form, word, actor == "ground")
    return found


@functools.cache
def fields(owner) -> tuple[Field, ...]:
    """The fields of a body, header or packet, in the order of their places."""
    found = []
    for part, place, width, name, form in rows_of("field"):
        if part == owner:
            found.append(Field(part, int(place), None if width == "*" else int(width), name, form))
    return tuple(found)


@functools.cache
def field(owner, name) -> Field:
    return next(it for it in fields(owner) if it.name == name)


@functools.cache
def words(form) -> dict[int, str]:
    """The numbers of a coded form, with their words."""
    if form in CODED_FORMS:
        return {number: it.name for number, it in named(form).items()}
    if form == CFE_EVENT:
        return {int(number): name for number, name, *_ in rows_of(CFE_EVENT)}
    return {int(number, 0): word for part, number, word in rows_of("code") if part == form}


@functools.cache
def bits(form) -> dict[int, str]:
    """The bits of a form that is a set of bits, lowest first: the value of each, and its word."""
    return {1 << int(number): word for part, number, word in rows_of("bit") if part == form}


@functools.cache
def key(name) -> str:
    """A name as programs have it: `commands_accepted`. Wireshark's fields have the same."""
    return re.sub(r"[^a-z0-9]+", "_", name.lower().replace("'", ""))


def size_of(owner) -> int:
    """How many bytes the fields of a layout of fixed size take, from the place of the first."""
    parts = fields(owner)
    return parts[-1].place + parts[-1].width - parts[0].place


def name_in(content) -> bytes:
    """What a name field reads as: its bytes before the first zero byte, or all of them."""
    return content.split(b"\0", 1)[0]


def is_name(content) -> bool:
    """Whether bytes are a name."""
    return bool(content) and all(0x21 <= byte <= 0x7E for byte in content)


@functools.lru_cache(1 << 12)
def quoted(name) -> str:
    """A name as a word: bare where it has none but printing ASCII, else in quotes with escapes."""
    plain = bool(name) and all(0x21 <= byte <= 0x7E for byte in name) and not set(name) & set(b'"\\')
    if plain and not name.startswith(b"#"):
        return name.decode("ascii")
    return f'"{escaped(name)}"'


def escaped(name) -> str:
    """A name in printing ASCII: a backslash before quotes and backslashes, \\xNN for a byte that is no such character."""
    return "".join("\\" + chr(byte) if byte in b'"\\' else chr(byte) if 0x20 <= byte <= 0x7E else f"\\x{byte:02X}"
                   for byte in name)


def value(form, content) -> int:
    """The number in a field's bytes."""
    number = int.from_bytes(content, "big", signed=form == "signed")
    if form in PARTS_OF_BITS:
        shift, mask = PARTS_OF_BITS[form]
        return number >> shift & mask
    return number


def is_blank(form, content) -> bool:
    """Whether a field has nothing to tell: all zeros, or for a row or a validator all ones, which stand for none."""
    if form in PARTS_OF_BITS:
        return value(form, content) == 0
    return content == (b"\xff" if form in ("row", "validator") else b"\0") * len(content)


def shown(form, content) -> str:
    """A field's bytes in words, by its form."""
    if form in ("number", "signed"):
        return str(value(form, content))
    if form == "name":
        return quoted(name_in(content)) + (" (and bytes after it)" if content.partition(b"\0")[2].strip(b"\0") else "")
    if form in ("data", "zeros"):
        return content.hex().upper()
    if form in ("row", "validator"):
        return "none" if is_blank(form, content) else str(value(form, content))
    number = value(form, content)
    if form == "hex":
        return f"0x{number:04X}"
    if form == "two words":
        return f"0x{number >> 16:04X} and 0x{number & 0xFFFF:04X}"
    if bits(form):
        return _bits_shown(form, number)
    known = words(form).get(number) if form not in NUMBER_FORMS else None
    return f"{number} {known}" if known else str(number)


def _bits_shown(form, number) -> str:
    """The words of the bits that are set, and what no bit has a word for."""
    found = [word for bit, word in bits(form).items() if number & bit]
    unknown = number & ~sum(bits(form))
    if unknown:
        found.append(f"0x{unknown:X}")
    return " and ".join(found) or "none"
