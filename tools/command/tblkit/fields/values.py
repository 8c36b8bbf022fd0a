"""Values of fields as text, and the numbers, texts and bytes that text stands for. What is written reads back as the same bits."""
import decimal
import re
import struct
from collections.abc import Iterator
from fractions import Fraction

from . import kinds
from .layout import BYTES, TEXT, Field
from .wrong import Wrong

FORMATS = {16: "e", 32: "f", 64: "d"}
MOST_DIGITS = {16: 5, 32: 9}
MANTISSAS = {16: 10, 32: 23, 64: 52}
INTEGER = re.compile(r"[+-]?[0-9]{1,40}|[+-]?0[xX][0-9A-Fa-f]{1,32}")
DECIMAL = re.compile(r"[+-]?([0-9]+\.?[0-9]*|\.[0-9]+)([eE][+-]?[0-9]{1,4})?")
NOT_A_NUMBER = re.compile(r"nan:0[xX]([0-9A-Fa-f]{1,16})")
ESCAPE = re.compile(r'\\(?:x([0-9A-Fa-f]{2})|(["\\]))')
BOOLEANS = {"false": 0, "true": 1}
LONGEST = 400


def text_of(field: Field, raw: int) -> str:
    """The value of a field that has these bits."""
    if field.kind == TEXT:
        return _quoted(raw.to_bytes(field.bits // 8, field.order))
    if field.kind == BYTES:
        return raw.to_bytes(field.bits // 8, field.order).hex().upper()
    if field.kind == kinds.FLOAT:
        return _float_text(raw, field.bits)
    if field.kind == kinds.BOOLEAN and raw < 2:
        return "true" if raw else "false"
    if field.kind == kinds.ENUMERATED:
        number = number_of(field, raw)
        return (field.enumerators or {}).get(number, str(number))
    return str(number_of(field, raw))


def number_of(field: Field, raw: int) -> int:
    """The bits as a number, which may have a sign."""
    return raw - (1 << field.bits) if field.is_signed and raw >> field.bits - 1 else raw


def float_of(field: Field, raw: int) -> float:
    return struct.unpack(f">{FORMATS[field.bits]}", raw.to_bytes(field.bits // 8, "big"))[0]


def _quoted(content: bytes) -> str:
    """The characters before the zeros at the end; \\xNN is a byte that is no printing character."""
    shown = "".join("\\" + chr(it) if it in b'"\\' else chr(it) if 0x20 <= it <= 0x7E else f"\\x{it:02X}" for it in content.rstrip(b"\0"))
    return f'"{shown}"'


def _float_text(raw: int, bits: int) -> str:
    mantissa, rest = raw & (1 << MANTISSAS[bits]) - 1, raw >> MANTISSAS[bits]
    if rest & (1 << bits - MANTISSAS[bits] - 1) - 1 == (1 << bits - MANTISSAS[bits] - 1) - 1:
        return _no_number_text(raw, bits, mantissa)
    value = struct.unpack(f">{FORMATS[bits]}", raw.to_bytes(bits // 8, "big"))[0]
    if bits == 64 or value == 0:
        return repr(value)
    return next(repr(it) for it in _shorter(value, bits) if _reads_back(repr(it), bits, raw))


def _reads_back(text: str, bits: int, raw: int) -> bool:
    try:
        return _float_raw(text, bits) == raw
    except OverflowError:
        return False


def _no_number_text(raw: int, bits: int, mantissa: int) -> str:
    """An infinity, or none: the usual one as `nan`, any other with its bits."""
    if mantissa == 0:
        return "-inf" if raw >> bits - 1 else "inf"
    usual = mantissa == 1 << MANTISSAS[bits] - 1 and not raw >> bits - 1
    return "nan" if usual else f"nan:0x{raw:0{bits // 4}X}"


def _shorter(value: float, bits: int) -> Iterator[float]:
    """The numbers of few digits nearest to a float, those of fewer digits first. Each of them is written with its digits alone."""
    exact = decimal.Decimal(value)
    for digits in range(1, MOST_DIGITS[bits] + 1):
        near = {float(decimal.Context(digits, how).plus(exact)) for how in (decimal.ROUND_HALF_EVEN, decimal.ROUND_UP, decimal.ROUND_DOWN)}
        yield from sorted(near, key=lambda it: abs(decimal.Decimal(it) - exact))


def _float_raw(text: str, bits: int) -> int:
    """The bits of the float nearest to a decimal number; of two that are as near, the even one. Beyond the greatest: an error."""
    form, size = f">{FORMATS[bits]}", bits // 8
    raw = int.from_bytes(struct.pack(form, float(text)), "big")
    if bits == 64:
        return raw
    # By way of a double it may be rounded twice, so its neighbours are looked at.
    sign, exact = raw & 1 << bits - 1, Fraction(text)
    near = [it for it in (raw - 1, raw, raw + 1) if it >= 0 and it & 1 << bits - 1 == sign]
    known = [(it, struct.unpack(form, it.to_bytes(size, "big"))[0]) for it in near if it < 1 << bits]
    return min(((abs(Fraction(value) - exact), it & 1, it) for it, value in known if abs(value) != float("inf")))[2]


def raw_of(field: Field, text: str) -> int:
    """The bits that a text stands for."""
    if field.kind == TEXT:
        content = _characters(field, text)
        return int.from_bytes(content.ljust(field.bits // 8, b"\0"), field.order)
    if field.kind == BYTES:
        return _bytes(field, text)
    if field.kind == kinds.FLOAT:
        return _float(field, text)
    return raw_of_number(field, _integer(field, text), text)


def raw_of_number(field: Field, number: int, text: str = "") -> int:
    """The bits of a number, which has to fit."""
    low, high = (-(1 << field.bits - 1), (1 << field.bits - 1) - 1) if field.is_signed else (0, (1 << field.bits) - 1)
    if field.kind == kinds.BOOLEAN:
        high = 1
    if not low <= number <= high:
        raise Wrong(f"{field.name}: {text or number} is out of range: expected {_expected(field, low, high)}")
    return number % (1 << field.bits)


def _expected(field: Field, low: int, high: int) -> str:
    if field.kind == kinds.BOOLEAN:
        return "true or false"
    width = f" in {field.bits} bits" if field.is_bit_field else ""
    return f"a number from {low} to {high}, of the type {field.type_name}{width}"


def _integer(field: Field, text: str) -> int:
    if field.kind == kinds.BOOLEAN and text in BOOLEANS:
        return BOOLEANS[text]
    if field.kind == kinds.ENUMERATED:
        value = next((value for value, name in (field.enumerators or {}).items() if name == text), None)
        if value is not None:
            return value
    if not INTEGER.fullmatch(text):
        raise Wrong(f"{field.name}: {text[:LONGEST] or 'nothing'} is no value of it: expected {_forms(field)}")
    return int(text, 16 if "x" in text.lower() else 10)


def _forms(field: Field) -> str:
    if field.kind == kinds.BOOLEAN:
        return "true or false"
    if field.kind == kinds.ENUMERATED and field.enumerators:
        names = list(field.enumerators.values())
        return f"{', '.join(names[:12])}{', ..' if len(names) > 12 else ''}, or a number"
    return "a decimal number, or one in hexadecimal with 0x"


def _float(field: Field, text: str) -> int:
    lowered, bits = text.lower(), field.bits
    if lowered in ("inf", "+inf", "-inf", "nan"):
        top = (1 << bits - MANTISSAS[bits] - 1) - 1 << MANTISSAS[bits]
        return top | (1 << bits - 1 if lowered == "-inf" else 1 << MANTISSAS[bits] - 1 if lowered == "nan" else 0)
    known = NOT_A_NUMBER.fullmatch(text)
    if known and _float_text(int(known[1], 16) % (1 << bits), bits).startswith("nan") and int(known[1], 16) < 1 << bits:
        return int(known[1], 16)
    if not DECIMAL.fullmatch(text) or len(text) > LONGEST:
        raise Wrong(f"{field.name}: {text[:LONGEST] or 'nothing'} is no value of it: expected a decimal number, inf, -inf or nan")
    if abs(float(text)) == float("inf"):
        raise Wrong(f"{field.name}: {text} is out of range: it is beyond a float of {bits} bits")
    try:
        return _float_raw(text, bits)
    except OverflowError:
        raise Wrong(f"{field.name}: {text} is out of range: it is beyond a float of {bits} bits") from None


def _characters(field: Field, text: str) -> bytes:
    """The characters of a text, which may stand between quotes, with \\xNN for a byte."""
    if len(text) > 1 and text[0] == text[-1] == '"':
        text = text[1:-1]
        if "\\" in ESCAPE.sub("", text) or '"' in ESCAPE.sub("", text):
            raise Wrong(f'{field.name}: between quotes, a quote or backslash needs a backslash before it, and \\xNN is a byte')
        content = b"".join(bytes([int(it[1], 16)]) if it[1] else (it[2] or it[3]).encode()
                           for it in re.finditer(ESCAPE.pattern + "|(.)", text, re.DOTALL))
    else:
        content = text.encode("utf-8", "surrogateescape")
    if len(content) > field.bits // 8:
        raise Wrong(f"{field.name}: a text of {len(content)} bytes is too long: it has {field.bits // 8}")
    return content


def _bytes(field: Field, text: str) -> int:
    size = field.bits // 8
    if not re.fullmatch(f"[0-9A-Fa-f]{{{2 * size}}}", text):
        hint = ", or a member by --member" if field.is_union else ""
        raise Wrong(f"{field.name}: it is set by {size} bytes in hexadecimal, which are {2 * size} digits{hint}")
    return int.from_bytes(bytes.fromhex(text), field.order)
