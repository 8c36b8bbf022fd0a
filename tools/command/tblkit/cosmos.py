"""Commands and packets as definitions of COSMOS (OpenC3): the lines of a file below cmd_tlm/ of a target."""
import re
from collections.abc import Iterator

TARGET = "CFE_TBL"
STRING, BLOCK = "STRING", "BLOCK"
CHECKSUM = "the exclusive or of 0xFF and all bytes of the packet is 0"


def _word(key) -> str:
    """A key as COSMOS has names and states: in capitals."""
    return re.sub(r"[^A-Z0-9]+", "_", key.upper()).strip("_")


def _kind(item) -> str:
    return {"name": STRING, "zeros": BLOCK, "signed": "INT"}.get(item.form, "UINT")


def _end(item) -> str:
    """The byte order of a number whose low byte comes first; those of the others are the packet's."""
    return " LITTLE_ENDIAN" if item.is_little else ""


def _states(item) -> Iterator[str]:
    for value, word in item.states.items():
        yield f"    STATE {_word(word)} {value}"


def _parameter(item, known_by) -> list[str]:
    """The lines of an item of a command."""
    says = f'"{CHECKSUM if item.key == "checksum" else item.says}"'
    name, kind = _word(item.key), _kind(item)
    if kind == STRING:
        return [f'  APPEND_PARAMETER {name} {item.bits} STRING "" {says}']
    value = item.fixed or 0
    if item.key in known_by:
        value = _number(known_by[item.key])
        return [f"  APPEND_ID_PARAMETER {name} {item.bits} {kind} {value} {value} {value} {says}{_end(item)}"]
    most = (1 << item.bits) - 1
    return [f"  APPEND_PARAMETER {name} {item.bits} {kind} 0 {most} {value} {says}{_end(item)}", *_states(item)]


def _item(item, known_by) -> Iterator[str]:
    """The lines of an item of a packet."""
    name, kind = _word(item.key), _kind(item)
    if item.key in known_by:
        yield f'  APPEND_ID_ITEM {name} {item.bits} {kind} {_number(known_by[item.key])} "{item.says}"{_end(item)}'
    else:
        yield f'  APPEND_ITEM {name} {item.bits} {kind} "{item.says}"{_end(item)}'
    yield from _states(item)


def _number(value) -> str:
    """A number; a message id in hexadecimal, as one knows it."""
    return f"0x{value:04X}" if value > 0xFF else str(value)


def _known_by(layout) -> dict[str, int]:
    return {it.key: it.value for it in layout.whole()[1] if it.is_equal}


def _lines(known) -> Iterator[str]:
    layout = "cFE's default layouts" if known.is_cfe else "the layouts of docs/reference/packets.md"
    yield f"# cFE Table Services, in {layout}."
    for command in known.commands():
        yield f'\nCOMMAND {TARGET} {command.name} BIG_ENDIAN "{command.says}"'
        for item in command.items:
            yield from _parameter(item, _known_by(command))
    layouts = list(known.telemetry())
    packets = [it for it in layouts if not any(other.base is it for other in layouts)]
    # What is known by more values stands first: the first packet that fits is taken.
    for packet in sorted(packets, key=lambda it: -len(_known_by(it))):
        yield f'\nTELEMETRY {TARGET} {_word(packet.name)} BIG_ENDIAN "{packet.says}"'
        for item in packet.whole()[0]:
            yield from _item(item, _known_by(packet))


def definition(known) -> str:
    """The definitions as a text."""
    return "\n".join(_lines(known)) + "\n"
