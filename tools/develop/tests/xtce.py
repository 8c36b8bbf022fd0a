"""A reader of XTCE, written from its public description and from nothing else here: it decodes packets and encodes commands by
what a definition says."""
import struct
from xml.etree import ElementTree

SPACE = "{http://www.omg.org/spec/XTCE/20180204}"


def _path(*names):
    return "/".join(SPACE + it for it in names)


def _types(root, role):
    """The types of parameters or arguments: the kind of each, its bits, its encoding and whether its low byte comes first."""
    found = {}
    for it in root.iter():
        kind = it.tag.removeprefix(SPACE)
        if not kind.endswith(f"{role}Type"):
            continue
        kind = kind.removesuffix(f"{role}Type")
        if kind == "String":
            bits = it.find(_path("StringDataEncoding", "SizeInBits", "Fixed", "FixedValue")).text
            found[it.get("name")] = (kind, int(bits), None, False)
        elif kind == "Binary":
            found[it.get("name")] = (kind, int(it.find(_path("BinaryDataEncoding", "SizeInBits", "FixedValue")).text), None, False)
        elif kind == "Float":
            encoding = it.find(_path("FloatDataEncoding"))
            found[it.get("name")] = (kind, int(encoding.get("sizeInBits")), encoding.get("encoding"),
                                     encoding.get("byteOrder") == "leastSignificantByteFirst")
        else:
            encoding = it.find(_path("IntegerDataEncoding"))
            found[it.get("name")] = (kind, int(encoding.get("sizeInBits")), encoding.get("encoding"),
                                     encoding.get("byteOrder") == "leastSignificantByteFirst")
    return found


def _bits(content, at, count):
    whole = int.from_bytes(content, "big")
    return whole >> 8 * len(content) - at - count & (1 << count) - 1


class Definition:
    def __init__(self, text):
        root = ElementTree.fromstring(text)
        self._types, self._argument_types = _types(root, "Parameter"), _types(root, "Argument")
        self._parameters = {it.get("name"): it.get("parameterTypeRef") for it in root.iter(SPACE + "Parameter")}
        self._containers = {it.get("name"): it for it in root.iter(SPACE + "SequenceContainer")}
        self._commands = {it.get("name"): it for it in root.iter(SPACE + "MetaCommand")}

    @property
    def commands(self):
        """The names of the commands that can be sent."""
        return [name for name, it in self._commands.items() if it.get("abstract") != "true"]

    def decode(self, packet):
        """The container of a packet, and the values of its parameters. Bytes that no entry takes are an error."""
        own = set(self._containers)
        name = next(name for name, it in self._containers.items() if _base_of(it) not in own)
        at, values = self._take(name, packet, 0, {})
        while True:
            below = [it for it in self._containers if self._is_next(it, name, values)]
            if len(below) > 1:
                raise ValueError(f"{below} fit")
            if not below:
                break
            name = below[0]
            at, values = self._take(name, packet, at, values)
        if at != 8 * len(packet) or self._containers[name].get("abstract") == "true":
            raise ValueError(f"{name} has {at} bits of {8 * len(packet)}")
        return name, values

    def _is_next(self, name, base, values):
        above = self._containers[name].find(SPACE + "BaseContainer")
        if above is None or above.get("containerRef") != base:
            return False
        return all((values[it.get("parameterRef")] == int(it.get("value"))) == (it.get("comparisonOperator", "==") == "==")
                   for it in above.iter(SPACE + "Comparison"))

    def _take(self, name, packet, at, values):
        for it in self._containers[name].find(SPACE + "EntryList"):
            parameter = it.get("parameterRef")
            kind, count, encoding, is_little = self._types[self._parameters[parameter]]
            at = _place(it, at)
            if at + count > 8 * len(packet):
                raise ValueError(f"{parameter} goes beyond the end")
            raw = _bits(packet, at, count)
            values = values | {parameter: _value(kind, raw.to_bytes((count + 7) // 8, "big"), count, encoding, is_little)}
            at += count
        return at, values

    def encode(self, name, arguments):
        """The packet of a command with these arguments: the entries of the command that it extends, with what it assigns there, and its
        own. No bit is written twice, and none is left out."""
        command = self._commands[name]
        base, entries = command.find(SPACE + "BaseMetaCommand"), []
        if base is not None:
            above = self._commands[base.get("metaCommandRef")]
            assigned = {it.get("argumentName"): int(it.get("argumentValue")) for it in base.iter(SPACE + "ArgumentAssignment")}
            if command.find(_path("CommandContainer", "BaseContainer")).get("containerRef") != above.find(SPACE + "CommandContainer").get("name"):
                raise ValueError(f"{name} extends another container than its command does")
            entries = self._spelled(above, assigned, 0)
        entries = self._spelled(command, arguments, 0, entries)
        whole = at = 0
        for place, bits, value in sorted(entries):
            if place != at:
                raise ValueError(f"{name} has an entry at {place}, and {at} bits before it")
            whole, at = whole << bits | value, at + bits
        return whole.to_bytes(at // 8, "big")

    def _spelled(self, command, arguments, at, before=()):
        """The entries of a command: place, bits and value of each."""
        types = {it.get("name"): it.get("argumentTypeRef") for it in command.iter(SPACE + "Argument")}
        found = list(before)
        for it in command.find(_path("CommandContainer", "EntryList")):
            if it.tag == SPACE + "FixedValueEntry":
                value, bits = int(it.get("binaryValue"), 16), int(it.get("sizeInBits"))
            else:
                value, bits = self._argument(self._argument_types[types[it.get("argumentRef")]], arguments[it.get("argumentRef")])
            at = _place(it, at)
            found.append((at, bits, value))
            at += bits
        return found

    @staticmethod
    def _argument(of_type, given):
        kind, bits, _, is_little = of_type
        if kind == "String":
            return int.from_bytes(given.encode("ascii").ljust(bits // 8, b"\0"), "big"), bits
        return int.from_bytes(given.to_bytes(bits // 8, "little" if is_little else "big"), "big"), bits


def _base_of(container):
    base = container.find(SPACE + "BaseContainer")
    return None if base is None else base.get("containerRef")


def _place(entry, usual):
    """The bit at which an entry stands: from the start of the container where it says so, and else after the one before."""
    location = entry.find(SPACE + "LocationInContainerInBits")
    if location is None:
        return usual
    bits = int(location.find(SPACE + "FixedValue").text)
    return bits if location.get("referenceLocation") == "containerStart" else usual + bits


def _value(kind, raw, bits, encoding, is_little):
    if kind == "String":
        return raw.split(b"\0", 1)[0].decode("ascii")
    if kind == "Binary":
        return raw.hex().upper()
    order = "little" if is_little else "big"
    if kind == "Float":
        return struct.unpack({32: ">f", 64: ">d"}[bits], int.from_bytes(raw, order).to_bytes(bits // 8, "big"))[0]
    number = int.from_bytes(raw, order)
    return number - (1 << bits) if encoding == "twosComplement" and number >> bits - 1 else number
