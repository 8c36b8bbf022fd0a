"""Commands and packets as a definition in XTCE 1.2 (OMG), the exchange format of telemetry and command databases."""
import re
from dataclasses import replace
from xml.etree import ElementTree

NAMESPACE = "http://www.omg.org/spec/XTCE/20180204"
SYSTEM = "CFE_TBL"
NO_CHECKSUM = ("the exclusive or of 0xFF and all bytes of the packet has to be 0: a checksum of this kind can't be stated here; "
               "serve --any-checksum takes any")
KINDS = {"name": "String", "zeros": "Binary", "padding": "Binary", "float": "Float"}


def _child(above, tag, words=None, /, **attributes) -> ElementTree.Element:
    below = ElementTree.SubElement(above, tag, {key: str(value) for key, value in attributes.items() if value is not None})
    below.text = words
    return below


def _type_name(item) -> str:
    """A name of the type of an item: items of one form, width and byte order share one."""
    return re.sub(r"\W+", "_", f"{item.form}_{item.bits}") + ("_little" if item.is_little else "")


class _Types:
    """The types of parameters or of arguments, each of which is written once."""

    def __init__(self, above, role) -> None:
        self._set, self._role, self._known = _child(above, f"{role}TypeSet"), role, {}

    def of(self, item) -> str:
        """The name of the type of an item. Those of one form and width have names of their own where their words differ."""
        plain = name = _type_name(item)
        number = 1
        while self._known.get(name, item.states) != item.states:
            number += 1
            name = f"{plain}_{number}"
        if name not in self._known:
            self._known[name] = item.states
            self._write(name, item)
        return name

    def _write(self, name, item) -> None:
        kind = KINDS.get(item.form) or ("Enumerated" if item.states else "Integer")
        own = {"signed": str(item.form == "signed").lower()} if kind == "Integer" else {"sizeInBits": max(32, item.bits)} if kind == "Float" else {}
        above = _child(self._set, f"{kind}{self._role}Type", name=name, **own)
        if kind == "String":
            encoding = _child(above, "StringDataEncoding", encoding="US-ASCII")
            size = _child(encoding, "SizeInBits")
            _child(_child(size, "Fixed"), "FixedValue", str(item.bits))
            _child(size, "TerminationChar", "00")
        elif kind == "Binary":
            _child(_child(_child(above, "BinaryDataEncoding"), "SizeInBits"), "FixedValue", str(item.bits))
        elif kind == "Float":
            _child(above, "FloatDataEncoding", sizeInBits=item.bits, encoding="IEEE754_1985",
                   byteOrder="leastSignificantByteFirst" if item.is_little else None)
        else:
            _child(above, "IntegerDataEncoding", sizeInBits=item.bits,
                   encoding="twosComplement" if item.form == "signed" else "unsigned",
                   byteOrder="leastSignificantByteFirst" if item.is_little else None)
        if kind == "Enumerated":
            labels = _child(above, "EnumerationList")
            for value, label in item.states.items():
                _child(labels, "Enumeration", value=value, label=label)


class _Telemetry:
    """The packets that are sent: parameters, and containers, of which each begins with another one or is the first."""

    def __init__(self, above) -> None:
        above = _child(above, "TelemetryMetaData")
        self._types = _Types(above, "Parameter")
        self._parameters, self._containers = _child(above, "ParameterSet"), _child(above, "ContainerSet")

    def packet(self, layout, is_abstract, further=None) -> None:
        """Writes the container of a packet, with what tells it from others that begin with the same one. The first one extends a
        further container, of another database, where there is such."""
        container = _child(self._containers, "SequenceContainer", name=layout.name, shortDescription=layout.says,
                           abstract="true" if is_abstract else None)
        entries = _child(container, "EntryList")
        place = sum(it.bits for it in layout.base.whole()[0]) if layout.base else 0
        for it in layout.items:
            name = _parameter_name(layout, it.key)
            _child(self._parameters, "Parameter", name=name, parameterTypeRef=self._types.of(it), shortDescription=it.says)
            _locate(_child(entries, "ParameterRefEntry", parameterRef=name), place)
            place += it.bits
        if further and not layout.base:
            _child(container, "BaseContainer", containerRef=further)
        if layout.base:
            base = _child(container, "BaseContainer", containerRef=layout.base.name)
            comparisons = _child(_child(base, "RestrictionCriteria"), "ComparisonList")
            for it in layout.known_by:
                _child(comparisons, "Comparison", parameterRef=_parameter_name(layout.base, it.key), value=it.value,
                       comparisonOperator=None if it.is_equal else "!=", useCalibratedValue="false")


def _locate(entry, place) -> None:
    """Says where an entry stands: its bits from the start of the whole container on, whatever it extends."""
    _child(_child(entry, "LocationInContainerInBits", referenceLocation="containerStart"), "FixedValue", str(place))


def _parameter_name(layout, key) -> str:
    """The name of a parameter: that of the layout that has it, and its key."""
    return f"{layout.name}_{key}"


class _Commands:
    """The commands: an abstract one with the headers, which those with arguments of their own extend."""

    def __init__(self, above) -> None:
        above = _child(above, "CommandMetaData")
        self._types, self._commands = _Types(above, "Argument"), _child(above, "MetaCommandSet")

    def header(self, layout) -> None:
        """Writes the abstract command. Each command says what its message id, its length and its code are."""
        command = _child(self._commands, "MetaCommand", name=layout.name, abstract="true", shortDescription=layout.says)
        self._entries(command, layout, 0)

    def command(self, layout, header) -> None:
        """Writes a command."""
        command = _child(self._commands, "MetaCommand", name=layout.name, shortDescription=layout.says)
        assigned = _child(_child(command, "BaseMetaCommand", metaCommandRef=header.name), "ArgumentAssignmentList")
        values = {it.key: it.fixed for it in layout.items}
        for it in header.items:
            if it.fixed is None:
                _child(assigned, "ArgumentAssignment", argumentName=it.key, argumentValue=values[it.key])
        own = layout.items[len(header.items):]
        container = self._entries(command, replace(layout, items=own), sum(it.bits for it in header.items))
        _child(container, "BaseContainer", containerRef=_container_name(header))

    def _entries(self, command, layout, place) -> ElementTree.Element:
        """Writes the arguments of a command, and its container, in which they stand from a place on."""
        arguments = [it for it in layout.items if it.fixed is None]
        if arguments:
            listed = _child(command, "ArgumentList")
            for it in arguments:
                _child(listed, "Argument", name=it.key, argumentTypeRef=self._types.of(it), shortDescription=it.says)
        container = _child(command, "CommandContainer", name=_container_name(layout))
        entries = _child(container, "EntryList")
        for it in layout.items:
            if it.fixed is None:
                _locate(_child(entries, "ArgumentRefEntry", argumentRef=it.key), place)
            else:
                _locate(_child(entries, "FixedValueEntry", name=it.key, binaryValue=_binary(it), sizeInBits=it.bits,
                               shortDescription=NO_CHECKSUM if it.key == "checksum" else None), place)
            place += it.bits
        return container


def _container_name(layout) -> str:
    return f"{layout.name}_packet"


def _binary(item) -> str:
    """The bits of a value that is always the same, as hexBinary: whole bytes, in whose last bits it stands."""
    return item.fixed.to_bytes((item.bits + 7) // 8, "big").hex().upper()


def _system(name, says, layouts, further=None) -> ElementTree.Element:
    """A system with containers of these layouts. The first extends a further container, if one is given."""
    ElementTree.register_namespace("", NAMESPACE)
    root = ElementTree.Element("SpaceSystem", {"xmlns": NAMESPACE, "name": name, "shortDescription": says})
    _child(root, "Header", validationStatus="Working")
    telemetry = _Telemetry(root)
    for layout in layouts:
        telemetry.packet(layout, any(it.base is layout for it in layouts), further)
    return root


def containers(name, says, layouts) -> str:
    """A definition of containers alone, as a text."""
    return _text(_system(name, says, layouts))


def definition(known, further=None) -> str:
    """The definition of all commands and packets, as a text. Its packets extend a further container, if one is given."""
    layout = "in cFE's default layouts" if known.is_cfe else "in the layouts of docs/reference/packets.md"
    root = _system(SYSTEM, f"cFE Table Services, {layout}", list(known.telemetry()), further)
    commands, header = _Commands(root), known.command_header()
    commands.header(header)
    for layout in known.commands():
        commands.command(layout, header)
    return _text(root)


def _text(root) -> str:
    ElementTree.indent(root)
    return '<?xml version="1.0" encoding="UTF-8"?>\n' + ElementTree.tostring(root, encoding="unicode") + "\n"
