"""The definition of a table in an object file: what its CFE_TBL_FILEDEF states, its layout and its image."""
import functools
import os
from dataclasses import dataclass

from .. import described, files
from . import dwarf, objects
from .kinds import ByteOrder
from .layout import TEXT, Layout, Members
from .wrong import Wrong

FILE_DEFINITION = "CFE_TBL_FileDef"
MOST_IMAGE = (1 << 20) - files.TABLE_HEADER
STATED = ("ObjectName", "TableName", "Description", "TgtFilename", "ObjectSize")
DESCRIPTION = 32


@dataclass(frozen=True)
class Definition:
    """A table as an object file defines it. `file_name` is the one that the definition names for the table file."""
    path: str
    object_name: str
    table: str
    description: bytes
    file_name: str
    layout: Layout
    image: bytes

    @property
    def order(self) -> ByteOrder:
        return self.layout.order


class Variables:
    """The variables of an object file, with their types."""

    def __init__(self, of: objects.Object) -> None:
        self.object, self._entries = of, dwarf.Entries(of)
        self._types = dwarf.Types(self._entries)

    def layout_of(self, name: str, members: Members) -> tuple[Layout, bytes]:
        """The layout of a variable and its bytes, which have no address."""
        entry = next(self._entries.variables(name), None)
        linkage = entry.text("DW_AT_linkage_name") if entry else ""
        symbol = self.object.symbol_of(*([linkage] if linkage else []), name)
        if symbol is None:
            why = ": has it a CFE_TBL_FILEDEF?" if name == FILE_DEFINITION else ", which its CFE_TBL_FILEDEF names"
            raise Wrong(f"it has no {name}{why}")
        if entry is None:
            raise Wrong(f"{name} isn't in its debugging information: compile it with -g")
        of_type = self._types.of_variable(entry)
        if not 0 < of_type.size <= MOST_IMAGE:
            raise Wrong(f"{name}: it has {of_type.size} bytes, and an image 1 to {MOST_IMAGE}")
        if symbol.size not in (0, of_type.size):
            raise Wrong(f"{name}: it has {symbol.size} bytes, and by its type {of_type.size}")
        layout = Layout(name, of_type, self.object.order, members)
        self._refuse_addresses(name, symbol, layout)
        return layout, self.object.image_of(symbol, layout.size)

    def _refuse_addresses(self, name: str, symbol: objects.Symbol, layout: Layout) -> None:
        for place in self.object.addresses_in(symbol, layout.size):
            field = next((it.name for it in layout.fields if it.begin <= place < it.end), name)
            raise Wrong(f"{field}: its value is an address, at byte {place}, and an image with addresses can't be a table file")


def _stated(variables: Variables) -> dict[str, bytes]:
    """What CFE_TBL_FILEDEF states, by its members; the size of the table's object as bytes, the high one first."""
    layout, image = variables.layout_of(FILE_DEFINITION, Members())
    found = {}
    for name in STATED:
        field = layout.by_name.get(name)
        if field is None or (field.kind == TEXT) != (name != "ObjectSize"):
            raise Wrong(f"{FILE_DEFINITION}: it has no {name}, as CFE_TBL_FILEDEF makes it")
        raw = image[field.begin:field.end]
        if field.kind == TEXT and b"\0" not in raw:
            raise Wrong(f"{FILE_DEFINITION}.{name}: {raw.decode('ascii', 'replace')} is too long: it takes all of its {len(raw)} bytes")
        found[name] = raw.split(b"\0", 1)[0] if field.kind == TEXT else field.raw(image).to_bytes(8, "big")
    return found


def _name_of(table: bytes) -> str:
    """The table's full name, as a file has it."""
    if not described.NAME.fullmatch(table):
        shown = table.decode("ascii", "replace")
        short = max(len(part) for part in table.split(b".", 1)) <= 16 and b"." in table
        raise Wrong(f"{FILE_DEFINITION}.TableName: {shown} " + ("is no full name" if short else "is no full name, or is too long") +
                    ": an application's of at most 20 bytes, a dot, and a table's of at most 16")
    return table.decode()


def _defined(of: objects.Object, members: Members) -> Definition:
    variables = Variables(of)
    stated = _stated(variables)
    name, table = stated["ObjectName"].decode("utf-8", "replace"), _name_of(stated["TableName"])
    if len(stated["Description"]) >= DESCRIPTION:
        raise Wrong(f"{FILE_DEFINITION}.Description: it is too long: the header of a file has {DESCRIPTION - 1} characters for it")
    layout, image = variables.layout_of(name, members)
    size = int.from_bytes(stated["ObjectSize"], "big")
    if size != layout.size:
        raise Wrong(f"{FILE_DEFINITION}.ObjectSize: it states {size} bytes, and {name} has {layout.size}")
    file_name = stated["TgtFilename"].decode("utf-8", "replace")
    return Definition(of.path, name, table, stated["Description"], file_name, layout, image)


def read(path: str, members: tuple[str, ...] = ()) -> Definition:
    """The definition in an object file, with these members of unions chosen (the words of `--member`)."""
    stated = os.stat(path)
    return _read(path, members, (stated.st_mtime_ns, stated.st_size, stated.st_ino))


@functools.lru_cache(16)
def _read(path: str, members: tuple[str, ...], _state: tuple[int, ...]) -> Definition:
    """It is kept as long as the file stays as it is."""
    try:
        return of_content(path, objects.read(path), members)
    except Wrong as wrong:
        raise Wrong(f"{path}: {wrong}") from None


def of_content(path: str, content: bytes, members: tuple[str, ...] = ()) -> Definition:
    """The definition in an object file that has these bytes."""
    return objects.using(path, content, lambda of: _defined(of, Members(members)))
