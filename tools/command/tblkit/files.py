"""Table files: cFE's file header (CFE_FS_Header_t), its table file header (CFE_TBL_File_Hdr_t), and the image bytes."""
from collections.abc import Iterator
from typing import Any

from . import layouts, names

FILE_HEADER, TABLE_HEADER = layouts.end_of("file header"), layouts.end_of("table file header")
CONTENT = layouts.number("content type of a file")
TABLE_SUBTYPE, REGISTRY_SUBTYPE = layouts.number("subtype of a table file"), layouts.number("subtype of a registry file")
REGISTRY_RECORD = names.size_of("registry")
MOST_CONTENTS = layouts.number("bytes of a file's contents")
MOST_IMAGE = MOST_CONTENTS - TABLE_HEADER


def defaults(image_bytes) -> dict[str, Any]:
    """What the fields of a table file are where nothing else is said, by name: those that the service itself writes."""
    return {"content": CONTENT, "subtype": TABLE_SUBTYPE, "length": FILE_HEADER, "spacecraft": 66, "processor": 1,
            "application": 0, "seconds": 0, "subseconds": 0, "description": b"Table image", "reserved": 0,
            "offset": 0, "image bytes": image_bytes, "table": b""}


def layout() -> tuple[names.Field, ...]:
    return names.fields("file header") + names.fields("table file header")


def table_file(image, values) -> bytes:
    """A table file with these image bytes. `values` has the fields that are others than the defaults."""
    values = defaults(len(image)) | values
    parts = []
    for field in layout():
        value = values[field.name]
        parts.append(value.ljust(field.width, b"\0") if field.form == "name" else value.to_bytes(field.width, "big"))
    return b"".join(parts) + image


def read_table_file(content) -> tuple[dict[str, Any], bytes] | None:
    """The values of all header fields and the image bytes, or None where there are no whole headers."""
    if len(content) < TABLE_HEADER:
        return None
    values = {}
    for field in layout():
        raw = field.of(content)
        values[field.name] = names.name_in(raw) if field.form == "name" else int.from_bytes(raw, "big")
    return values, content[TABLE_HEADER:]


def split(content) -> Iterator[bytes]:
    """The files that stand in reply bytes one after the other: table files by the number of bytes that each states,
    and a registry file with all that follows it. What is no file comes last, as it stands."""
    while content:
        found = read_table_file(content)
        length = len(content)
        if found and found[0]["content"] == CONTENT and found[0]["subtype"] == TABLE_SUBTYPE:
            length = min(length, TABLE_HEADER + found[0]["image bytes"])
        yield content[:length]
        content = content[length:]
