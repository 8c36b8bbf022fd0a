"""What a file is, by its first bytes: a session as text or as records, a transcript, or another file that people have here."""
import enum

from . import files, layouts, names, records, store, transcript

# How many bytes tell what a file is.
FRONT = 4096
TEXT_BYTES = frozenset(range(0x20, 0x7F)) | frozenset(range(0x80, 0x100)) | frozenset(b"\t\n\f\r")
FILE_HEADER = layouts.shape("file header")
CAPTURES = tuple(bytes.fromhex(it) for it in ("A1B2C3D4", "D4C3B2A1", "A1B23C4D", "4D3CB2A1", "0A0D0D0A"))
UTF_16 = (b"\xff\xfe", b"\xfe\xff")


class Kind(enum.Enum):
    """A kind of files: what it is called, and what reads it, with {0} for the file's name."""
    TEXT = "a session as text", "`cfetbl play --show {0}` plays it, and `cfetbl text {0}` writes its records"
    RECORDS = "a session as records", "`cfetbl play --show {0}` plays it, and `cfetbl text --back {0}` writes it as text"
    TRANSCRIPT = "a transcript", "`cfetbl show SESSION {0}` prints it"
    STORE = "a store file", "`cfetbl map {0}` shows its blocks"
    TABLE_FILE = "a table file", "the line `file NAME from {0}` of a session uplinks it"
    REGISTRY_FILE = "a registry file", "`--show` prints its fields with the DUMP_REGISTRY that wrote it"
    CAPTURE = "a capture", "Wireshark opens it, with cfetbl.lua"
    WIDE_TEXT = "text in UTF-16", "it can be read once it is stored in UTF-8"
    OTHER = "neither text nor records", "it begins with {1}"

    def said_of(self, name, front) -> str:
        """That a file of this name with these first bytes is of the kind, and what reads it."""
        what, reads = self.value
        if name == "-":
            return f"standard input is {what}"
        return f"{name} is {what}: " + reads.format(name, front[:8].hex(" ").upper())


def kind_of(front) -> Kind:
    """The kind of a file with these first bytes. An empty one is a session without records."""
    if not front or _begins_record(front):
        return Kind.RECORDS
    if front[:4] == bytes(4) and front[4:5] <= b"\x10" or front.startswith(transcript.END):
        return Kind.TRANSCRIPT
    if front.startswith(CAPTURES):
        return Kind.CAPTURE
    if front.startswith(UTF_16):
        return Kind.WIDE_TEXT
    if TEXT_BYTES.issuperset(front):
        return Kind.TEXT
    if store.is_live(front):
        return Kind.STORE
    return _file_kind(front)


def _begins_record(front) -> bool:
    """Whether records begin so. No text that is a session does: its first four bytes are the head of no record."""
    head = front[:records.HEAD]
    if len(head) < records.HEAD:
        return head[0] in names.requests() and not TEXT_BYTES.issuperset(head)
    return not records.head_fault(head)


def _file_kind(front) -> Kind:
    """The kind of a file that begins with cFE's file header."""
    content, subtype, *_ = FILE_HEADER.unpack_from(front.ljust(FILE_HEADER.size, b"\0"))
    if content != files.CONTENT:
        return Kind.OTHER
    return {files.TABLE_SUBTYPE: Kind.TABLE_FILE, files.REGISTRY_SUBTYPE: Kind.REGISTRY_FILE}.get(subtype, Kind.OTHER)


def front_of(source) -> bytes:
    """The first bytes of a file that is open for reading, which stay to be read."""
    return source.peek(FRONT)[:FRONT]
