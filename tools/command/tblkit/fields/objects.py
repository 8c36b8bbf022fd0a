"""Object files: their sections with what relocations write there, their symbols, and the bytes of a variable."""
import functools
import inspect
import io
import zlib
from collections.abc import Iterator
from dataclasses import dataclass
from typing import Any

from . import reader, relocations
from .kinds import ByteOrder
from .wrong import NoReader, Wrong

MOST_BYTES = 1 << 26
COMPRESSED = 0x800
# The sections in which types and names are.
DEBUGGING = (".debug_info", ".debug_abbrev", ".debug_str", ".debug_line_str", ".debug_str_offsets", ".debug_addr")
RELOCATED = (".debug_info", ".debug_str_offsets")


@dataclass(frozen=True)
class Symbol:
    """A symbol: its place and size, and the number of its section, or a word such as SHN_COMMON."""
    name: str
    value: int
    size: int
    section: int | str


class Object:
    """An object file, or a linked one."""

    def __init__(self, path: str, content: bytes) -> None:
        self.path, self._content = path, content
        if self._content[:4] != b"\x7fELF":
            raise Wrong("it is no object file: it doesn't begin as an ELF file does")
        self._elf = reader.library().elf.elffile.ELFFile(io.BytesIO(self._content))
        self.order: ByteOrder = "little" if self._elf.little_endian else "big"
        self._machine = self._elf["e_machine"]
        self.is_linked = self._elf["e_type"] != "ET_REL"
        self._sections = self._all_sections()
        self._numbers = {it.name: number for number, it in enumerate(self._sections)}

    def _all_sections(self) -> list:
        count, size = self._elf.num_sections(), 64 if self._elf.elfclass == 64 else 40
        if self._elf["e_shoff"] + count * size > len(self._content):
            raise Wrong("it is cut short: its section headers go beyond its end")
        return [self._elf.get_section(number) for number in range(count)]

    def _section(self, number: int) -> Any:
        if number >= len(self._sections):
            raise Wrong(f"it has no section {number}")
        return self._sections[number]

    def _raw(self, section) -> bytes:
        """The bytes of a section as they are in the file."""
        begin, size = section["sh_offset"], section["sh_size"]
        if begin + size > len(self._content):
            raise Wrong(f"section {section.name}: it is cut short")
        return self._content[begin:begin + size]

    def _plain(self, section) -> bytes:
        """The bytes of a section of debugging information, which a compiler may have compressed."""
        raw = self._raw(section)
        if not section["sh_flags"] & COMPRESSED:
            return raw
        head = 24 if self._elf.elfclass == 64 else 12
        if int.from_bytes(raw[:4], self.order) != 1:
            raise Wrong(f"section {section.name}: it isn't compressed by zlib: compile without -gz, or with -gz=zlib")
        unpacked = zlib.decompressobj().decompress(raw[head:], MOST_BYTES + 1)
        if len(unpacked) > MOST_BYTES:
            raise Wrong(f"section {section.name}: it has more than {MOST_BYTES:,} bytes")
        return unpacked

    @functools.cached_property
    def symbols(self) -> dict[str, list[Symbol]]:
        """The symbols by their names."""
        found: dict[str, list[Symbol]] = {}
        for section in self._sections:
            if section["sh_type"] == "SHT_SYMTAB":
                for it in section.iter_symbols():
                    symbol = Symbol(it.name, it["st_value"], it["st_size"], it["st_shndx"])
                    found.setdefault(symbol.name, []).append(symbol)
        return found

    def _relocations_of(self, number: int) -> Iterator[tuple]:
        """The relocations of a section, each with the number of the section that has its symbol."""
        for section in self._sections:
            if section["sh_type"] in ("SHT_REL", "SHT_RELA") and section["sh_info"] == number:
                for it in section.iter_relocations():
                    yield it, section["sh_link"]

    def _value_of(self, number: int, table: int) -> int:
        """The value of the symbol of a number."""
        symbols = self._section(table)
        if symbols["sh_type"] != "SHT_SYMTAB":
            raise Wrong(f"section {symbols.name}: it has no symbols, and relocations need them")
        return symbols.get_symbol(number)["st_value"]

    def _relocated(self, name: str) -> bytes:
        """The bytes of a section of debugging information as a linker would leave them."""
        number = self._numbers[name]
        content = bytearray(self._plain(self._sections[number]))
        if self.is_linked or name not in RELOCATED:
            return bytes(content)
        for one, table in self._relocations_of(number):
            kind, place = one["r_info_type"], one["r_offset"]
            change = relocations.change_of(self._machine, kind)
            if change is None:
                raise Wrong(f"section {name}: relocation {kind} of machine {self._machine} isn't known here")
            if place + change.size > len(content):
                raise Wrong(f"section {name}: a relocation is beyond its end")
            added = one["r_addend"] if one.is_RELA() else 0
            if change.how == relocations.SET and (not one.is_RELA() or self._machine in relocations.IN_PLACE):
                added += int.from_bytes(content[place:place + change.size], self.order)
            relocations.apply(content, self.order, place, change, self._value_of(one["r_info_sym"], table) + added)
        return bytes(content)

    def debugging(self) -> Any:
        """The debugging information, as pyelftools reads it."""
        if ".debug_info" not in self._numbers:
            raise Wrong("it has no debugging information (.debug_info): compile it with -g")
        dwarf = reader.library().dwarf.dwarfinfo
        sections = dict.fromkeys(it for it in inspect.signature(dwarf.DWARFInfo.__init__).parameters if it not in ("self", "config"))
        for name in (it for it in DEBUGGING if it in self._numbers):
            content = self._relocated(name)
            sections[f"{name[1:]}_sec"] = dwarf.DebugSectionDescriptor(io.BytesIO(content), name, 0, len(content), 0)
        config = dwarf.DwarfConfig(self._elf.little_endian, self._elf.get_machine_arch(), self._elf.elfclass // 8)
        return dwarf.DWARFInfo(config=config, **sections)

    def symbol_of(self, *names: str) -> Symbol | None:
        """The symbol of a variable by the first of its names that is there. Some compilers put an underscore before it."""
        for name in (it for plain in names for it in (plain, f"_{plain}")):
            if name in self.symbols:
                defined = [it for it in self.symbols[name] if it.section != "SHN_UNDEF"]
                if len(defined) > 1:
                    raise Wrong(f"it has {name} {len(defined)} times")
                return (defined or self.symbols[name])[0]
        return None

    def image_of(self, symbol: Symbol, size: int) -> bytes:
        """So many bytes of a variable."""
        if symbol.section == "SHN_UNDEF":
            raise Wrong(f"{symbol.name} is declared in it, and not defined")
        if symbol.section == "SHN_COMMON":
            return bytes(size)
        if not isinstance(symbol.section, int):
            raise Wrong(f"{symbol.name} is in no section of it")
        section = self._section(symbol.section)
        at = symbol.value - (section["sh_addr"] if self.is_linked else 0)
        if at < 0 or at + size > section["sh_size"]:
            raise Wrong(f"{symbol.name}: its {size} bytes go beyond the section {section.name}")
        if section["sh_type"] == "SHT_NOBITS":
            return bytes(size)
        return self._raw(section)[at:at + size]

    def addresses_in(self, symbol: Symbol, size: int) -> list[int]:
        """The places in a variable's bytes in which a linker or a loader writes an address."""
        if not isinstance(symbol.section, int):
            return []
        kinds = ("SHT_REL", "SHT_RELA", "SHT_RELR") if self.is_linked else ("SHT_REL", "SHT_RELA")
        of_all = (it for it in self._sections if it["sh_type"] in kinds and (self.is_linked or it["sh_info"] == symbol.section))
        places = (one["r_offset"] - symbol.value for section in of_all for one in section.iter_relocations())
        return sorted({it for it in places if 0 <= it < size})


def read(path: str) -> bytes:
    """The bytes of an object file."""
    with open(path, "rb") as file:
        return looked_at(file.read(MOST_BYTES + 1))


def looked_at(content: bytes) -> bytes:
    """The bytes of an object file, if they are no more than are read."""
    if len(content) > MOST_BYTES:
        raise Wrong(f"it has more than {MOST_BYTES:,} bytes")
    return content


def using(path: str, content: bytes, use) -> Any:
    """What `use` makes of an object file. Whatever pyelftools comes to in a file that is damaged is said as that."""
    try:
        return use(Object(path, content))
    except (Wrong, NoReader):
        raise
    except Exception as error:  # pylint: disable=broad-except
        said = str(error).splitlines()
        raise Wrong(f"it is cut short or damaged ({type(error).__name__}{': ' * bool(said)}{said[0] if said else ''})") from None
