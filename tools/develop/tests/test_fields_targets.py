"""Tables by field on each target of clang: the same definition says the same everywhere, and images are the bytes of the objects."""
import os
import struct
import subprocess

from tblkit.fields import definitions, loads

from . import compiled

HERE = os.path.dirname(os.path.realpath(__file__))
MEMBERS = ("Choice[0].Value=Count", "Choice[1].Value=Ratio", "Choice[0]=Signed", "Choice[1]=Unsigned")


def text_of(name):
    with open(os.path.join(HERE, name), encoding="ascii") as file:
        return file.read()


def section_of(path, wanted):
    """The bytes of a section of an ELF file, by the layout of its headers alone."""
    with open(path, "rb") as file:
        content = file.read()
    is_wide, end = content[4] == 2, "<" if content[5] == 1 else ">"
    offset, = struct.unpack_from(end + ("Q" if is_wide else "I"), content, 0x28 if is_wide else 0x20)
    size, count, names = struct.unpack_from(end + "HHH", content, 0x3A if is_wide else 0x2E)
    form = end + ("IIQQQQIIQQ" if is_wide else "10I")
    headers = [struct.unpack_from(form, content, offset + at * size) for at in range(count)]
    for it in headers:
        begin = headers[names][4] + it[0]
        if content[begin:content.index(b"\0", begin)].decode() == wanted:
            return content[it[4]:it[4] + it[5]]
    raise AssertionError(f"{path} has no section {wanted}")


@compiled.needs_clang
class Targets(compiled.InFolder):
    def check(self, path, wanted):
        definition = definitions.read(path, MEMBERS)
        made = loads.table_file(definition, loads.whole(definition))
        lines = "".join(f"{it}\n" for it in loads.dump(definition, loads.part_of(definition, path, made)))
        self.assertEqual(lines, wanted)
        self.assertEqual(made[116:], section_of(path, ".table"))

    def test_each_target(self):
        """A dump of what is built is the same for all, and the image is the section in which the compiler put the table."""
        source, wanted = text_of("fields.c"), text_of("fields.dump")
        self.assertGreater(len(compiled.targets()), 5)
        for target in compiled.targets():
            with self.subTest(target):
                self.check(compiled.made(source, self.folder, "fields", target=target), wanted)

    def test_each_form_of_debugging_information(self):
        source, wanted = text_of("fields.c"), text_of("fields.dump")
        forms = [(f"-gdwarf-{version}",) for version in (2, 3, 4, 5)] + [("-gz=zlib",), ("-gdwarf-5", "-gdwarf64"), ("-O2",)]
        for target in (compiled.POWERPC, "riscv64-unknown-elf", "x86_64-linux-gnu"):
            for words in forms:
                if "-gdwarf64" in words and target != "x86_64-linux-gnu":
                    continue
                with self.subTest(target=target, words=words):
                    self.check(compiled.made(source, self.folder, "fields", *words, target=target), wanted)

    def test_the_compiler_of_this_machine(self):
        source, wanted = text_of("fields.c"), text_of("fields.dump")
        for words in ((), ("-gdwarf-2", "-gstrict-dwarf"), ("-gdwarf-3",), ("-gdwarf-4",), ("-gz=zlib",), ("-O2",)):
            with self.subTest(words):
                self.check(compiled.made(source, self.folder, "fields", *words), wanted)

    def test_cross_compilers_of_gcc(self):
        source, wanted = text_of("fields.c"), text_of("fields.dump")
        for compiler in compiled.cross_compilers():
            for words in ((), ("-gdwarf-2", "-gstrict-dwarf"), ("-gdwarf-4", "-O2"), ("-gz=zlib",)):
                with self.subTest(compiler=compiler, words=words):
                    self.check(compiled.made(source, self.folder, "fields", "-ffreestanding", *words, compiler=compiler), wanted)

    def test_a_linked_file(self):
        source = compiled.made(text_of("fields.c"), self.folder, "fields", "-fPIC")
        subprocess.run([compiled.HOST, "-shared", "-nostdlib", "-o", self.path("fields.so"), source], check=True)
        self.check(self.path("fields.so"), text_of("fields.dump"))


