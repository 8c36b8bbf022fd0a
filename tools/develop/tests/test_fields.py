"""Tables by field by the command: what each word writes and says, and what a wrong object, file or value is answered."""
import json
import os
import random
import struct
import subprocess
import sys
import unittest

from tblkit import described, files, programs, report
from tblkit.fields import definitions, kinds, loads, reader, values
from tblkit.fields.layout import Field
from tblkit.fields.wrong import Wrong

from . import compiled, cosmos, xtce
from .amounts import amount
from .test_commands import COMMAND, TOOLS, call
from .test_fields_targets import MEMBERS, text_of

HEAD = '#include "cfetbl_table.h"\n'
PAIR = HEAD + "typedef struct { uint32 First; int16 Second; } Pair_t;\nPair_t Pair = {7, -2};\n"
FILEDEF = "CFE_TBL_FILEDEF(Pair, APP.Pair, A pair, pair.tbl)\n"
CHOOSE = [word for it in MEMBERS for word in ("--member", it)]
TOOL = "table"


def wide(name, of_type, bits):
    return Field(name, of_type, 0, bits, kinds.FLOAT, "little")


class Values(unittest.TestCase):
    FLOATS = (0.1, -0.0, 1e-45, 1.17549435e-38, 3.4028235e38, 16777216.0, 1.5, 0.3, 1 / 3, 7.0e-45, 9007199254740993.0, 2 ** -44, 8.5e9)

    def test_the_shortest_text_of_a_float(self):
        """It reads back as the same bits, and no decimal number of fewer digits does."""
        chance = random.Random(1)
        given = [struct.unpack("<I", struct.pack("<f", it))[0] for it in self.FLOATS] + [chance.randrange(1 << 32) for _ in range(2000)]
        field = wide("x", "float", 32)
        for raw in given:
            text = values.text_of(field, raw)
            self.assertEqual(values.raw_of(field, text), raw, text)
            if not text.lstrip("-").startswith(("nan", "inf")):
                self.assertEqual(struct.unpack("<I", struct.pack("<f", float(text)))[0], raw, text)
                self.check_no_shorter(struct.unpack("<f", struct.pack("<I", raw))[0], text)

    def check_no_shorter(self, value, text):
        digits = len(text.lower().partition("e")[0].lstrip("-").replace(".", "").strip("0")) or 1
        if digits > 1:
            mantissa, _, exponent = f"{value:.{digits - 2}e}".partition("e")
            unit = 10.0 ** (int(exponent) - digits + 2)
            for near in (float(f"{mantissa}e{exponent}") + at * unit for at in (-1, 0, 1)):
                shorter = float(f"{near:.{digits - 2}e}")
                if abs(shorter) < 3.4e38:
                    self.assertNotEqual(struct.pack("<f", shorter), struct.pack("<f", value), text)

    def test_floats_of_each_width(self):
        for bits, form, count in ((16, "e", "H"), (64, "d", "Q")):
            field, chance = wide("x", "float", bits), random.Random(2)
            for raw in (chance.randrange(1 << bits) for _ in range(500)):
                self.assertEqual(values.raw_of(field, values.text_of(field, raw)), raw, (form, count))

    def test_rounding_is_once(self):
        """A decimal number just above the middle of two floats, whose nearest double is that middle."""
        field = wide("x", "float", 32)
        self.assertEqual(values.raw_of(field, "1.00000005960464477539062500000001"), 0x3F800001)
        self.assertEqual(values.raw_of(field, "1.000000059604644775390625"), 0x3F800000)


@compiled.needs_reader
class Words(compiled.InFolder):
    @classmethod
    def setUpClass(cls):
        super().setUpClass()
        cls.object = compiled.made(text_of("fields.c"), cls.folder, "fields")
        cls.pair = compiled.made(PAIR + FILEDEF, cls.folder, "pair")

    def run_word(self, *words, given=b""):
        return call(TOOL, *words, given=given)

    def test_build(self):
        status, written, said = self.run_word("build", self.pair, "--time", "1000", "--spacecraft", "0x42", "--processor", "3")
        told = "APP.Pair, 8 bytes, little-endian, check word 0x3E40; 2 fields, 2 bytes of padding"
        self.assertEqual((status, said), (0, f"standard output: {told}\n"))
        wanted = {"table": b"APP.Pair", "description": b"A pair", "seconds": 1000, "spacecraft": 0x42, "processor": 3}
        self.assertEqual(written, files.table_file(struct.pack("<IhH", 7, -2, 0), wanted))

    def test_shape(self):
        self.assertEqual(self.run_word("shape", self.pair)[1].decode(), """\
Pair: APP.Pair, 8 bytes, little-endian, check word 0x3E40; 2 fields, 2 bytes of padding
offset  size  order   type    field
     0     4  little  uint32  First
     4     2  little  int16   Second
     6     2  -       -       padding
""")
        told = json.loads(self.run_word("shape", self.object, "--json", *CHOOSE)[1])
        by_name = {it["name"]: it for it in told["fields"]}
        size = len(definitions.read(self.object).image)
        self.assertEqual((told["table"], told["size"], told["file"]), ("FIELDS_APP.Fields", size, "fields.tbl"))
        self.assertEqual(by_name["Point[1].State"]["enumerators"], {"OFF": 0, "ON": 1, "STUCK": 200})
        self.assertEqual({by_name["Point[0].Middle"][it] for it in ("bit", "bits")}, {3, 13})

    def test_dump_and_diff(self):
        self.run_word("build", self.object, "-o", self.path("a.tbl"))
        self.assertEqual(self.run_word("dump", self.object, self.path("a.tbl"), *CHOOSE)[1].decode(), text_of("fields.dump"))
        self.assertEqual(self.run_word("diff", self.object, self.path("a.tbl"), self.path("a.tbl")), (0, b"no difference\n", ""))
        self.run_word("set", self.object, "Point[1].Limit=-3", "Point[1].Level=HIGH", "--base", self.path("a.tbl"), "-o", self.path("b.tbl"))
        self.assertEqual(self.run_word("diff", self.object, self.path("a.tbl"), self.path("b.tbl")),
                         (1, b"Point[1].Level: MIDDLE -> HIGH\nPoint[1].Limit: 0.1 -> -3.0\n", ""))

    def test_padding_that_differs(self):
        whole = files.table_file(struct.pack("<IhH", 7, -2, 0), {"table": b"APP.Pair"})
        self.write("a.tbl", whole)
        self.write("b.tbl", whole[:-1] + b"\1")
        self.assertEqual(self.run_word("diff", self.pair, self.path("a.tbl"), self.path("b.tbl")),
                         (0, b"no difference\n# padding of 2 bytes at 6 differs: 0000 -> 0001\n", ""))
        self.assertEqual(self.run_word("dump", self.pair, "-", given=whole[:-1] + b"\1")[1],
                         b"First = 7\nSecond = -2\n# padding of 2 bytes at 6 isn't zero: 0001\n")

    def test_a_part(self):
        part = files.table_file(bytes(3), {"table": b"APP.Pair", "offset": 3})
        self.assertEqual(self.run_word("dump", self.pair, "-", given=part)[1],
                         b"# First: only a part of its 4 bytes is there\nSecond = 0\n")
        self.write("part.tbl", part)
        self.run_word("build", self.pair, "-o", self.path("pair.tbl"))
        self.assertEqual(self.run_word("diff", self.pair, self.path("pair.tbl"), self.path("part.tbl"))[:2],
                         (1, b"Second: -2 -> 0\n# 1 of 2 fields aren't in both files\n"))
        self.write("first.tbl", files.table_file(bytes(4), {"table": b"APP.Pair"}))
        self.assertEqual(self.run_word("diff", self.pair, self.path("first.tbl"), self.path("part.tbl")),
                         (1, b"", "cfetbl table: bytes 0 to 3 and 3 to 5 of APP.Pair have no field in common\n"))

    def test_far_apart(self):
        """Fields between those that are set go along, and not all of many are told."""
        said = self.run_word("set", self.object, "Point[0].Low=1", "Point[2].Low=1")[2].splitlines()
        self.assertEqual((len(said), said[-1]), (1 + 2 + 12 + 1, "# and 14 more fields in between"))

    def test_a_large_table(self):
        path = compiled.made(f"{HEAD}uint32 Large[4097] = {{1}};\nCFE_TBL_FILEDEF(Large, APP.Large, d, f)\n", self.folder, "large")
        said = self.run_word("build", path)[2]
        self.assertIn("# a table of cFE's default configuration, and of the service here, has at most 16,384 bytes\n", said)

    def test_set(self):
        status, written, said = self.run_word("set", self.object, "Point[2].Middle=1", "Point[2].Signed=-1", *CHOOSE)
        place = definitions.read(self.object).layout.by_name["Point[2].Middle"].begin
        self.assertEqual((status, said.splitlines()[1:]), (0, [
            "Point[2].Middle: 8191 -> 1", "Point[2].Signed: -16 -> -1", f"# with them goes Point[2].Low, as in {self.object}: 7",
            f"# with them goes Point[2].Of, as in {self.object}: INSIDE"]))
        self.assertEqual(files.read_table_file(written)[0]["offset"], place)
        self.assertEqual(len(written), files.TABLE_HEADER + 3)

    def test_what_dump_writes_is_set(self):
        """Each line of a dump sets the same bits, over an image of other ones."""
        definition = definitions.read(self.object, MEMBERS)
        lines = [line.replace(" = ", "=", 1) for line in text_of("fields.dump").splitlines()]
        self.write("ones.tbl", files.table_file(b"\xff" * definition.layout.size, {"table": b"FIELDS_APP.Fields"}))
        self.assertEqual(self.run_word("set", self.object, *lines, "--base", self.path("ones.tbl"), "-o", self.path("set.tbl"), *CHOOSE)[0], 0)
        dumped = self.run_word("dump", self.object, self.path("set.tbl"), *CHOOSE)[1].decode()
        self.assertEqual(dumped.partition("# ")[0], text_of("fields.dump"))

    def test_a_union_without_a_member(self):
        self.run_word("build", self.object, "-o", self.path("a.tbl"))
        lines = self.run_word("dump", self.object, self.path("a.tbl"))[1].decode().splitlines()
        self.assertIn("Choice[0].Value = 04030201" if sys.byteorder == "little" else "Choice[0].Value = 01020304", lines)
        self.assertIn("Choice[1].Signed|Unsigned = FFFF", lines)
        lines = self.run_word("dump", self.object, self.path("a.tbl"), "--member", "Choice[*].Value=Raw")[1].decode().splitlines()
        self.assertIn("Choice[0].Value.Raw[1] = 3", lines)

    def test_a_table_that_is_no_structure(self):
        """The fields of an array, or a number, have the name of the object."""
        for name, source, lines in (
                ("Wdt", "typedef struct { uint16 Type; float Limit; } Entry_t;\nEntry_t Wdt[2] = {{1, 2.5f}, {3, -1}};",
                 ["Wdt[0].Type = 1", "Wdt[0].Limit = 2.5", "Wdt[1].Type = 3", "Wdt[1].Limit = -1.0"]),
                ("Rate", "const volatile uint32 Rate = 10;", ["Rate = 10"]), ("Note", 'char Note[4] = "ab";', ['Note = "ab"']),
                ("Zeros", "int16 Zeros[2];", ["Zeros[0] = 0", "Zeros[1] = 0"])):
            path = compiled.made(f"{HEAD}{source}\nCFE_TBL_FILEDEF({name}, APP.{name}, d, f)\n", self.folder, "plain")
            made = self.write("plain.tbl", call(TOOL, "build", path)[1])
            self.assertEqual(call(TOOL, "dump", path, made)[1].decode().splitlines(), lines)

    def test_a_byte_order_of_its_own(self):
        """A structure in which the compiler puts the high byte first, whatever the order of the target."""
        source = 'struct __attribute__((scalar_storage_order("big-endian"))) { uint32 a; float b; uint16 c[2]; uint32 d : 3; uint32 e : 29; } Own = ' \
                 "{1, 1.5f, {5, 6}, 5, 7};"
        if subprocess.run([compiled.HOST, "--version"], capture_output=True, check=True).stdout.find(b"Free Software") < 0:
            self.skipTest("the compiler of this machine has no scalar_storage_order")
        path = compiled.made(f"{HEAD}{source}\nCFE_TBL_FILEDEF(Own, APP.Own, d, f)\n", self.folder, "own")
        self.assertEqual(call(TOOL, "set", path, "a=0x01020304")[1][files.TABLE_HEADER:].hex(), "01020304")
        made = self.write("own.tbl", call(TOOL, "build", path)[1])
        self.assertEqual(call(TOOL, "dump", path, made)[1].decode().splitlines(), ["a = 1", "b = 1.5", "c[0] = 5", "c[1] = 6", "d = 5", "e = 7"])

    def test_help_has_each_word_with_an_example(self):
        told = self.run_word("--help")[1].decode()
        for word in ("build", "shape", "dump", "diff", "set", "check"):
            self.assertGreaterEqual(told.count(f"cfetbl table {word} "), 2, word)
            self.assertEqual(self.run_word(word, "--help")[1].decode(), told)


@compiled.needs_reader
class WrongInput(compiled.InFolder):
    # What is wrong of a source, the source, words of the compiler, and what is said of it.
    OBJECTS = (
        ("no -g", PAIR + FILEDEF, ("-g0",), "it has no debugging information (.debug_info): compile it with -g"),
        ("no FILEDEF", PAIR, (), "it has no CFE_TBL_FileDef: has it a CFE_TBL_FILEDEF?"),
        ("no table", PAIR + FILEDEF.replace("(Pair,", "(Pair_t,"), (), "it has no Pair_t, which its CFE_TBL_FILEDEF names"),
        ("a pointer", HEAD + "struct { int a; struct { char *Next; } In[2]; } Pair = {0};\n" + FILEDEF, (),
         "In[0].Next: it is a pointer, and an image with addresses can't be a table file"),
        ("an address", HEAD + "extern int x; struct { uint32 a; uintptr_t At; } Pair = {1, (uintptr_t)&x};\n" + FILEDEF, (),
         "At: its value is an address, at byte 8, and an image with addresses can't be a table file"),
        ("another size", PAIR + FILEDEF.replace("CFE_TBL_FILEDEF(Pair, APP.Pair, A pair, pair.tbl)",
                                                'CFE_TBL_FileDef_t CFE_TBL_FileDef = {"Pair", "APP.Pair", "d", "f", 12};'), (),
         "CFE_TBL_FileDef.ObjectSize: it states 12 bytes, and Pair has 8"),
        ("a long name", PAIR + FILEDEF.replace("APP.Pair", "APP.A_name_of_18_bytes"), (),
         "CFE_TBL_FileDef.TableName: APP.A_name_of_18_bytes is no full name, or is too long: an application's of at most 20 bytes, "
         "a dot, and a table's of at most 16"),
        ("a name of more than all bytes", PAIR + FILEDEF.replace("APP.Pair", "A" * 45), ("-w",),
         f"CFE_TBL_FileDef.TableName: {'A' * 40} is too long: it takes all of its 40 bytes"),
        ("a name without a dot", PAIR + FILEDEF.replace("APP.Pair", "Pair"), (),
         "CFE_TBL_FileDef.TableName: Pair is no full name, or is too long: an application's of at most 20 bytes, a dot, and a table's of "
         "at most 16"),
        ("a definition of another form", PAIR + 'struct { int a; } CFE_TBL_FileDef = {1};\n', (),
         "CFE_TBL_FileDef: it has no ObjectName, as CFE_TBL_FILEDEF makes it"),
        ("a declaration", HEAD + "extern struct { int a; } Pair;\nvoid *At = &Pair;\n" + FILEDEF, (), "Pair is declared in it, and not defined"),
        ("types in units of their own", PAIR + FILEDEF, ("-fdebug-types-section",),
         "section .debug_info: a type is in a unit of its own: compile without -fdebug-types-section"),
        ("types in units of their own, of DWARF 4", PAIR + FILEDEF, ("-fdebug-types-section", "-gdwarf-4"),
         "section .debug_info: a type is in a unit of its own: compile without -fdebug-types-section"),
        ("types elsewhere", PAIR + FILEDEF, ("-gsplit-dwarf",),
         "section .debug_info: the types are in another file (.dwo): compile without -gsplit-dwarf"),
        ("types elsewhere, of DWARF 4", PAIR + FILEDEF, ("-gsplit-dwarf", "-gdwarf-4"),
         "section .debug_info: the types are in another file (.dwo): compile without -gsplit-dwarf"),
        ("little debugging information", PAIR + FILEDEF, ("-g1",), "CFE_TBL_FileDef isn't in its debugging information: compile it with -g"),
        ("a length that isn't said", HEAD + "struct Open;\nextern struct Open Pair;\nvoid *At = &Pair;\n" +
         'CFE_TBL_FileDef_t CFE_TBL_FileDef = {"Pair", "APP.Pair", "d", "f", 8};', (), "Open: it is declared in .debug_info, and not defined"),
    )
    VALUES = (
        ("First=4294967296", "First: 4294967296 is out of range: expected a number from 0 to 4294967295, of the type uint32"),
        ("Second=-32769", "Second: -32769 is out of range: expected a number from -32768 to 32767, of the type int16"),
        ("First=abc", "First: abc is no value of it: expected a decimal number, or one in hexadecimal with 0x"),
        ("First=", "First: nothing is no value of it: expected a decimal number, or one in hexadecimal with 0x"),
        ("Third=1", "Third: there is no such field"),
        ("First", "First: expected FIELD=VALUE, as wdt[3].limit=77.5"),
        ("=1", "=1: expected FIELD=VALUE, as wdt[3].limit=77.5"),
    )
    MORE_VALUES = (
        ("Point[3].Ticks=1", "Point[3].Ticks: there is no such field: Point has the elements 0 to 2"),
        ("Point[1]=1", "Point[1]: it is no field, but has the fields Point[1].Name, .. Point[1].Truth"),
        ("Point[0].Name=twelve bytes", "Point[0].Name: a text of 12 bytes is too long: it has 11"),
        ("Point[0].State=GONE", "Point[0].State: GONE is no value of it: expected OFF, ON, STUCK, or a number"),
        ("Point[0].IsOn=2", "Point[0].IsOn: 2 is out of range: expected true or false"),
        ("Point[0].Limit=1e39", "Point[0].Limit: 1e39 is out of range: it is beyond a float of 32 bits"),
        ("Point[0].Limit=1e999", "Point[0].Limit: 1e999 is out of range: it is beyond a float of 32 bits"),
        ("Point[0].Limit=much", "Point[0].Limit: much is no value of it: expected a decimal number, inf, -inf or nan"),
        ("Point[0].Low=8", "Point[0].Low: 8 is out of range: expected a number from 0 to 7, of the type uint32 in 3 bits"),
        ("Point[0].Signed=16", "Point[0].Signed: 16 is out of range: expected a number from -16 to 15, of the type int32 in 5 bits"),
        ("Choice[0].Value=1", "Choice[0].Value: it is set by 4 bytes in hexadecimal, which are 8 digits, or a member by --member"),
        ('Point[0].Name="\\q"', "Point[0].Name: between quotes, a quote or backslash needs a backslash before it, and \\xNN is a byte"),
    )

    def refused(self, wanted, *words, given=b""):
        """One line, status 1, and nothing is written."""
        made = self.path("made")
        status, written, said = call(TOOL, *words, given=given)
        self.assertEqual((status, written, said), (1, b"", f"cfetbl table: {wanted}\n"))
        self.assertFalse(os.path.exists(made))

    def raises(self, wanted, call_, *given):
        with self.assertRaises(Wrong) as wrong:
            call_(*given)
        self.assertEqual(str(wrong.exception), wanted)

    def test_objects(self):
        for what, source, flags, wanted in self.OBJECTS:
            with self.subTest(what):
                path = compiled.made(source, self.folder, "wrong", *flags)
                self.raises(f"{path}: {wanted}", definitions.read, path)
        for words in (("build",), ("shape",), ("shape", "--json"), ("set", "a=1")):
            self.refused(f"{path}: {wanted}", words[0], path, *words[1:], "-o", self.path("made"))

    def test_what_is_no_object(self):
        path = self.write("text.o", b"no object")
        self.refused(f"{path}: it is no object file: it doesn't begin as an ELF file does", "build", path, "-o", self.path("made"))
        status, written, said = call(TOOL, "build", self.path("none.o"))
        self.assertEqual((status, written, said), (2, b"", f"cfetbl table: {self.path('none.o')}: No such file or directory\n"))

    def test_values(self):
        pair, whole = (compiled.made(it, self.folder, name) for it, name in ((PAIR + FILEDEF, "pair"), (text_of("fields.c"), "fields")))
        for path, cases in ((pair, self.VALUES), (whole, self.MORE_VALUES)):
            for word, wanted in cases:
                with self.subTest(word):
                    self.raises(wanted, loads.assignment, definitions.read(path).layout, word)
            self.refused(wanted, "set", path, word, "-o", self.path("made"))
        self.refused("First: it is set twice", "set", pair, "First=1", "First=2", "-o", self.path("made"))

    def test_files(self):
        pair = compiled.made(PAIR + FILEDEF, self.folder, "pair")
        image, path = {"table": b"APP.Pair"}, self.path("given.tbl")
        for given, wanted in (
                (b"", "it is no table file"),
                (files.table_file(bytes(8), image | {"subtype": 9}), "it is no table file"),
                (files.table_file(bytes(8), {"table": b"APP.Other"}), f"it is a file of the table APP.Other, and {pair} defines APP.Pair"),
                (files.table_file(bytes(9), image), "its 9 image bytes from offset 0 on are no part of the 8 bytes of APP.Pair"),
                (files.table_file(bytes(4), image | {"offset": 5}), "its 4 image bytes from offset 5 on are no part of the 8 bytes of APP.Pair"),
                (files.table_file(b"", image), "its 0 image bytes from offset 0 on are no part of the 8 bytes of APP.Pair"),
                (files.table_file(bytes(8), image)[:-1], "it states 8 image bytes, and has 7")):
            with self.subTest(wanted):
                self.raises(f"{path}: {wanted}", loads.part_of, definitions.read(pair), path, given)
        self.write("given.tbl", given)
        for words in (("dump", pair, path), ("set", pair, "First=1", "--base", path), ("diff", pair, path, path)):
            self.refused(f"{path}: {wanted}", *words, *(["-o", self.path("made")] if words[0] != "diff" else []))
        path = self.write("part.tbl", files.table_file(bytes(4), image))
        self.refused(f"{path}: it has 4 of the 8 bytes of APP.Pair, and --base needs all",
                     "set", pair, "First=1", "--base", path, "-o", self.path("made"))

    def test_members(self):
        path = compiled.made(text_of("fields.c"), self.folder, "fields")
        for word, wanted in (("Choice[0].Value=None",
                              f"{path}: --member Choice[0].Value=None: Fields has no such union, or that has no such member"),
                             ("Choice", f"{path}: --member Choice: expected PATH=NAME, as entry[*].value=count")):
            self.refused(wanted, "build", path, "--member", word, "-o", self.path("made"))

    @unittest.skipUnless(compiled.CLANG, "no clang")
    def test_a_bit_field_whose_place_is_lost(self):
        source = HEAD + "struct { uint8 a; uint8 b : 4; uint32 c : 32; } __attribute__((packed)) Pair = {1, 2, 3};\n" + FILEDEF
        path = compiled.made(source, self.folder, "packed", compiler=compiled.CLANG)
        status, _, said = call(TOOL, "shape", path)
        if status:
            self.assertEqual(said, f"cfetbl table: {path}: c: by .debug_info it has bits of b, so its place isn't known\n")

    def test_without_pyelftools(self):
        """The line that installs it is said, and all that needs none of it goes on."""
        run = ("import runpy, sys; from tblkit.fields import reader; reader.DEBIAN = '/none'; sys.modules['elftools'] = None; "
               "sys.argv = sys.argv[1:]; runpy.run_path(sys.argv[0], run_name='__main__')")
        pair = compiled.made(PAIR + FILEDEF, self.folder, "pair")
        done = subprocess.run([sys.executable, "-c", run, COMMAND[1], TOOL, "build", pair], cwd=TOOLS, capture_output=True, check=False)
        self.assertEqual((done.returncode, done.stdout, done.stderr.decode()), (125, b"", f"cfetbl table: {reader.MISSING}\n"))
        self.assertIn("`apt-get install python3-pyelftools`", reader.MISSING)


@compiled.needs_clang
class BigEndian(compiled.InFolder):
    """On big-endian integers without padding, files and texts are those of the program's proved `make` and `describe`."""
    TYPES = {"u8": "uint8", "u16": "uint16", "u32": "uint32", "i8": "int8", "i16": "int16", "i32": "int32"}

    def program(self, *words, given):
        return subprocess.run([programs.found(), *words], input=given, stdout=subprocess.PIPE, cwd=self.folder, check=True).stdout

    def test_make_and_describe(self):
        for seed in range(amount(12, 4)):
            chance = random.Random(seed)
            forms = [(chance.choice(list(self.TYPES)), f"f{at}") for at in range(chance.randint(1, 12))]
            fields = [Field("", "", 0, int(it[1:]), "", "big", it[0] == "i") for it, _ in forms]
            numbers = [values.number_of(it, chance.randrange(1 << it.bits)) for it in fields]
            description = "table APP.Plain\noffset 0\n" + "".join(f"{kind} {name} {it}\n" for (kind, name), it in zip(forms, numbers))
            members = " ".join(f"{self.TYPES[kind]} {name};" for kind, name in forms)
            source = (f"{HEAD}struct {{ {members} }} __attribute__((packed)) Plain = {{{', '.join(map(str, numbers))}}};\n"
                      "CFE_TBL_FILEDEF(Plain, APP.Plain, Table image, plain.tbl)\n").replace("-2147483648", "-2147483647 - 1")
            path = compiled.made(source, self.folder, "plain", target=compiled.POWERPC)
            made = call(TOOL, "build", path)[1]
            self.assertEqual(made, self.program("make", given=description.encode()))
            self.assertEqual(made, described.make(description.encode()))
            shape = ",".join(f"{kind}:{name}" for kind, name in forms)
            self.assertEqual(self.program("describe", shape, given=made).decode(), description)
            self.write("made.tbl", made)
            dumped = call(TOOL, "dump", path, self.path("made.tbl"))[1].decode().splitlines()
            self.assertEqual(dumped, [f"{name} = {it}" for (_, name), it in zip(forms, numbers)])


@compiled.needs_reader
class GroundDefinitions(compiled.InFolder):
    """Readers of XTCE and of Table Manager's definitions, written from their public descriptions, find the values of a dump."""

    def each_object(self):
        targets = [None] + [it for it in (compiled.POWERPC, "sparc-linux-gnu") if compiled.CLANG and it in compiled.targets()]
        for target in targets:
            yield compiled.made(text_of("fields.c"), self.folder, "fields", target=target)

    def test_xtce(self):
        for path in self.each_object():
            made, definition = call(TOOL, "build", path)[1], definitions.read(path, MEMBERS)
            found, told = xtce.Definition(call(TOOL, "shape", path, "--xtce", *CHOOSE)[1].decode()).decode(made)
            self.assertEqual((found, told["file_table"]), ("FIELDS_APP_Fields", "FIELDS_APP.Fields"))
            read = {name.removeprefix("FIELDS_APP_Fields_"): it for name, it in told.items()}
            for field in definition.layout.fields:
                key = field.name.replace("[", "_").replace("].", "_").replace("]", "").replace(".", "_")
                if key in read or not field.is_bit_field:
                    self.check(field, read[key], definition)

    def test_table_manager(self):
        for path in self.each_object():
            made, definition = call(TOOL, "build", path)[1], definitions.read(path, MEMBERS)
            tables = cosmos.tables(call(TOOL, "shape", path, "--openc3", *CHOOSE)[1].decode())
            self.assertEqual([(it.name, it.size) for it in tables],
                             [("FIELDS_APP.Fields headers", 116), ("FIELDS_APP.Fields", definition.layout.size)])
            head, image = tables[0].values(made[:116]), tables[1].values(made[116:])
            self.assertEqual((head["TABLE"], head["IMAGE_BYTES"]), ("FIELDS_APP.Fields", definition.layout.size))
            self.assertEqual(tables[1].usual(), image)
            for field in definition.layout.fields:
                key = field.name.replace("[", "_").replace("].", "_").replace("]", "").replace(".", "_").upper()
                self.check(field, image[key], definition)

    def check(self, field, found, definition):
        raw = field.raw(definition.image)
        wanted = values.float_of(field, raw) if field.kind == kinds.FLOAT else values.number_of(field, raw)
        if field.kind == "text":
            wanted = raw.to_bytes(field.bits // 8, field.order).rstrip(b"\0").decode()
        self.assertEqual(found, wanted, field.name)


@compiled.needs_reader
class Sessions(compiled.InFolder):
    """The lines of a session that make files of an object, and reads, loads and dumps by field."""
    SESSION = """\
app 1 start APP
app 1 register Pair size 8
file /pair built pair.o spacecraft 67
file /part set pair.o processor 2 Second=77
app 1 load-file 0 /pair
ground LOAD /part
ground VALIDATE inactive APP.Pair
ground ACTIVATE APP.Pair
app 1 manage 0
app 1 get 0
app 1 read 0 at 0 length 8
ground DUMP active APP.Pair /dump
"""

    @classmethod
    def setUpClass(cls):
        super().setUpClass()
        cls.object = compiled.made(PAIR + FILEDEF, cls.folder, "pair")
        cls.write("pair.txt", cls.SESSION.encode())

    def test_records(self):
        status, made, said = call("text", self.path("pair.txt"))
        self.assertEqual((status, said), (0, ""))
        self.assertIn(call(TOOL, "build", self.object, "--spacecraft", "67")[1], made)
        self.assertIn(call(TOOL, "set", self.object, "Second=77", "--processor", "2")[1], made)

    def test_by_field(self):
        status, session, _ = call("text", self.path("pair.txt"))
        played = subprocess.run([programs.found(), "play"], input=session, stdout=subprocess.PIPE, cwd=self.folder, check=True).stdout
        self.write("pair.transcript", played)
        named = ("--shape-of", f"APP.Pair={self.object}", self.path("pair.txt"), self.path("pair.transcript"))
        status, shown, said = call("show", *named)
        self.assertEqual((status, said), (0, ""))
        lines = [line.strip() for line in shown.decode().splitlines() if line.startswith("      APP.Pair: ")]
        self.assertEqual(lines, ["APP.Pair: First 7, Second -2", "APP.Pair: Second 77", *["APP.Pair: First 7, Second 77"] * 2])
        page = json.dumps(report.unpacked(call("report", *named)[1].decode()))
        self.assertEqual(page.count("APP.Pair: First 7, Second 77"), 2)

    def test_typed(self):
        status, shown, said = call("repl", "--shape-of", "APP.Pair=pair.o", given=self.SESSION.encode(), cwd=self.folder)
        self.assertEqual((status, shown.count(b"APP.Pair: First 7, Second 77")), (0, 2), said)

    def test_wrong_lines(self):
        for line, wanted in (("file /a built none.o", "15: expected a file that can be read: none.o: No such file or directory"),
                             ("file /a built pair.c", "15: expected the object file of a table: pair.c: it is no object file: it doesn't "
                              "begin as an ELF file does"),
                             ("file /a set pair.o", "19: expected a field and its value, as wdt[3].limit=77.5, found the end of the line"),
                             ("file /a set pair.o First=x", "20: expected a field and its value: First: x is no value of it: expected a "
                              "decimal number, or one in hexadecimal with 0x"),
                             ("file /a built pair.o extra", "22: expected the end of the line, found extra")):
            status, written, said = call("text", given=f"{line}\n".encode(), cwd=self.folder)
            self.assertEqual((status, written, said.splitlines()[0]), (1, b"", f"<stdin>:1:{wanted}"))

    def test_wrong_shapes(self):
        for words, wanted in ((["--shape-of", f"APP.Pair={self.path('pair.c')}"], "it is no object file"), (["--shape-of", "APP.Pair"], "NAME=OBJ")):
            status, written, said = call("show", *words, self.path("pair.txt"), "/dev/null")
            self.assertEqual((status, written), (2, b""))
            self.assertIn(wanted, said)


