"""`cfetbl map`: the bank of docs/reference/store.md, entries that don't count, gaps, and what its page says."""
import os
import re
import tempfile
import unittest

from tblkit import store, storemap

from . import recorded
from .test_commands import call

EXAMPLE = {0: "43445332", 16: "A5 01 0000 00002010 00000004 412E54", 68: "A0", 8208: "00000004 0FA1 0000 01020304"}
VERSION_1 = {0: "43445331", 68: "00"}
# Turn bytes and what stands in the second place, the state, which place shows, and the check word of its bytes.
COPIES = (("A000", "", "whole", "first", 0x0FA1), ("A000", "00000004 3BE3 0000 0506", "whole", "first", 0x0FA1),
          ("A0A1", "00000004 3BE3 0000 05060708", "whole", "second", 0x3BE3), ("A0A1", "00000004 3BE3 0000 05060704", "torn", "second", 0x3EE3),
          ("A0A2", "00000004 3BE3 0000 05060708", "whole", "first", 0x0FA1), ("0000", "", "reserved, no image", "none", None))
# The same of what stands in the only place of version 1.
BROKEN = (("00000004 0FA1 0000 05060704", "torn", 0x3EE3), ("00000004 0FA1 0000 05060708", "torn", 0x3BE3),
          ("00000004 3BE3 0000 05060708", "whole", 0x3BE3), ("00000000 0000 0000 01020304", "reserved, no image", 0x0FA1))
# An entry of slot 1 beside that of the example, and why it doesn't count; without a reason it does.
ENTRIES = (("A5 02 0000 00002020 00000004 412E54", ""), ("A5 01 0000 00002020 00000004 422E54", ""),
           ("A4 02 0000 00002020 00000004 412E54", None), ("A5 03 0000 00002020 00000004 412E54", "its kind is"),
           ("A5 02 0000 00002020 00000000 412E54", "its size is 0"), ("A5 02 0000 00002020 00004001 412E54", "its size is 16385"),
           ("A5 02 0000 0000200F 00000001 412E54", "would be at 8207"), ("A5 02 0000 0001FFF0 00000009 412E54", "would be at 131056"),
           ("A5 02 0000 0001FFF0 00000008 412E54", ""), ("A5 02 0000 00002020 00000004 00", "its name field"),
           ("A5 02 0000 00002020 00000004 4120", "its name field"), ("A5 02 0000 00002020 00000004 412E540042", "its name field"),
           ("A5 02 0000 0000201B 00000004 412E54", "in common with that of slot 0"), ("A5 02 0000 0000201C 00000004 412E54", ""),
           ("A5 01 0000 00002020 00000004 412E54", "slot 0 has its kind and name"))


def bank_of(*changes):
    content = bytearray(store.SIZE)
    for at, digits in [it for change in (EXAMPLE, *changes) for it in change.items()]:
        piece = bytes.fromhex(digits)
        content[at:at + len(piece)] = piece
    return bytes(content)


class Banks(unittest.TestCase):
    def test_the_example(self):
        self.assertEqual(list(storemap.lines("cds.store", storemap.Map(bank_of()))), [
            "cds.store: 1 of 128 slots, 122,852 of 122,864 bytes free in 1 gap, the greatest 122,852", "",
            "slot  place  bytes  whose  name  state  shows  check word  image",
            "0     8208   4      table  A.T   whole  first  0x0FA1      01020304", "",
            "free from  to      bytes   the greatest block there", "8220       131071  122852  16384"])

    def test_which_place_shows(self):
        for turns, second, state, shows, found in COPIES:
            _, block = storemap.Map(bank_of({68: turns, 139280: second})).blocks[0]
            self.assertEqual((storemap.state_of(block), block.shown and block.shown.found), (state, found))
            line = list(storemap.lines("a", storemap.Map(bank_of({68: turns, 139280: second}))))[3]
            self.assertRegex(line, f"  {state} +{shows} +{'-' if found is None else '0x'}")

    def test_version_1(self):
        for digits, state, found in BROKEN:
            mapped = storemap.Map(bank_of(VERSION_1, {8208: digits})[:store.BLOCKS_END])
            _, block = mapped.blocks[0]
            self.assertEqual((storemap.state_of(block), block.shown.found), (state, found))
            self.assertEqual(list(storemap.notes(mapped)), [
                "It is of version 1, in which a block has one place: the next boot of the processor carries it over."])

    def test_which_entries_count(self):
        for digits, reason in ENTRIES:
            with self.subTest(digits):
                found = storemap.Map(bank_of({16 + 64: digits}))
                self.assertEqual([it.slot for it, _ in found.blocks], [0, 1] if reason == "" else [0])
                self.assertEqual([reason in it.fault for it in found.ignored], [True] if reason else [])

    def test_gaps(self):
        found = storemap.Map(bank_of({80: "A5 02 0000 00003000 00000010 412E54", 144: "A5 02 0000 0001F000 00000FF8 42"}))
        self.assertEqual(found.gaps, [(8220, 12288 - 8220), (12312, 0x1F000 - 12312)])
        self.assertEqual(found.free, sum(size for _, size in found.gaps))

    def test_other_banks(self):
        self.assertEqual(list(storemap.lines("a", storemap.Map(bytes(store.SIZE))))[:2], [
            "a: 0 of 128 slots, 122,864 of 122,864 bytes free in 1 gap, the greatest 122,864",
            "It doesn't begin with CDS, so it has no blocks: the next boot writes an empty directory."])
        self.assertIn("It has 9,000 bytes; the program writes zeros", "\n".join(storemap.lines("a", storemap.Map(bank_of()[:9000]))))


class Pages(unittest.TestCase):
    def test_the_page(self):
        page = storemap.html("a", storemap.Map(bank_of({80: "A5 02 0000 00003FF0 00001010 412E55"})))
        slots = dict(re.findall(r'data-slot="(\d+)" data-state="([a-z, ]+)"', page))
        self.assertEqual([slots[it] for it in ("0", "1", "2")], ["whole", "reserved, no image", "free"])
        bars = re.findall(r'data-place="(\d+)" data-bytes="(\d+)" [^>]*data-of="([a-z 0-9]+)"', page)
        first = [(16368, 16), (16384, 4104)]
        self.assertEqual([(int(at), int(size)) for at, size, whose in bars if whose == "slot 1"],
                         first + [(at + store.BETWEEN, size) for at, size in first])
        self.assertEqual(sum(int(it[1]) for it in bars), store.SIZE)

    def test_the_page_of_version_1(self):
        bars = re.findall(r'data-bytes="(\d+)"', storemap.html("a", storemap.Map(bank_of(VERSION_1))))
        self.assertEqual(sum(map(int, bars)), store.BLOCKS_END)


class Words(unittest.TestCase):
    def test_files(self):
        with tempfile.TemporaryDirectory() as folder:
            with open(os.path.join(folder, "cds.store"), "wb") as store:
                store.write(bank_of())
            self.assertIn(b"1 of 128 slots", call("map", cwd=folder)[1])
            self.assertEqual(call("map", "-o", "map.html", cwd=folder)[:2], (0, b""))
            self.assertIn(b"standard input: 1 of", call("map", "-", given=bank_of())[1])
            self.assertEqual(call("map", "nofile", cwd=folder)[0], 2)
        hello = os.path.join(recorded.TOP, "sessions", "hello.txt")
        status, _, said = call("map", hello)
        self.assertEqual((status, said[:len("cfetbl map: no store file: ")]), (2, "cfetbl map: no store file: "))


if __name__ == "__main__":
    unittest.main()
