"""`cfetbl store` and what it reads: the banks of the recorded scripts of the store, whose text stands there, and changed bytes. What isn't
indented is what the program writes."""
import os
import re
import subprocess
import tempfile
import unittest

from tblkit import proved, store

from . import recorded
from .test_commands import COMMAND

SCRIPTS = os.path.join(recorded.TOP, "crates", "test_calls", "store-scripts.txt")
# The table A.T of 4 bytes with the image 01020304, and with another one in its second place. In a store of version 1 it has one place.
BANK = {0: "43445332", 16: "A50100000000201000000004412E54", 68: "A000", 8208: "000000040FA1000001020304",
        139280: "000000043BE3000005060708"}
VERSION_1 = BANK | {0: "43445331"}
# What is told of its turn bytes, and of the image that shows by them.
TURNS = {"A000": "first place (turn bytes A000), check word 0x0FA1; bytes 01020304",
         "A0A1": "second place (turn bytes A0A1), check word 0x3BE3; bytes 05060708",
         "A2A0": "second place (turn bytes A2A0), check word 0x3BE3; bytes 05060708",
         "A0A2": "first place (turn bytes A0A2), check word 0x0FA1; bytes 01020304",
         "A1A1": "first place (turn bytes A1A1), check word 0x0FA1; bytes 01020304",
         "A3A1": "second place (turn bytes A3A1), check word 0x3BE3; bytes 05060708",
         "0000": "neither place shows (turn bytes 0000)", "A3FF": "neither place shows (turn bytes A3FF)"}
WHOLE, TORN, LAST = "0 8208 4 T A.T whole", "0 8208 4 T A.T torn", "blocks 1 free 122852"
ROOM = "    122,852 bytes of them together: a block of up to 16,384 bytes finds a place"
OLD = "    the store is of version 1, in which a block has one place: the next start carries it over"


def bank_of(runs):
    """The bytes of a bank: zeros, over which stand these pieces, by place."""
    bank = bytearray(store.SIZE)
    for at, piece in runs.items():
        content = bytes.fromhex(piece)
        bank[at:at + len(content)] = content
    return bytes(bank)


def recorded_texts():
    """The bytes at the end of each script whose last call is a text, and that text."""
    with open(SCRIPTS, encoding="utf-8") as scripts:
        for script in scripts.read().split("\n\n"):
            calls = re.findall(r"^\w.* -> .*$", script, re.M)
            told = re.fullmatch(r"text -> '(.*)'", calls[-1]) if calls else None
            if told:
                ends = {int(at): piece for at, piece in re.findall(r"^end (\d+) (\w+)$", script, re.M)}
                yield bank_of(ends), told[1].replace("\\n", "\n")


def told(bank, *words):
    """What the tool writes of a bank, its status, and what it says."""
    with tempfile.TemporaryDirectory() as folder:
        with open(os.path.join(folder, "cds.store"), "wb") as file:
            file.write(bank)
        done = subprocess.run([*COMMAND, "store", *words], cwd=folder, capture_output=True, text=True, check=False)
    return done.returncode, done.stdout.splitlines(), done.stderr


class Store(unittest.TestCase):
    def test_recorded_banks(self):
        banks = list(recorded_texts())
        self.assertGreater(len(banks), 100)
        for bank, text in banks:
            self.assertEqual(store.text(bank), text)

    def test_lines_are_the_programs(self):
        """What isn't indented is what the program writes; where all is well there is nothing else."""
        second = BANK | {80: "A5020000000030D400000002412E55", 12500: "00000002CB110000DEAD", 132: "A000"}
        for bank in (bank_of({}), bank_of(BANK), bank_of(second), bank_of(second | {12508: "BEAD"}), bank_of(BANK | {80: "A503"}), bank_of(VERSION_1)):
            text = proved.store(bank).decode().splitlines()
            for words in ((), ("--long",), ("--all",)):
                self.assertEqual([it for it in told(bank, *words)[1] if it[:1] != " "], text)
        self.assertEqual(told(bank_of(BANK))[1], [WHOLE, LAST])

    def test_turns(self):
        for turns, state in TURNS.items():
            first = WHOLE if "bytes 0" in state.partition(";")[2] else TORN
            self.assertEqual(told(bank_of(BANK | {68: turns}), "--long")[:2], (0, [first, f"    {state}", LAST, ROOM]))

    def test_a_torn_block(self):
        damaged = BANK | {8216: "05060704"}
        why = "    first place (turn bytes A000) has length 4, check word 0x0FA1, and its bytes have 0x3EE3"
        self.assertEqual(told(bank_of(damaged))[1], [TORN, why, LAST])
        self.assertEqual(told(bank_of(damaged), "--long")[1], [TORN, f"{why}; bytes 05060704", LAST, ROOM])
        self.assertEqual(told(bank_of(damaged | {68: "A0A1"}))[1], [WHOLE, LAST])

    def test_all_bytes(self):
        image = "".join(f"{it:02X}" for it in range(20))
        bank = bank_of({0: "43445332", 16: "A50100000000201000000014412E54", 68: "A0", 8208: f"00000014{store.check_word(bytes.fromhex(image)):04X}0000{image}"})
        self.assertTrue(told(bank, "--long")[1][1].endswith(f"; bytes {image[:32]} and 4 more"))
        self.assertTrue(told(bank, "--all")[1][1].endswith(f"; bytes {image}"))

    def test_version_1(self):
        bank = bank_of(VERSION_1)
        for content in (bank, bank[:store.BLOCKS_END]):
            self.assertEqual(told(content)[:2], (0, [WHOLE, LAST, OLD]))
            self.assertEqual(told(content, "--long")[:2], (0, [WHOLE, "    check word 0x0FA1; bytes 01020304", LAST, OLD, ROOM]))
        self.assertEqual(told(bank_of(VERSION_1 | {68: "A0A1", 8216: "05060704"}))[1][:2],
                         [TORN, "    length 4, check word 0x0FA1, and its bytes have 0x3EE3"])
        self.assertEqual(told(bank_of(VERSION_1 | {8208: "00000000"}), "--long")[1][1],
                         "    no image was copied into it whole (length 0); bytes 00000000")

    def test_entries_that_dont_count(self):
        whys = {"A50100000000201400000004412E55": "its block has bytes in common with that of slot 0",
                "A50100000000201C00000004412E54": "slot 0 has its kind and name", "A50100000000201C00004001412E55": "its size is 16385",
                "A50300000000201C00000004412E55": "its kind is 3", "A50100000000200000000004412E55": "its block would be at 8192",
                "A50100000000201C00000004410055": "its name field doesn't read as a name"}
        for entry, why in whys.items():
            self.assertEqual(told(bank_of(BANK | {80: entry}))[1],
                             [WHOLE, f"    slot 1 is open and doesn't count: {why} (the next start closes it)", LAST])
        self.assertEqual(told(bank_of(BANK | {80: "A40100000000201400000004412E55"}))[1], [WHOLE, LAST])

    def test_no_store(self):
        for bank in (bank_of(BANK | {2: "54"}), b"CDS1", b"CDS2", bank_of(BANK)[:8000]):
            status, lines, said = told(bank, "--long")
            self.assertEqual((status, lines[-1][-20:], bool(said)), (1, " bytes finds a place", True))
        self.assertEqual(told(bank_of(BANK | {2: "54"}))[1], ["blocks 0 free 122864"])
        self.assertEqual(told(bank_of(BANK | {3: "30"}))[0], 0)

    def test_words(self):
        self.assertEqual([told(b"", *words)[0] for words in (["a", "b"], ["--no"], ["no-such"])], [2] * 3)
        self.assertEqual(told(b"", "--help")[0], 0)
