"""What people type and read: words that aren't right, numbers of one, sizes, and doubled names."""
import glob
import io
import os
import re
import subprocess
import tempfile
import unittest

from tblkit import names, near, numbers, records, shapes, text

from . import recorded
from .test_commands import call

FRONT = os.path.join(recorded.TOP, "cfetbl")
SIZES = b"""app 1 start NAV
app 1 register M size 4
app 1 load 0 hex 01
app 1 cds-register S size 8
app 1 cds-copy 0 hex 0102
app 1 load 0 hex 0102030405
"""


def front(*words):
    done = subprocess.run([FRONT, *words], stdin=subprocess.DEVNULL, capture_output=True, text=True, check=False)
    return done.returncode, done.stdout, done.stderr


class NotKnown(unittest.TestCase):
    def test_words_that_are_like_it(self):
        self.assertEqual(near.near("SHWO", ["show", "store", "Show"]), ["show"])
        self.assertEqual(near.meant("xyzzy", ["show"]), "")
        for words, said in ((["plya"], "plya isn't known; did you mean play? (see cfetbl --help)"),
                            (["exmaples"], "exmaples isn't known (see cfetbl --help)"),
                            (["help", "sho"], "sho isn't known; did you mean show? (see cfetbl --help)")):
            with self.subTest(words):
                self.assertEqual(front(*words), (2, "", f"cfetbl: {said}\n"))

    def test_options_of_tools(self):
        for tool, option, like in (("show", "--jsno", "--json"), ("store", "--al", "--all"), ("serve", "--clok", "--clock"),
                                   ("xtce", "--big-endain", "--big-endian"), ("text", "--bakc", "--back"), ("play", "--shwo", "--show"),
                                   ("watch", "--txet", "--text"), ("resets", "--miror", "--mirror")):
            status, written, said = call(tool, option)
            self.assertEqual((status, written), (2, b""))
            self.assertRegex(said, rf"^cfetbl {tool}: unrecognized arguments: {option}; did you mean {like}[^\n]*\(see cfetbl {tool} --help\)\n$")

    def test_a_file_in_the_place_of_a_word(self):
        status, _, said = front(FRONT)
        self.assertEqual((status, said), (2, f"cfetbl: {FRONT} is a file, not a word: `cfetbl play --show {FRONT}` plays it if it is a "
                                             "session (see cfetbl --help)\n"))

    def test_a_shape_of_an_unknown_table(self):
        name = os.path.join(recorded.TOP, "sessions", "limits")
        status, written, said = call("show", "--shape", "CS_APP.Limit=u16:limit", name + ".txt", name + ".transcript")
        self.assertEqual((status, written, said), (2, b"", "cfetbl show: --shape: the session has no table CS_APP.Limit; did you mean "
                                                           "CS_APP.Limits?\n"))
        self.assertEqual(call("show", "--check", "--shape", "CS_APP.Limit=u16:limit", name + ".txt")[0], 2)
        self.assertEqual(call("show", "--check", "--shape", "CS_APP.Limits=u16:limit", name + ".txt")[0], 0)
        self.assertEqual(call("show", "--shape", "CS_APP.Limits=u16:limit", name + ".transcript")[0], 2)

    def test_tables_of_a_session(self):
        session = io.BytesIO()
        lines = b"app 1 start A\napp 1 register T size 4\napp 2 share X.Y\nfile /a table Q.R hex 01\nfile /b hex 01\napp 3 register T size 4\n"
        text.to_records(io.BytesIO(lines), session)
        self.assertEqual(shapes.tables_of(session), {"A.T", "X.Y", "Q.R"})


class Numbers(unittest.TestCase):
    def test_one_and_several(self):
        self.assertEqual([numbers.counted(it, "entry", "entries") for it in (0, 1, 2)], ["0 entries", "1 entry", "2 entries"])
        self.assertEqual([numbers.counted(it, "request") for it in (1, 12)], ["1 request", "12 requests"])

    def test_in_messages(self):
        """No message has one of several things, whatever number stands there."""
        self.assertEqual(records.head_fault(bytes.fromhex("04000009")), "kind 04 Reset with a body of 9 bytes")
        self.assertEqual(records.head_fault(bytes.fromhex("10010001")), "kind 10 Start with a body of 1 byte")
        pieces = list(records.pieces(io.BytesIO(b"\x01")))
        self.assertEqual(pieces[0].fault, "1 byte, which is less than the head of a record")
        with tempfile.TemporaryDirectory() as folder:
            path = os.path.join(folder, "calls")
            with open(path, "w", encoding="ascii") as log:
                log.write("app 1 CFE_TBL_Register T 4 0 none -> CFE_TBL_ERR_BAD_APP_ID\n")
            self.assertNotIn(b"1 calls", call("compare", "/dev/null", path)[1])
        self.assertEqual(call("text", given=b"bytes A\n")[2].splitlines()[0],
                         "<stdin>:1:7: expected the bytes in hexadecimal, two digits a byte, or empty, found 1 digit")


class Sizes(unittest.TestCase):
    def test_both_are_told(self):
        status, written, _ = call("repl", "--store", "none", given=SIZES)
        self.assertEqual(status, 0)
        self.assertEqual([it for it in written.decode().splitlines() if "86 ERR_IMAGE_SIZE" in it], [
            "2 app 1 load 0 hex 01 -> 86 ERR_IMAGE_SIZE, the image has 1 byte, and NAV.M has 4",
            "4 app 1 cds-copy 0 hex 0102 -> 86 ERR_IMAGE_SIZE, the image has 2 bytes, and the block in slot 0 has 8",
            "5 app 1 load 0 hex 0102030405 -> 86 ERR_IMAGE_SIZE, the image has 5 bytes, and NAV.M has 4"])


class Doubled(unittest.TestCase):
    LINES = (b"app 1 start NAV\napp 1 register NAV.MODES size 4\napp 1 register A.B size 4\napp 2 start A\n"
             b"  app 1 cds-register A.B size 4 # twice\nbytes 10\n")

    def test_it_is_said(self):
        status, _, said = call("text", given=self.LINES)
        self.assertEqual((status, said.splitlines()), (0, [
            f"<stdin>:{at}: the application's name is put before this one, so the full name is {name}"
            for at, name in (("2:16", "NAV.NAV.MODES"), ("5:22", "NAV.A.B"))]))

    def test_the_examples_have_none(self):
        for name in glob.glob(os.path.join(recorded.TOP, "sessions", "*.txt")):
            if not name.endswith(".tbl.txt"):
                self.assertEqual(call("text", name)[2], "")


class Cfe(unittest.TestCase):
    def test_each_word_is_something_here(self):
        for it in names.cfe_words():
            with self.subTest(it.name):
                self.assertRegex(it.name, r"^CFE_[A-Za-z_0-9]+$")
                self.assertNotIn("which is none", it.here())
                self.assertIn(it.kind, ("status", "also", "event", "command", "message", "request", "limit", "option", "none"))
                self.assertTrue(it.said or it.kind in ("status", "message"))

    def test_they_are_those_of_the_library_for_c(self):
        """The names that the library's header has are words here."""
        used = set()
        for path in glob.glob(os.path.join(recorded.TOP, "c", "include", "*.h")):
            with open(path, encoding="utf-8") as header:
                used |= set(re.findall(r"\bCFE_[A-Z]+_(?:ERR|INFO|WARN|OPT|SRC)_[A-Z_]+\b(?<!_MSK)", header.read()))
        self.assertGreater(len(used), 30)
        self.assertEqual(used - {it.name for it in names.cfe_words()}, set())


if __name__ == "__main__":
    unittest.main()
