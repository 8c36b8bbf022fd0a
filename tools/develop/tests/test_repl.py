"""`cfetbl repl`: each example typed line by line, lines with a colon, wrong lines, and a terminal with completion."""
import glob
import os
import pty
import select
import shutil
import subprocess
import sys
import tempfile
import unittest

from tblkit import completion, states

from . import recorded
from .test_commands import COMMAND, TOOLS, call
from .test_store import bank_of

DESCRIPTIONS = glob.glob(os.path.join(recorded.TOP, "sessions", "*.tbl.txt"))
EXAMPLES = sorted({*glob.glob(os.path.join(recorded.TOP, "sessions", "*.txt"))} - {*DESCRIPTIONS})
START = b"app 1 start A\napp 1 register T size 4 double\napp 1 load 0 hex 01020304\napp 1 get 0\n"
WAIT = 180


class Typed(unittest.TestCase):
    def setUp(self):
        folder = tempfile.TemporaryDirectory()
        self.addCleanup(folder.cleanup)
        self.folder = folder.name

    def typed(self, lines):
        status, written, said = call("repl", given=lines, cwd=self.folder)
        return status, written.decode(), "\n".join(it for it in said.splitlines() if "unproved" not in it)

    def test_examples(self):
        # (a session names descriptions beside it)
        for name in DESCRIPTIONS:
            shutil.copy(name, self.folder)
        # (a session that is played under lists of admitted identifiers isn't one of repl's)
        for name in (it for it in EXAMPLES if not it.endswith("/admitted.txt")):
            with self.subTest(name), open(name, "rb") as lines:
                shown = call("show", name, name[:-len("txt")] + "transcript")[1].decode()
                self.assertEqual(self.typed(lines.read()), (0, shown, ""))

    def test_state(self):
        _, written, _ = self.typed(START + b"app 2 start B\napp 2 share A.T\nfile /a table A.T hex 01\nground LOAD /a\n:state\n")
        self.assertEqual(written.splitlines()[-4:-1], [
            "app 1 A runs; app 1 has the handle 0 A.T", "app 2 B runs; app 2 has the handle 1 A.T (of app 1)",
            "A.T of app 1, row 0, 4 bytes, double: image 1; load open; handle 0 holds the address of image 1"])

    def test_undo_and_save(self):
        status, written, _ = self.typed(START + b":undo\n:save kept.txt\n:reset processor\n:undo\napp 1 get 0\n:quit\nground NOOP\n")
        self.assertEqual(status, 0)
        self.assertEqual(written.splitlines()[5:], [
            "undone: app 1 get 0", "kept.txt has 3 requests", "3 reset processor -> 0 SUCCESS", "undone: reset processor",
            "3 app 1 get 0 -> 1 INFO_UPDATED", "end: status 0, the work is done; 4 entries; all 67 bytes of the session were played"])
        with open(os.path.join(self.folder, "kept.txt"), "rb") as kept:
            self.assertEqual(kept.read(), START[:-len("app 1 get 0\n")])

    def test_words_without_a_colon(self):
        status, written, said = self.typed(b"help\nquit\nground NOOP\n")
        self.assertEqual((status, said), (0, ""))
        self.assertEqual([written.splitlines()[it] for it in (0, -1)], [
            ":state              the applications, handles and tables, with their images, loads and addresses that are held",
            "end: status 0, the work is done; 0 entries; all 0 bytes of the session were played"])

    def test_a_file_that_is_there(self):
        """Nobody can be asked whether it may be written over, so it stays."""
        path = os.path.join(self.folder, "kept.txt")
        with open(path, "w", encoding="ascii") as kept:
            kept.write("mine\n")
        status, _, said = self.typed(b"ground NOOP\n:save kept.txt\n:save other.txt\n")
        self.assertEqual((status, said), (2, "cfetbl repl: kept.txt is there already, and stays as it is"))
        with open(path, encoding="ascii") as kept:
            self.assertEqual(kept.read(), "mine\n")
        self.assertTrue(os.path.exists(os.path.join(self.folder, "other.txt")))

    def test_a_name_that_is_doubled(self):
        said = self.typed(b"app 1 start NAV\napp 1 register NAV.MODES size 4\napp 1 register MODES.NAV size 4\n")[2]
        self.assertEqual(said, "cfetbl repl: the application's name is put before this one, so the full name is NAV.NAV.MODES")

    def test_the_store_file_stays(self):
        lines = b"app 1 start A\napp 1 cds-register S size 4\napp 1 cds-copy 0 hex 01020304\n"
        self.typed(lines)
        self.assertEqual(os.listdir(self.folder), [])
        with open(os.path.join(self.folder, "cds.store"), "wb") as store:
            store.write(bytes(262144))
        self.typed(lines)
        with open(os.path.join(self.folder, "cds.store"), "rb") as store:
            self.assertEqual(store.read(), bytes(262144))

    def test_a_store_that_is_named(self):
        """A copy of it is played over; without one the session begins with an empty store."""
        blocks = b"app 1 start A\napp 1 cds-register S size 4\n"
        path = os.path.join(self.folder, "kept")
        with open(path, "wb") as store:
            store.write(bank_of({0: "43445332", 16: "A50200000000201000000004412E53"}))
        for name, wanted in (("kept", "11 INFO_CDS_EXISTS"), ("none", "0 SUCCESS")):
            written = call("repl", "--store", name, given=blocks, cwd=self.folder)[1].decode()
            self.assertIn(f"-> {wanted}, slot 0", written)
        self.assertEqual(os.listdir(self.folder), ["kept"])
        self.assertEqual(call("repl", "--store", os.path.join(TOOLS, "names.tsv"))[0], 2)
        self.assertEqual(call("repl", "--durable")[0], 2)

    def test_wrong_lines(self):
        status, written, said = self.typed(b"ground NOPE\n:nothing\nground NOOP\n")
        self.assertEqual((status, written.count("\n"), said.splitlines()[0]),
                         (2, 3, "<stdin>:1:8: expected a command, or packet, found NOPE; did you mean NOOP?"))
        self.assertIn("there is no line :nothing; `help` lists them", said)
        self.assertIn("there is no line :sav; did you mean :save?", self.typed(b":sav\n")[2])

    def test_bytes(self):
        """Records in pieces, and what is no record."""
        status, written, _ = self.typed(b"bytes 0100 00\nbytes 08 1804C00000010022 0100\n")
        self.assertEqual((status, written.splitlines()), (5, [
            "0 ground NOOP -> 0 SUCCESS", "      event 1 command accepted: function code 0 NOOP",
            "end: status 5, a record is bad, or the input ends inside one; 1 entry; record 1, at byte 12, is bad: 2 bytes, which is "
            "less than the head of a record"]))
        status, written, _ = self.typed(b"bytes 7F000000\nground NOOP\n")
        self.assertEqual((status, written), (5, "end: status 5, a record is bad, or the input ends inside one; 0 entries; "
                                             "record 0, at byte 0, is bad: kind 7F, which is none\n"))

    def test_words(self):
        self.assertEqual(call("repl", "--help")[0], 0)
        self.assertEqual(call("repl", "a")[0], 2)


class Completion(unittest.TestCase):
    def words(self, front):
        return completion.candidates(front, states.States(), ["/a"])

    def test_what_may_come_next(self):
        self.assertIn("ground", self.words(""))
        self.assertIn("register", self.words("app 1"))
        self.assertEqual(self.words("ground VALIDATE"), ["inactive", "active"])
        self.assertIn("double", self.words("app 1 register T size 4"))
        self.assertEqual(self.words("ground LOAD"), ["/a"])
        self.assertEqual(self.words("app"), [])

    def talk(self, folder, *turns):
        """What is seen at a terminal, after each of the turns: what is typed, and what comes then."""
        ours, theirs = pty.openpty()
        run = subprocess.Popen([*COMMAND, "repl"], stdin=theirs, stdout=theirs, stderr=theirs,
                               cwd=folder, env=os.environ | {"TERM": "dumb"})
        os.close(theirs)
        seen = b""
        for typed, wanted in turns:
            os.write(ours, typed)
            while wanted not in seen:
                self.assertTrue(select.select([ours], [], [], WAIT)[0], (typed, seen))
                seen += os.read(ours, 4096)
        run.wait(WAIT)
        os.close(ours)
        return seen.decode().replace("\r\n", "\n")

    def test_in_a_terminal(self):
        """It greets in a line, the tab key completes, and the answer comes as soon as a line is typed."""
        with tempfile.TemporaryDirectory() as folder:
            seen = self.talk(folder, (b"", b"> "), (b"app 1 sta\tA\n", b"0 app 1 start A -> 0 SUCCESS\r\n> "), (b"\x04", b"end: status 0"))
            with open(os.path.join(recorded.TOP, "docs", "use", "tutorial.md"), encoding="utf-8") as page:
                greeting = next(line.strip() for line in page if line.startswith("    cfetbl repl: "))
            self.assertIn(greeting.replace("/tmp/", f"{os.path.realpath(folder)}/") + "\n", seen)

    def test_a_file_that_is_there(self):
        """It is asked for before it is written over."""
        with tempfile.TemporaryDirectory() as folder:
            path = os.path.join(folder, "kept")
            for answer, wanted, content in ((b"n\n", b"stays as it is", "mine\n"), (b"y\n", b"kept has 1 request", "ground NOOP\n")):
                with open(path, "w", encoding="ascii") as kept:
                    kept.write("mine\n")
                self.talk(folder, (b"ground NOOP\n:save kept\n", b"kept is there already. Write over it? [y/N] "), (answer, wanted),
                          (b":save /no/such/folder\n", b"writing failed: /no/such/folder: No such file"), (b"quit\n", b"end: status 0"))
                with open(path, encoding="ascii") as kept:
                    self.assertEqual(kept.read(), content)


if __name__ == "__main__":
    unittest.main()
