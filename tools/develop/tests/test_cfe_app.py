"""`cfetbl cfe-app` and `cfetbl states`: the lines that sessions give, what is left out, and which states they reach."""
import os
import tempfile
import unittest

from tblkit import cfeapp, coverage, live

from .test_commands import call

SESSION = """\
# A comment.
app 1 start CTRL
app 1 register LIMITS size 4 double validator 1
time 5 0
app 1 load 0 hex 01020304
app 2 start GNC
app 2 share CTRL.LIMITS
app 2 get 1
app 2 read 1 at 0 length 4
file /new table CTRL.LIMITS hex 05060708
ground LOAD /new
ground VALIDATE inactive CTRL.LIMITS
app 1 load 0 hex 0102
app 3 get 0
app 2 exit
app 2 start GNC
app 2 get 1
app 1 cds-register STATE size 200
app 1 cds-copy 0 fill AA 200
app 1 cds-delete 0
reset processor
app 1 load 0 hex 01020304
"""
LINES = """\
1 register 0 LIMITS 4 0x0001 xor
1 load 0 01020304
2 share 1 CTRL.LIMITS
2 get 1
0 file /ram/f1 6346453100000008000000400000004200000001 00*12 5461626C6520696D616765 00*32 044354524C2E4C494D495453 00*29 05060708
0 command 2 - - /ram/f1
0 command 4 0 CTRL.LIMITS -
2 exit
1 cds-register 0 STATE 200
1 cds-copy 0 AA*200
0 reset 1
1 load 0 01020304
"""
# What docs/use/states.md says of these states.
ANSWERS = {
    ("one buffer, never loaded", "Get"): {60}, ("one buffer, never loaded", "Release"): {61}, ("one buffer, never loaded", "LoadImage"): {0},
    ("one buffer, loaded, address held", "LoadImage"): {9}, ("one buffer, loaded, address held", "Get"): {0, 1, 59},
    ("one buffer, loaded, load open", "LoadImage"): {45}, ("two buffers, loaded, address held", "LoadImage"): {0},
    ("two buffers, loaded, address of the image before held", "LoadImage"): {9},
    ("one buffer, function, loaded, load open", "ACTIVATE"): {66}, ("one buffer, function, loaded, validation pending", "ACTIVATE"): {68},
    ("one buffer, function, loaded, validation pending", "Validate"): {0, 58}, ("one buffer, function, loaded, load validated", "Validate"): {7},
    ("one buffer, function, loaded, activation asked", "Update"): {0}, ("one buffer, function, loaded, activation asked, address held", "Update"): {9},
    ("one buffer, function, loaded, activation asked", "LOAD"): {67}, ("dump-only, loaded", "DumpToBuffer"): {8}, ("dump-only, loaded", "DUMP"): {0},
    ("dump-only, loaded, dump asked", "DUMP"): {70}, ("dump-only, loaded, dump asked", "DumpToBuffer"): {0},
    ("dump-only, loaded, dump filled", "GetStatus"): {5}, ("dump-only, loaded, address held", "Edit"): {9}, ("dump-only, loaded", "LoadImage"): {44},
    (coverage.NOT_GIVEN, "Get"): {33}, (coverage.ANOTHERS, "Update"): {34}, (coverage.GONE, "Get"): {35}, (coverage.NO_TABLE, "ACTIVATE"): {64}}


class Folders(unittest.TestCase):
    def setUp(self):
        folder = tempfile.TemporaryDirectory()
        self.addCleanup(folder.cleanup)
        self.folder = folder.name

    def open_run(self):
        running = live.Running(tempfile.mkdtemp(dir=self.folder))
        self.addCleanup(running.finish)
        return running

    def write(self, name, content):
        path = os.path.join(self.folder, name)
        with open(path, "w", encoding="utf-8") as file:
            file.write(content)
        return path


class Lines(Folders):
    def written(self, session):
        writer = cfeapp.Writer()
        writer.take_lines(session.splitlines(), self.open_run())
        return writer

    def test_lines(self):
        writer = self.written(SESSION)
        self.assertEqual("\n".join(writer.lines) + "\n", LINES)
        self.assertEqual((writer.apps, writer.reads), ([b"CFETBL_GROUND", b"CTRL", b"GNC"], 1))

    def test_what_is_left_out(self):
        told = [(int(place.rsplit(" ", 1)[1]), line.split()[2] if line.startswith("app") else line.split()[0])
                for place, line, _ in self.written(SESSION).left_out]
        self.assertEqual(told, [(4, "time"), (13, "load"), (14, "get"), (16, "start"), (17, "get"), (20, "cds-delete")])

    def test_sessions_after_each_other(self):
        """Each gives its tables back, and a power-on at the beginning is left out silently."""
        writer = self.written("app 1 start A\napp 1 register T size 4")
        writer.take_lines(["reset power-on", "app 3 start A", "app 3 register T size 8"], self.open_run())
        self.assertEqual(writer.lines, ["1 register 0 T 4 0x0000 none", "1 unregister 0", "1 register 0 T 8 0x0000 none", "1 unregister 0"])
        self.assertEqual(writer.left_out, [])

    def test_long_lines(self):
        image = bytes(range(1, 256)) * 60
        line = "1 load 0 " + cfeapp.digits(image + bytes(700))
        pieces = cfeapp.cut(line)
        self.assertTrue(len(pieces) > 10 and all(len(it) <= cfeapp.LONGEST_LINE for it in pieces) and all(it[0] == "+" for it in pieces[1:]))
        self.assertEqual("".join(it.lstrip("+") for it in pieces), line)
        self.assertTrue(line.endswith(" 00*700"))

    def test_words(self):
        self.assertEqual([cfeapp.word(it) for it in (b"CTRL.LIMITS", b"", b"-", b'a"b', b"%")], ["CTRL.LIMITS", "%", "%2D", "%61%22%62", "%25"])


class Command(Folders):
    def test_files(self):
        session, target = self.write("s.txt", SESSION), os.path.join(self.folder, "app")
        status, written, _ = call("cfe-app", session, "-o", target)
        self.assertEqual(status, 0)
        self.assertIn(f"{session}:4: time 5 0\n    cFE has a clock of its own\n", written.decode())
        self.assertEqual(sorted(os.listdir(target)), ["CMakeLists.txt", "README.txt", "cfe_es_startup.lines", "fsw", "left-out.txt"])
        with open(os.path.join(target, "cfe_es_startup.lines"), encoding="utf-8") as lines:
            self.assertEqual([it.split(", ")[:4] for it in lines][1], ["CFE_APP", "cfetbl_calls", "CFETBL_CALLS_Main", "CTRL"])
        with open(os.path.join(target, "README.txt"), encoding="utf-8") as readme:
            self.assertIn("Resets of the processor in it: 1. cFE ends", readme.read())

    def test_wrong_use(self):
        wrong = self.write("wrong.txt", "app 1 NOPE\n")
        for words in ([], ["-o", self.folder], [wrong], [wrong, "-o", self.folder], ["-", "-o", self.folder], ["nofile", "-o", self.folder]):
            self.assertEqual(call("cfe-app", *words)[0], 2, words)
        session = self.write("s.txt", SESSION)
        self.assertEqual(call("cfe-app", session, "-o", session)[0], 4)
        for words in ([], ["--cover", session], ["nofile"]):
            self.assertEqual(call("states", *words)[0], 2, words)

    def test_states(self):
        session = self.write("s.txt", SESSION)
        status, written, _ = call("states", session)
        lines = written.decode().splitlines()
        self.assertEqual((status, lines[0].split()[:3]), (0, ["state", "Register", "Share"]))
        state = next(it for it in lines if it.startswith("two buffers, function, never loaded "))
        # The first load is rejected, since its last byte isn't the exclusive or of the others, and the second comes while a load is open.
        self.assertIn(" 58 ", state)
        self.assertRegex(lines[-1], r"^\d+ of \d{4} pairs of a state and a call")
        page = os.path.join(self.folder, "page.html")
        self.assertEqual(call("states", "-o", page, "--cover")[0], 0)
        with open(page, encoding="utf-8") as file:
            self.assertIn('title="9 INFO_TABLE_LOCKED">9</td>', file.read())


class Walks(Folders):
    def test_the_walk(self):
        sessions, pairs = coverage.walks(self.open_run)
        self.assertTrue(all(len(it) < 3_000 for it in sessions))
        self.check_answers(pairs)
        self.check_states(pairs)

    def check_answers(self, pairs):
        """The walk comes to the states that the guide has, and is answered there as it says."""
        for pair, statuses in ANSWERS.items():
            # (who shares a table is refused what the owner alone may do)
            self.assertEqual(pairs.found.get(pair, set()) - ({34} - statuses), statuses, pair)
        self.assertEqual({call for _, call in pairs.found}, set(coverage.CALLS))

    def check_states(self, pairs):
        """Each state of a table with a function has each call of its owner."""
        owners = {"LoadImage", "LoadFile", "Update", "Validate", "Manage", "DumpToBuffer", "Edit", "Get", "Release", "GetStatus", "Notify", "LOAD",
                  "VALIDATE", "ACTIVATE", "ABORT_LOAD", "DUMP", "Register", "Unregister"}
        for state in {it for it, _ in pairs.found if "function" in it}:
            self.assertEqual(owners - {call for found, call in pairs.found if found == state}, set(), state)


if __name__ == "__main__":
    unittest.main()
