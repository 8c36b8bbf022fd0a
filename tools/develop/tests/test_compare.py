"""`cfetbl compare` and the recorder of c/record: calls of a mock of cFE are answered alike, and each planted fault is found."""
import os
import re
import shutil
import subprocess
import tempfile
import unittest
import unittest.mock

from tblkit import compared, differences, live, player, records

from . import recorded
from .test_commands import TOOLS, call

HERE = os.path.dirname(os.path.realpath(__file__))
MOCK, RECORD = os.path.join(HERE, "mock_cfe"), os.path.join(recorded.TOP, "c", "record")
BEFORE = b"app 1 start CTRL\n"
# The line of the log at which each fault of the mock is found.
FAULTS = {1: 3, 2: 5, 3: 7, 4: 8, 5: 16, 6: 17, 7: 19, 8: 24, 9: 30, 10: 26}
LOG = """\
# A comment, and a line of session text.
app 1 start CTRL
app 1 CFE_TBL_Register LIMITS 4 0x0000 none -> CFE_SUCCESS handle 7
app 1 CFE_TBL_Load 7 address 01020304 -> CFE_SUCCESS
app 1 CFE_TBL_GetAddress 7 -> CFE_TBL_INFO_UPDATED bytes 01020304
app 1 CFE_TBL_Load 8 address 01020304 -> CFE_TBL_ERR_INVALID_HANDLE
file /new table CTRL.LIMITS hex 05060708
ground LOAD /new
ground VALIDATE inactive CTRL.LIMITS
ground ACTIVATE CTRL.LIMITS
app 1 CFE_TBL_Update 7 -> CFE_TBL_INFO_TABLE_LOCKED
app 1 CFE_TBL_ReleaseAddress 7 -> 0x00000000
"""
DIFFERENCE = """\
LOG:11: app 1 CFE_TBL_Update 7 -> CFE_SUCCESS
    here: app 1 update 0 -> 9 INFO_TABLE_LOCKED, which is CFE_TBL_INFO_TABLE_LOCKED of cFE
    before it:
      app 1 CTRL runs; app 1 has the handle 0 CTRL.LIMITS
      CTRL.LIMITS of app 1, row 0, 4 bytes: image 1; activation asked; handle 0 holds the address of image 1
"""


class Compared(unittest.TestCase):
    def setUp(self):
        folder = tempfile.TemporaryDirectory()
        self.addCleanup(folder.cleanup)
        self.folder = folder.name

    def compare(self, log, before=b"", *options):
        with open(os.path.join(self.folder, "before.txt"), "wb") as session:
            session.write(before)
        if log is not None:
            with open(os.path.join(self.folder, "LOG"), "w", encoding="utf-8") as lines:
                lines.write(log)
        status, written, said = call("compare", *options, "before.txt", "LOG", cwd=self.folder)
        return status, written.decode(), "\n".join(it for it in said.splitlines() if "unproved" not in it)

    def test_a_log(self):
        self.assertEqual(self.compare(LOG), (0, "no difference: 6 calls\n", ""))
        self.assertEqual(os.listdir(self.folder).count("cds.store"), 0)

    def test_the_first_difference(self):
        log = LOG.replace("CFE_TBL_INFO_TABLE_LOCKED", "CFE_SUCCESS").replace("0x00000000", "CFE_TBL_ERR_NO_ACCESS")
        self.assertEqual(self.compare(log), (1, DIFFERENCE, ""))

    def test_what_is_compared(self):
        for was, is_now, place in (("INFO_UPDATED bytes 01020304", "INFO_UPDATED bytes 01020305", 5),
                                   ("INFO_UPDATED bytes 01020304", "INFO_UPDATED bytes 010203", 5),
                                   ("LIMITS 4 0x0000 none", "LIMITS 4 0x0001 none", 11), ("-> 0x00000000", "-> 0xCC000001", 12),
                                   ("none -> CFE_SUCCESS handle 7", "none -> CFE_SUCCESS", 4)):
            self.assertEqual(self.compare(LOG.replace(was, is_now))[1].split(": ")[0], f"LOG:{place}", was)

    def test_known_differences(self):
        log = LOG.replace("app 1 CFE_TBL_ReleaseAddress 7 -> 0x00000000", "app 1 CFE_TBL_GetAddress 7 -> CFE_SUCCESS bytes 01020304")
        status, written, _ = self.compare(log)
        self.assertEqual((status, written.splitlines()[:3]), (1, [
            "LOG:12: app 1 CFE_TBL_GetAddress 7 -> CFE_SUCCESS bytes 01020304",
            "    here: app 1 get 0 -> 59 ERR_ALREADY_PINNED, for which cFE has no return code",
            "    known: difference 8 of docs/reference/cfe.md: the address is given again there (--expect known passes over it)"]))
        self.assertEqual(self.compare(log, b"", "--expect", "known"), (0, "no difference: 6 calls, but for known ones: 8 (once)\n", ""))
        self.assertEqual(self.compare(log.replace("bytes 01020304\n", "bytes 01020305\n"), b"", "--expect", "known")[0], 1)

    def test_what_came_before(self):
        """A known difference lets cFE answer otherwise later: the service does the same, or the table isn't compared any more."""
        front = LOG.replace("ground VALIDATE inactive CTRL.LIMITS\n", "").splitlines()
        log = "\n".join([*front[:4], *front[6:9], "app 1 CFE_TBL_Update 7 -> CFE_SUCCESS", "app 1 CFE_TBL_GetAddress 7 -> CFE_TBL_INFO_UPDATED bytes 05060708"])
        self.assertEqual(self.compare(log + "\n", b"", "--expect", "known")[:2], (0, "no difference: 4 calls, but for known ones: 43 (once)\n"))
        self.assertIn("    known: difference 43 of docs/reference/cfe.md", self.compare(log + "\n")[1])
        log = "\n".join([*front[:3], "app 1 CFE_TBL_GetAddress 7 -> CFE_TBL_ERR_NEVER_LOADED", front[3].replace("SUCCESS", "TBL_INFO_TABLE_LOCKED"),
                         "app 1 CFE_TBL_GetAddress 7 -> CFE_TBL_ERR_NEVER_LOADED"])
        self.assertEqual(self.compare(log + "\n", b"", "--expect", "known")[:2], (
            0, "no difference: 4 calls, but for known ones: 10 (once); 1 of them weren't compared, since their table is in another state there\n"))

    def test_verdicts(self):
        """A validation function is the application's own: its verdicts are those of the log, whatever the first byte is."""
        front = "app 1 start CTRL\napp 1 CFE_TBL_Register LIMITS 4 0x0000 function -> CFE_SUCCESS handle 7\n"
        accepted = front + """\
app 1 verdict LIMITS 0
app 1 CFE_TBL_Load 7 address 00020304 -> CFE_SUCCESS
app 1 CFE_TBL_GetInfo CTRL.LIMITS -> CFE_SUCCESS size 4 loaded 1 dump-only 0 double 0 critical 0
app 1 verdict LIMITS -5
app 1 CFE_TBL_Load 7 address 01020304 -> 0xFFFFFFFB
file /part table CTRL.LIMITS at 2 hex 0909
app 1 verdict LIMITS -6
app 1 CFE_TBL_Load 7 file /part -> 0xFFFFFFFA
app 1 verdict LIMITS 0
app 1 CFE_TBL_Load 7 file /part -> CFE_SUCCESS
app 1 CFE_TBL_GetAddress 7 -> CFE_TBL_INFO_UPDATED bytes 00020909
app 1 CFE_TBL_ReleaseAddress 7 -> CFE_SUCCESS
ground LOAD /part
ground VALIDATE inactive CTRL.LIMITS
app 1 verdict LIMITS -5
app 1 CFE_TBL_Manage 7 -> CFE_SUCCESS
ground ACTIVATE CTRL.LIMITS
app 1 CFE_TBL_Update 7 -> CFE_TBL_INFO_NO_UPDATE_PENDING
ground VALIDATE inactive CTRL.LIMITS
app 1 verdict LIMITS 0
app 1 CFE_TBL_Validate 7 -> CFE_SUCCESS
ground ACTIVATE CTRL.LIMITS
app 1 CFE_TBL_Update 7 -> CFE_SUCCESS
"""
        self.assertEqual(self.compare(accepted, b"", "--expect", "known")[:2], (0, "no difference: 12 calls, but for known ones: 15 (2 times)\n"))
        other = accepted.replace("verdict LIMITS -5\napp 1 CFE_TBL_Manage", "verdict LIMITS 0\napp 1 CFE_TBL_Manage")
        self.assertEqual(self.compare(other, b"", "--expect", "known")[1].split(": ")[0], "LOG:20")

    def test_what_is_written_in_place(self):
        """It tells nobody but by CFE_TBL_Modified, and stands below a load that is open."""
        log = """\
app 1 start CTRL
app 2 start GNC
app 1 CFE_TBL_Register LIMITS 4 0x0000 function -> CFE_SUCCESS handle 7
app 1 CFE_TBL_Load 7 address 01020304 -> CFE_SUCCESS
app 2 CFE_TBL_Share CTRL.LIMITS -> CFE_SUCCESS handle 8
app 2 CFE_TBL_GetAddresses 8 -> CFE_TBL_INFO_UPDATED bytes 01020304
app 2 CFE_TBL_ReleaseAddresses 8 -> CFE_SUCCESS
file /new table CTRL.LIMITS at 0 hex 05060708
ground LOAD /new
ground VALIDATE inactive CTRL.LIMITS
app 1 CFE_TBL_Validate 7 -> CFE_SUCCESS
app 1 CFE_TBL_GetAddress 7 -> CFE_TBL_INFO_UPDATED bytes 01020304
app 1 wrote 7 01020305
app 2 CFE_TBL_GetAddress 8 -> CFE_SUCCESS bytes 01020305
app 1 wrote 7 01020306
app 1 CFE_TBL_Modified 7 -> CFE_SUCCESS bytes 01020306
app 2 CFE_TBL_ReleaseAddress 8 -> CFE_TBL_INFO_UPDATED
app 2 CFE_TBL_GetAddress 8 -> CFE_TBL_INFO_UPDATED bytes 01020306
app 1 CFE_TBL_GetAddress 7 -> CFE_SUCCESS bytes 01020306
ground ACTIVATE CTRL.LIMITS
app 1 CFE_TBL_Update 7 -> CFE_TBL_INFO_TABLE_LOCKED
app 2 CFE_TBL_ReleaseAddress 8 -> CFE_SUCCESS
app 1 CFE_TBL_ReleaseAddress 7 -> CFE_SUCCESS
app 1 CFE_TBL_Update 7 -> CFE_SUCCESS
app 2 CFE_TBL_GetAddress 8 -> CFE_TBL_INFO_UPDATED bytes 05060708
"""
        self.assertEqual(self.compare(log, b"", "--expect", "known")[:2], (0, "no difference: 17 calls, but for known ones: 8 (once)\n"))
        for was, is_now, place in (("handle 8\n", "handle 9\n", 6), ("SUCCESS bytes 01020305", "SUCCESS bytes 01020304", 14),
                                   ("8 -> CFE_SUCCESS bytes 01020305", "8 -> CFE_TBL_INFO_UPDATED bytes 01020305", 14)):
            self.assertEqual(self.compare(log.replace(was, is_now), b"", "--expect", "known")[1].split(": ")[0], f"LOG:{place}", was)
        # cFE tells the caller of CFE_TBL_Modified too.
        told = log.replace("7 -> CFE_SUCCESS bytes 01020306\nground", "7 -> CFE_TBL_INFO_UPDATED bytes 01020306\nground")
        self.assertIn("known ones: 8 (once)", self.compare(told, b"", "--expect", "known")[1])

    def test_a_log_that_is_not_whole(self):
        log = "log 2\n" + LOG + "log end\n"
        self.assertEqual(self.compare(log)[:2], (0, "no difference: 6 calls\n"))
        self.assertEqual(self.compare(log[:-9])[:2], (2, ""))
        self.assertIn("LOG:13: the log is cut off in this line, after 5 calls", self.compare(log[:-9])[2])
        self.assertIn("\nLOG:13: this line is the last one, and no `log end` follows it", self.compare(log[:-8])[1])
        self.assertEqual(self.compare(LOG[:-1])[0], 0)
        status, _, said = self.compare(log.replace("log 2", "log 3"))
        self.assertEqual((status, said.split(": ", 1)[1].splitlines()[0]), (2, "LOG:1:1: expected a log of version 2: this one is of another version"))

    def test_further_sessions(self):
        """A log goes on in further sessions, with loads, dumps, addresses of images before, and what handles were told."""
        lines = """\
app 1 start CTRL
app 2 start GNC
app 1 CFE_TBL_Register PLAIN 4 0x0000 function -> CFE_SUCCESS handle 1
app 1 CFE_TBL_Register DOUBLE 4 0x0001 none -> CFE_SUCCESS handle 2
app 1 CFE_TBL_Register DUMPED 4 0x0002 none -> CFE_SUCCESS handle 3
app 1 CFE_TBL_Register KEPT 4 0x0008 none -> CFE_SUCCESS handle 4
app 1 CFE_ES_RegisterCDS STATE 2 -> CFE_SUCCESS handle 9
app 1 CFE_ES_CopyToCDS 9 0A0B -> CFE_SUCCESS
app 1 CFE_TBL_Load 1 address 01020304 -> CFE_SUCCESS
app 1 CFE_TBL_Load 2 address 01020304 -> CFE_SUCCESS
app 2 CFE_TBL_Share CTRL.DOUBLE -> CFE_SUCCESS handle 5
app 2 CFE_TBL_GetAddress 5 -> CFE_TBL_INFO_UPDATED bytes 01020304
app 1 CFE_TBL_Load 2 address 05060708 -> CFE_SUCCESS
file /new table CTRL.PLAIN hex 05060708
ground LOAD /new
ground VALIDATE inactive CTRL.PLAIN
app 1 CFE_TBL_GetStatus 1 -> CFE_TBL_INFO_VALIDATION_PENDING
app 1 CFE_TBL_Manage 1 -> CFE_SUCCESS
ground ACTIVATE CTRL.PLAIN
app 1 CFE_TBL_GetStatus 1 -> CFE_TBL_INFO_UPDATE_PENDING
ground DUMP active CTRL.DUMPED /dump
app 1 CFE_TBL_GetStatus 3 -> CFE_TBL_INFO_DUMP_PENDING
app 1 CFE_TBL_Load 2 address 090A0B0C -> CFE_TBL_INFO_TABLE_LOCKED
ground DUMP active CTRL.PLAIN /copied
app 2 CFE_TBL_ReleaseAddress 5 -> CFE_TBL_INFO_UPDATED
app 1 CFE_TBL_Update 1 -> CFE_SUCCESS
app 1 CFE_TBL_GetAddress 4 -> CFE_TBL_ERR_NEVER_LOADED
app 1 CFE_TBL_Load 4 address 0D0E0F10 -> CFE_SUCCESS
app 1 CFE_TBL_GetAddress 4 -> CFE_TBL_INFO_UPDATED bytes 0D0E0F10
app 1 CFE_TBL_Unregister 2 -> CFE_SUCCESS
app 2 CFE_TBL_GetStatus 5 -> CFE_TBL_ERR_UNREGISTERED
app 1 CFE_ES_RestoreFromCDS 9 -> CFE_SUCCESS bytes 0A0B
app 1 CFE_TBL_GetAddress 1 -> CFE_TBL_INFO_UPDATED bytes 05060708
app 1 CFE_TBL_ReleaseAddress 1 -> CFE_SUCCESS
app 1 CFE_TBL_Load 1 file /copied -> CFE_SUCCESS
app 1 CFE_TBL_GetAddress 1 -> CFE_TBL_INFO_UPDATED bytes 01020304
""".splitlines()
        for most in (0, 9, 14, 31, 1_000):
            with unittest.mock.patch.object(records, "MOST_RECORDS", player.RESERVE + most), tempfile.TemporaryDirectory() as folder:
                comparison = compared.Comparison(lambda folder=folder: self.opened(folder), True)
                for line in lines:
                    comparison.take(line, ".")
                self.assertEqual((comparison.count, dict(comparison.passed), comparison.left), (28, {}, 0))
                self.assertEqual(comparison.player.sessions > 2, most < 15)

    def opened(self, folder):
        running = live.Running(folder)
        self.addCleanup(running.finish)
        return running

    def test_wrong_lines(self):
        for line, at in (("app 1 CFE_TBL_Changed 7 -> CFE_SUCCESS", 7), ("app 17 CFE_TBL_Update 7 -> CFE_SUCCESS", 5),
                         ("app 1 CFE_TBL_Update -> CFE_SUCCESS", 21), ("app 1 CFE_TBL_Update 7 8 -> CFE_SUCCESS", 24), ("ground NOPE", 8),
                         (" -> CFE_SUCCESS", 1), ("app 1 CFE_TBL_Share Gr\u00f6\u00dfe.T -> CFE_SUCCESS", 21), ("app 1 CFE_TBL_Register -> ->", 23)):
            status, written, said = self.compare(LOG + line + "\n")
            self.assertEqual((status, written, said.split(": ")[1]), (2, "", f"LOG:13:{at}"), line)

    def test_words(self):
        self.assertEqual(call("compare", "--help")[0], 0)
        self.assertEqual([call("compare", *it)[0] for it in ([], ["a"], ["--no", "b"], ["/dev/null", "nofile"])], [2] * 4)

    @unittest.skipUnless(shutil.which("cc"), "there is no C compiler")
    def test_the_recorder_over_a_mock(self):
        application = os.path.join(self.folder, "application")
        sources = [os.path.join(MOCK, "app.c"), os.path.join(MOCK, "mock.c"), os.path.join(RECORD, "record.c")]
        subprocess.run(["cc", "-Wall", "-Wextra", "-Werror", f"-I{MOCK}", f"-I{RECORD}", "-DRECORD_ALONE", "-pthread", "-o", application, *sources,
                        f"@{RECORD}/wraps"], check=True)
        for fault in (0, *FAULTS):
            subprocess.run([application], env=os.environ | {"MOCK_FAULT": str(fault), "CFETBL_LOG": os.path.join(self.folder, "LOG")}, check=True)
            status, written, _ = self.compare(None, BEFORE, "--expect", "known")
            if fault:
                self.assertEqual((status, written.split(": ")[0]), (1, f"LOG:{FAULTS[fault]}"), fault)
            else:
                self.assertEqual((status, written.splitlines()[-1]), (0, "no difference: 26 calls, but for known ones: 9 (once)"))

    def test_the_codes_of_the_recorder(self):
        with open(os.path.join(RECORD, "codes.h"), encoding="ascii") as codes:
            told = re.findall(r"CODE\((\w+)\)", codes.read())
        self.assertEqual(len(told), len(set(told)))
        # Those of a wrong argument have no meaning here.
        self.assertEqual(set(told) - {"CFE_TBL_ERR_ILLEGAL_SRC_TYPE", "CFE_TBL_ERR_FILENAME_TOO_LONG"}, differences.codes())


if __name__ == "__main__":
    unittest.main()
