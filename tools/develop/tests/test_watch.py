"""`cfetbl watch`: to which request each line of a report belongs, what is no report, and the report that a transcript gives."""
import io
import os
import tempfile
import unittest

from tblkit import text, watched

from .test_commands import call

TOOL = "watch"
OWN = ("app 16 start W", "app 16 register T size 4", "app 16 load 0 hex 01020304", "app 16 get 0", "app 16 release 0",
       "app 16 load 0 hex 05060704", "app 16 get 0", "app 16 release 0", "app 16 get 0")
OTHERS = ("app 1 start A", "app 1 get 0", "ground NOOP")
REPORT = "3 W.T 0FA1 first\n6 W.T 3EE3 changed 0FA1\n8 W.T 3EE3 same\nwatched 3 changed 1\n"
# The places of lines, and the records that each can belong to, by the session of application 16 alone and with three more records
# of others: the first and the last one.
ALONE = (((3, 6, 8), ((3, 3), (6, 6), (8, 8))), ((6, 8), ((6, 6), (8, 8))), ((), ()))
BESIDE = (((3, 6, 8), ((3, 3), (6, 6), (8, 8))), ((6, 9, 11), ((3, 3), (6, 6), (8, 8))), ((6,), ((3, 6),)), ((8,), ((6, 8),)),
          ((9,), ((6, 8),)), ((6, 9), ((3, 6), (6, 8))), ((11,), ((8, 8),)))
# Places at which no call got an address.
NONE = ((2,), (12,), (3, 4), (8, 9))
WRONG = ("", "watched 0 changed 0", "watched 1 changed 0\n", "3 W.T 0FA1 first\nwatched 2 changed 0\n", "3 W.T fa1 first\nwatched 1 changed 0\n",
         "6 W.T 0FA1 first\n3 W.T 0FA1 same\nwatched 2 changed 0\n", "3 W.T 0FA1 changed\nwatched 1 changed 1\n", REPORT + "\n")


def session(lines):
    return b"".join(map(text.record_of, lines))


def bounds(script, bits):
    """The numbers in the session of the first and the last of these calls."""
    found = [number for at, (number, _) in enumerate(script.records) if bits >> at & 1]
    return found[0], found[-1]


class Watch(unittest.TestCase):
    def test_lines_and_requests(self):
        for lines, cases in ((OWN, ALONE), (OWN + OTHERS, BESIDE)):
            script = watched.Script(io.BytesIO(session(lines)))
            for places, wanted in cases:
                with self.subTest(lines=len(lines), places=places):
                    self.assertEqual(tuple(bounds(script, it) for it in watched.candidates(script, list(places))), wanted)

    def test_places_of_another_session(self):
        script = watched.Script(io.BytesIO(session(OWN + OTHERS)))
        for places in NONE:
            with self.subTest(places=places):
                self.assertFalse(all(watched.candidates(script, list(places))))

    def test_what_is_no_report(self):
        for told in WRONG:
            with self.subTest(told=told), self.assertRaises(watched.Wrong):
                watched.parsed(told)

    def test_the_command(self):
        with tempfile.TemporaryDirectory() as folder:
            name = os.path.join(folder, "watch.txt")
            with open(name, "w", encoding="utf-8") as lines:
                lines.write("\n".join(OWN + OTHERS) + "\n")
            status, told, said = call(TOOL, name, "--report", "-", given=REPORT.encode())
            self.assertEqual((status, said), (0, ""))
            self.assertEqual(told.decode().splitlines(), [
                "3 W.T 0FA1 first", "      record 3: app 16 get 0", "6 W.T 3EE3 changed 0FA1", "      record 6: app 16 get 0",
                "8 W.T 3EE3 same", "      record 8: app 16 get 0", "watched 3 changed 1"])
            _, told, _ = call(TOOL, name, "--report", "-", given=b"6 W.T 3EE3 first\nwatched 1 changed 0\n")
            self.assertIn("      one of the calls from record 3 to record 6", told.decode())
            for wrong in (b"2 W.T 3EE3 first\nwatched 1 changed 0\n", b"hello\n", b""):
                self.assertEqual(call(TOOL, name, "--report", "-", given=wrong)[0], 1)
            self.assertEqual(call(TOOL, name, name)[0], 2)

    def test_a_report_of_a_transcript(self):
        looks = [watched.Look(3, "W.T", 0x0FA1), watched.Look(6, "W.T", 0x3EE3), watched.Look(8, "W.T", 0x3EE3)]
        self.assertEqual(watched.report(looks), REPORT)
        self.assertEqual(watched.report([]), "watched 0 changed 0\n")
