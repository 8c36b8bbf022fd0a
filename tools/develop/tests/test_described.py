"""Descriptions of table files: the recorded answers, where they lie beside the repository, and what people are told."""
import os
import tempfile
import unittest
from unittest import mock

from tblkit import described, proved

from . import recorded
from .test_commands import call

WORKED = b"table A.T\noffset 0\nu16 limit 300\ni16 gain -5\n"
SHAPE = "u16:limit,i16:gain"
EXAMPLE = os.path.join(recorded.TOP, "sessions", "limits.tbl.txt")


class Descriptions(unittest.TestCase):
    def test_both_ways(self):
        made = described.make(WORKED)
        self.assertEqual(made[116:].hex(), "012cfffb")
        self.assertEqual(described.describe(described.read_shape(SHAPE), made), WORKED)

    def test_what_a_wrong_line_says(self):
        status, written, said = call("make", "-", given=b"table A.T\noffset 0\nu8 x 256\n")
        self.assertEqual((status, written), (1, b""))
        self.assertEqual(said.splitlines()[-3:], ["-:3:6: expected a number from 0 to 255, in decimal digits without leading zeros",
                                             "  u8 x 256", "       ^"])

    def test_what_the_program_makes(self):
        """The program's answers, and those of an implementation that shares nothing with it."""
        self.assertEqual(proved.make(WORKED), described.make(WORKED))
        self.assertEqual(proved.describe(SHAPE, proved.make(WORKED)), WORKED)
        for text, line in ((b"table A.T\noffset 0\n", 3), (b"table A.T\noffset 0\nu8 x 1", 3), (b"", 1), (b"table A.T\n\nu8 x 1\n", 2)):
            with self.assertRaises(described.WrongLine) as wrong:
                proved.make(text)
            self.assertEqual(wrong.exception.number, line)
        with self.assertRaises(proved.NoAnswer) as none:
            proved.make(bytes(proved.MOST_INPUT + 1))
        self.assertEqual((none.exception.status, str(none.exception)), (1, "it has more than 1,048,576 bytes"))

    def test_the_program_decides(self):
        """What a program writes goes out, whatever it is; and of a line that it alone takes for a bad one its number is told."""
        with tempfile.TemporaryDirectory() as folder:
            def answers(written, status):
                with open(os.path.join(folder, "program"), "w", encoding="ascii") as script:
                    script.write(f"#!/bin/sh\ncat > /dev/null\nprintf '{written}'\nexit {status}\n")
                os.chmod(script.name, 0o755)
                return mock.patch.object(proved.programs, "found", lambda: script.name)

            with answers("another file", 0):
                self.assertEqual(proved.make(WORKED), b"another file")
                self.assertEqual(proved.store(b""), b"another file")
            with answers("line 2\\n", 9), self.assertRaises(described.WrongLine) as wrong:
                proved.make(WORKED)
            self.assertEqual(wrong.exception.said_of("a"), "a:2:1: expected a line of a description\n  offset 0\n  ^")
            for status, reason in ((10, "it is no table file"), (11, "the shape has another length")):
                with answers("", status), self.assertRaisesRegex(described.NotDescribed, reason):
                    proved.describe(SHAPE, described.make(WORKED))
            with answers("", 2), self.assertRaisesRegex(described.WrongShape, "it is none"):
                proved.describe(SHAPE, b"")
            with answers("", 3), self.assertRaises(proved.NoAnswer) as none:
                proved.make(WORKED)
            self.assertEqual(none.exception.status, 3)

    def test_a_missing_line(self):
        with self.assertRaises(described.WrongLine) as wrong:
            described.make(b"table A.T\noffset 0\n")
        self.assertEqual(wrong.exception.number, 3)

    def test_a_shape_of_another_length(self):
        with self.assertRaises(described.NotDescribed) as why:
            described.describe(described.read_shape("u16:limit"), described.make(WORKED))
        self.assertTrue(why.exception.is_length)

    def test_words(self):
        self.assertEqual(call("describe", "hex0:a", EXAMPLE)[0], 2)
        self.assertEqual(call("make")[0], 2)
        self.assertEqual(call("file", EXAMPLE)[0], 1)

    def test_what_is_read_is_not_written_over(self):
        with tempfile.TemporaryDirectory() as folder:
            kept = {"text": WORKED, "file": described.make(WORKED)}
            for name, content in kept.items():
                with open(os.path.join(folder, name), "wb") as file:
                    file.write(content)
            os.link(os.path.join(folder, "text"), os.path.join(folder, "other"))
            for words, name in ((["make", "text", "-o", "text"], "text"), (["make", "text", "-o", "other"], "text"),
                                (["describe", SHAPE, "file", "-o", "file"], "file")):
                self.assertEqual(call(*words, cwd=folder),
                                 (2, b"", f"cfetbl {words[0]}: -o {words[-1]} would write over {name}, which is read\n"))
                with open(os.path.join(folder, name), "rb") as file:
                    self.assertEqual(file.read(), kept[name])
            self.assertEqual(call("make", "text", "-o", "made", cwd=folder)[:2], (0, b""))
            self.assertEqual(call("describe", SHAPE, "made", "-o", "-", cwd=folder)[:2], (0, WORKED))

    def test_a_session_makes_its_file(self):
        status, session, _ = call("text", given=f"file /l made {EXAMPLE}\n".encode())
        with open(EXAMPLE, "rb") as text:
            self.assertEqual((status, session[68:]), (0, described.make(text.read())))

    def test_a_session_says_which_line_is_wrong(self):
        status, written, said = call("text", given=f"file /l made {os.path.join(recorded.TOP, 'README.md')}\n".encode())
        self.assertEqual((status, written), (1, b""))
        self.assertIn("README.md:1:1: expected `table NAME`", said)


class Images(unittest.TestCase):
    def test_by_field(self):
        forms = described.read_shape(SHAPE)
        found = [f"{form.name} {form.text_of(raw)}" for form, raw in described.values(forms, bytes.fromhex("012CFFFB"))]
        self.assertEqual(found, ["limit 300", "gain -5"])

    def test_the_example(self):
        name = os.path.join(recorded.TOP, "sessions", "limits")
        status, written, _ = call("show", "--shape", f"CS_APP.Limits={SHAPE}", f"{name}.txt", f"{name}.transcript")
        self.assertEqual(status, 0)
        self.assertIn(b"      CS_APP.Limits: limit 300, gain 12\n", written)
        self.assertEqual(call("show", "--shape", "CS_APP.Limits", f"{name}.txt", f"{name}.transcript")[0], 2)


if __name__ == "__main__":
    unittest.main()
