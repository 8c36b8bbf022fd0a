"""The rows of test_runs and the texts that they are made of: answers in words and back, and stdin as it stands."""
import glob
import os
import shutil
import subprocess
import sys
import tempfile
import unittest

import runs
from tblkit import text, transcript

from . import recorded

EXAMPLES = os.path.join(recorded.TOP, "sessions")
FOLDER = os.path.join("crates", "test_runs")


def content_of(name):
    with open(name, "rb") as file:
        return file.read()


class Answers(unittest.TestCase):
    def test_there_and_back(self):
        """The transcript of each example but for its end record, of the words of its answers."""
        for name in sorted(glob.glob(os.path.join(EXAMPLES, "*.session"))):
            with self.subTest(name):
                output = content_of(name.removesuffix("session") + "transcript")
                played = runs.pieces_of(content_of(name))
                words, length = runs.answers_of(played, output)
                self.assertEqual(length, len(output) - transcript.END_SIZE)
                self.assertEqual(b"".join(runs.entries_of(played, words)) + runs.end_of(output[length + 4], played), output)

    def test_words(self):
        """What answers look like, and that no bytes of theirs are written as bytes where they have words."""
        session = b"".join(map(text.record_of, ("app 1 start A", "app 1 register T size 4", "app 1 load 0 hex 01020304", "ground LOAD /a", "app 1 get 0",
                                                "app 1 read 0 at 0 length 4", "time 5 32768", "ground HOUSEKEEPING", "app 2 get-info A.T")))
        words = ["0", "0", "0, event number 5 row 0 detail 1", "46, event number 2 status 46", "1", "0, bytes 01020304", "0",
                 '0, housekeeping commands refused 1 tables registered 1 free shared buffers 4 table of the last update "A.T" table of the last load "A.T"',
                 '32, registry size 4 state 1 table "A\\x2E\\"T" owner "A"']
        entries = runs.entries_of(runs.pieces_of(session), words)
        self.assertEqual(entries[3].hex().upper(), "00000003000000002E0000000000000000000000180808C00100110000000000000002" + "0000002EFFFF00000000")
        self.assertEqual(entries[7][17 + 4 + 6:][:6].hex(), "000000058000")
        self.assertIn(b'A."T\0', entries[8])
        again, _ = runs.answers_of(runs.pieces_of(session), b"".join(entries))
        self.assertEqual(again[:8], words[:8])
        self.assertEqual(again[8], words[8].replace("\\x2E", "."))

    def test_what_has_no_words(self):
        with self.assertRaisesRegex(ValueError, "event has no field kind 4"):
            runs.entries_of(runs.pieces_of(text.record_of("ground NOOP")), ["0, event kind 4"])


class Rows(unittest.TestCase):
    def outcome(self, *words, edit=lambda content: content, name="recorded-runs.txt"):
        """What run-rows does in a copy in which a text is another one: its status, and whether stdin is as it was."""
        with tempfile.TemporaryDirectory() as copy:
            shutil.copytree(os.path.join(recorded.TOP, "tools"), os.path.join(copy, "tools"))
            shutil.copytree(os.path.join(recorded.TOP, FOLDER), os.path.join(copy, FOLDER), ignore=shutil.ignore_patterns("src", "proofs", "out"))
            path = os.path.join(copy, FOLDER, name)
            before = content_of(path).decode()
            with open(path, "w", encoding="utf-8") as file:
                file.write(edit(before))
            done = subprocess.run([sys.executable, os.path.join(copy, "tools", "develop", "run-rows"), *words], capture_output=True, check=False)
            before, after = (content_of(os.path.join(it, FOLDER, "stdin")) for it in (recorded.TOP, copy))
            return done.returncode, after == before

    def test_as_things_stand(self):
        self.assertEqual(self.outcome("--check"), (0, True))
        self.assertEqual(self.outcome(), (0, True))

    def test_another_text(self):
        for name, wanted, put in (("recorded-runs.txt", "app 1 cds-copy 0 hex 01020304", "app 1 cds-copy 0 hex 01020305"),
                                  ("recorded-runs.txt", "| 9/1/stop |", "| 9/2/stop |"), ("recorded-crews.txt", "        0 1\n", "        0 2\n"),
                                  ("worked-runs.txt", "play = 706C6179", "play = 706C6178")):
            with self.subTest(wanted):
                self.assertEqual(self.outcome("--check", edit=lambda content, it=(wanted, put): content.replace(*it, 1), name=name), (1, True))
                self.assertEqual(self.outcome(edit=lambda content, it=(wanted, put): content.replace(*it, 1), name=name), (0, False))


if __name__ == "__main__":
    unittest.main()
