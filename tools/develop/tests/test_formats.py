"""check-formats: it passes as things are, and says where a page or the table of names is another."""
import os
import re
import shutil
import subprocess
import sys
import tempfile
import unittest

from tblkit import names

from . import recorded

# Where a text is changed, the text, the other one, and what is said then.
EDITS = (("docs", "ERR_LOAD_IN_PROGRESS", "ERR_LOAD_PROGRESS", "names.tsv has ERR_LOAD_IN_PROGRESS"),
         ("docs", "`CFE_TBL_ERR_DUMP_ONLY`", "`CFE_TBL_ERR_DUMPONLY`", "its block `statuses` isn't what"),
         ("docs", "| [RESET_COUNTERS](", "| [RESET_COUNTER](", "its block `commands` isn't what"),
         ("docs", "| 238 | 40 |", "| 238 | 41 |", "its block `layout housekeeping` isn't what"),
         ("docs", "| 110 | 64 | last file loaded", "| 110 | 64 | last file read", "its block `layout housekeeping` isn't what"),
         ("docs", "handle 2, offset 4, length 4", "handle 2, offset 4, bytes 4", "its block `kinds` isn't what"),
         ("docs", "- when: an ACTIVATE\n", "- when: a LOAD\n", "its block `explained status` isn't what"),
         ("docs", "| 17 | 40 | `LastValTableName`", "| 18 | 40 | `LastValTableName`", "its block `cfe-layout housekeeping` isn't what"),
         ("docs", "| 52 | 1 | turn byte of the first place", "| 52 | 2 | turn byte of the first place", "its block `layout store entry` isn't what"),
         ("docs", "| 4 | 2 | check word |", "| 4 | 4 | check word |", "its block `layout block head` isn't what"),
         ("docs", "| 5 | 4 | entries |", "| 6 | 4 | entries |", "its block `layout end record` isn't what"),
         ("docs", "| 43 | ACTIVATE needs", "| 44 | ACTIVATE needs", "its block `differences 41 52` isn't what"),
         ("docs", "1804 C000 0001 00 22", "1804 C000 0001 00 23", "its block `command-bytes` isn't what"),
         ("docs", "<!-- made: layout notice -->", "", "docs/reference/ has no block `layout notice`"),
         ("docs", "<!-- made: layout notice -->", "", "docs/reference/packets.md: a block has no beginning or no end"),
         ("docs", "<!-- made: differences 8 26 -->", "<!-- made: differences 8 25 -->", "docs/reference/ has no difference 26"),
         ("tools", "command\t9\tABORT_LOAD\n", "", "names.tsv has an answer of ABORT_LOAD, which is no request"),
         ("tools", "event\t5\timage went active", "event\t4\timage went active", "names.tsv explains the event 5, which is none"),
         ("tools", "explain\tevent\t5\t", "explain\tevent\t9\t", "names.tsv doesn't explain the event 5"),
         ("tools", "\tERR_IMAGE_SIZE\n", "\tERR_IMAGE_SIZE\nstatus\t89\tERR_ANY\n", "names.tsv doesn't explain the status 89"),
         ("tools", "answer\tLOAD\t46\t", "answer\tLOAD\t99\t", "names.tsv has an answer 99 of LOAD, which is no status"),
         ("tools", "difference\t8\t", "difference\t83\t", "differences that don't have the numbers 1, 2, .."),
         ("tools", "differs\t8\t", "differs\t83\t", "names.tsv has no difference 83, which calls meet"))


def copied_to(folder):
    """Copies what the check reads."""
    for part in ("c", "docs", "sessions", "tools"):
        shutil.copytree(os.path.join(recorded.TOP, part), os.path.join(folder, part), ignore=shutil.ignore_patterns("__pycache__"))


def files_below(folder):
    """The pages and tables below a folder."""
    return [os.path.join(at, name) for at, _, names in os.walk(folder) for name in names if name.endswith((".md", "names.tsv"))]


class Formats(unittest.TestCase):
    """The check over one copy of what it reads, in which a text is another one for a while."""

    @classmethod
    def setUpClass(cls):
        cls.folder = tempfile.TemporaryDirectory()
        cls.addClassCleanup(cls.folder.cleanup)
        copied_to(cls.folder.name)

    def outcome(self, folder, wanted, found):
        """What check-formats says of a copy in which a text is another one: its status and its words."""
        changed = {}
        for path in files_below(os.path.join(self.folder.name, folder)):
            with open(path, encoding="utf-8") as file:
                text = file.read()
            if wanted in text:
                changed[path] = text
        self.assertTrue(changed, wanted)
        self.write({path: text.replace(wanted, found) for path, text in changed.items()})
        done = subprocess.run([sys.executable, os.path.join(self.folder.name, "tools", "develop", "gate", "check-formats")], capture_output=True, check=False)
        self.write(changed)
        return done.returncode, done.stderr.decode()

    @staticmethod
    def write(texts):
        for path, text in texts.items():
            with open(path, "w", encoding="utf-8") as file:
                file.write(text)

    def test_as_they_are(self):
        self.assertEqual(self.outcome("docs", "SUCCESS", "SUCCESS"), (0, ""))

    def test_differences(self):
        for folder, wanted, found, said in EDITS:
            with self.subTest(wanted):
                status, words = self.outcome(folder, wanted, found)
                self.assertEqual(status, 1, words)
                self.assertIn(said, words)

    def test_each_word_of_cfe_is_in_the_index_once(self):
        with open(os.path.join(recorded.TOP, "docs", "reference", "cfe-names.md"), encoding="utf-8") as file:
            rows = re.findall(r"^\| `(CFE_\w+)` \|", file.read(), re.MULTILINE)
        self.assertEqual(sorted(rows), sorted(it.name for it in names.cfe_words()))

    def test_what_is_written_is_what_is_checked(self):
        """A page that is changed is made again, and then nothing is said."""
        with tempfile.TemporaryDirectory() as copy:
            copied_to(copy)
            path = os.path.join(copy, "docs", "reference", "packets.md")
            with open(path, encoding="utf-8") as file:
                text = file.read()
            with open(path, "w", encoding="utf-8") as file:
                file.write(text.replace("| 238 | 40 |", "| 238 | 41 |"))
            tool = os.path.join(copy, "tools", "publish", "reference")
            self.assertEqual([subprocess.run([sys.executable, tool, *words], stderr=subprocess.DEVNULL, check=False).returncode
                              for words in (["--check"], [], ["--check"], ["--any"])], [1, 0, 0, 2])
            with open(path, encoding="utf-8") as file:
                self.assertEqual(file.read(), text)


if __name__ == "__main__":
    unittest.main()
