"""What docs/use says: that check-use refuses a page whose commands do otherwise, and that the messages of the troubleshooting page are there."""
import glob
import os
import re
import subprocess
import sys
import tempfile
import unittest

from . import recorded

CHECK = os.path.join(recorded.TOP, "tools", "develop", "gate", "check-use")
GOOD = """\
# A page

    $ printf 'a\\nb\\n'
    a
    ..

Put this into `kept.txt`:

    one

<!-- status 1 -->

    $ cat kept.txt; cd sessions; false
    one

<!-- any order -->

    $ printf '2 x\\n1 y\\n'; ls hello.txt
    2 y
    hello.txt
    1 x

<!-- goes on -->

    $ echo begun; exec sleep 60
    begun

<!-- not played: it needs more -->

    $ no-such-command

| what fails | how | status |
|---|---|---|
| a pipe | `true \\| false` | 1 or 2 |
"""
# A text of the page, another one in its place, and what is said then.
EDITS = (
    ("    a\n", "    b\n", ":3: `printf 'a\\nb\\n'` wrote\na\nb"),
    ("    ..\n", "", ":3: `printf"),
    ("    one\n\n<!--", "    two\n\n<!--", "wrote\ntwo"),
    ("<!-- status 1 -->\n\n", "", "cd sessions; false` ended with 1"),
    ("<!-- any order -->\n\n", "", "wrote\n2 x\n1 y\nhello.txt"),
    ("    1 x\n", "    1 z\n", "wrote\n2 x\n1 y\nhello.txt"),
    ("<!-- not played: it needs more -->\n\n", "", "`no-such-command` wrote"),
    ("<!-- not played: it needs more -->", "<!-- not played -->", "no comment for this check is `not played`"),
    ("<!-- not played: it needs more -->", "<!-- played by tools/develop/gate/no-such -->", "there is no tools/develop/gate/no-such"),
    ("    $ no-such-command", "    cfetbl no-such-word", ""),
    ("    $ echo begun", "    cfetbl explain 9\n    $ echo begun", "stands before the first command"),
    ("    begun\n", "    ended\n", "wrote\nbegun"),
    ("| 1 or 2 |", "| 2 |", "`true | false` ended with 1"),
)
SOURCES = ("cfetbl", "tools/*/*.py", "tools/*/*.sh", "tools/command/build-unproved", "tools/command/cfetbl/**/*.py", "tools/command/tblkit/**/*.py", "c/lib/*.c", "crates/tbl_adapters/src/*.rt",
           "crates/command_line/src/*.rt")


class Played(unittest.TestCase):
    def setUp(self):
        folder = tempfile.TemporaryDirectory()
        self.addCleanup(folder.cleanup)
        self.page = os.path.join(folder.name, "page.md")

    def outcome(self, text):
        with open(self.page, "w", encoding="utf-8") as file:
            file.write(text)
        done = subprocess.run([sys.executable, CHECK, self.page], stdin=subprocess.DEVNULL, capture_output=True, text=True, check=False,
                              env=os.environ | {"CHECK_USE_SECONDS": "5"})
        return done.returncode, done.stderr

    def test_a_good_page(self):
        status, said = self.outcome(GOOD)
        self.assertEqual(status, 0, said)
        self.assertIn("page.md: 5 commands were played", said)

    def test_what_is_refused(self):
        for wanted, found, words in EDITS:
            with self.subTest(found=found):
                self.assertIn(wanted, GOOD)
                status, said = self.outcome(GOOD.replace(wanted, found, 1))
                self.assertEqual(status, 1 if words else 0, said)
                self.assertIn(words, said)

    def test_a_command_without_its_mark(self):
        status, said = self.outcome("# A page\n\n    cfetbl explain 9\n")
        self.assertEqual((status, "is a command without `$ `" in said), (1, True))


class Messages(unittest.TestCase):
    def test_each_is_said_somewhere(self):
        """The messages of the tables are pieces of what the tools, the library for C and the programs say."""
        said = ""
        for name in sorted({it for pattern in SOURCES for it in glob.glob(os.path.join(recorded.TOP, pattern), recursive=True)}):
            with open(name, encoding="utf-8") as file:
                said += re.sub(r'"\s*(?:f?")|\n', "", file.read().replace("\\`", "`"))
        with open(os.path.join(recorded.TOP, "docs", "use", "troubleshooting.md"), encoding="utf-8") as page:
            tables = page.read().split("| message | what to do |\n")[1:]
        cells = [row.split("|")[1] for table in tables for row in table.split("\n\n")[0].splitlines()[1:]]
        pieces = [it for cell in cells for it in re.findall(r"`([^`]+)`", cell)]
        self.assertGreater(len(pieces), 30)
        self.assertEqual([it for it in pieces if it not in said], [])


if __name__ == "__main__":
    unittest.main()
