"""The stack that README.md says is enough: each word of the program, and resets, over each example and a session of large tables."""
import glob
import os
import subprocess
import tempfile
import unittest

from tblkit import described, limits, programs, text

from . import recorded

EXAMPLES = os.path.join(recorded.TOP, "sessions")
PROVED, RESETS = (os.path.join(recorded.TOP, "crates", it, "out", it) for it in ("tbl_main", "tbl_resets"))
# Where a program places its stack differs from run to run.
RUNS = 3


def large():
    """A session with tables, files and blocks of the largest size."""
    lines = ["app 1 start A", *(f"app 1 register T{it} size 16384 {'critical' if it < 6 else 'double'}" for it in range(40))]
    lines += [f"app 1 load {it} fill 5A 16384" for it in range(40)]
    lines += [f"file /f{it} table A.T{it} at 0 fill 07 16384" for it in range(4)]
    lines += [f"ground LOAD /f{it}" for it in range(4)] + ["ground DUMP active A.T5 /d", "ground DUMP_REGISTRY /r", "ground HOUSEKEEPING"]
    lines += ["app 1 cds-register B size 16384", "app 1 cds-copy 6 fill 03 16384", "app 1 cds-restore 6", "app 1 get 5", "app 1 read 5 at 0 length 16384"]
    return b"".join(map(text.record_of, lines))


class Stack(unittest.TestCase):
    def setUp(self):
        if os.path.realpath(programs.found()) != os.path.realpath(PROVED):
            self.skipTest("an unproved build takes more stack")

    def check(self, words, given=b"", kilobytes=None):
        """Whether a program ends by itself, with whatever status."""
        prefix = limits.with_stack(kilobytes or limits.stack())
        for _ in range(RUNS):
            with tempfile.TemporaryDirectory() as folder:
                done = subprocess.run([*prefix, *words], input=given, capture_output=True, cwd=folder)
            self.assertLess(done.returncode, 128, (words, done.stderr))
            self.assertGreaterEqual(done.returncode, 0, (words, done.stderr))

    def sessions(self):
        for name in sorted(glob.glob(os.path.join(EXAMPLES, "*.session"))):
            with open(name, "rb") as file:
                yield name, file.read()

    def test_the_program(self):
        for name, session in [*self.sessions(), ("large", large())]:
            for word in ("play", "crew", "watch"):
                with self.subTest(name, word=word):
                    self.check([programs.found(), word], session)

    def test_other_words(self):
        with open(os.path.join(EXAMPLES, "limits.tbl.txt"), "rb") as file:
            description = file.read()
        for words, given in ((["make"], description), (["describe", "hex12:a"], described.make(description)), (["store"], b""), (["drill", "7", "3000"], b"")):
            self.check([programs.found(), *words], given)

    @unittest.skipUnless(os.path.exists(RESETS), "the program of resets isn't proved here")
    def test_resets(self):
        for name, session in self.sessions():
            for words in (["--every", "4096"], ["--mirror"]) if os.path.basename(name) in ("critical.session", "stops.session") else (["--every", "4096"],):
                with self.subTest(name, words=words):
                    self.check([RESETS, *words], session)

    def test_what_is_not_enough(self):
        """A stack of 16 kB is none, so the limit is one."""
        with self.assertRaises(AssertionError):
            self.check([programs.found(), "play"], kilobytes=16)


if __name__ == "__main__":
    unittest.main()
