"""How the tools meet interrupts, limits, terminals and characters that don't print."""
import os
import pty
import resource
import select
import signal
import subprocess
import sys
import tempfile
import time
import unittest

from tblkit import streams

from . import recorded
from .test_commands import COMMAND, call
from .test_serve import WAIT

HELLO = os.path.join(recorded.TOP, "sessions", "hello.txt")
DESCRIPTION = os.path.join(recorded.TOP, "sessions", "gain.tbl.txt")


class Streams(unittest.TestCase):
    def test_interrupts(self):
        """Each tool that waits for input ends with 130, and with no more than a line."""
        for word, *words in (["text"], ["show"], ["make", "-"], ["map", "-"], ["report", "-"],
                             ["watch", "--report", "-", HELLO], ["compare", HELLO, "-"],
                             ["describe", "u8:a", "-"]):
            with self.subTest(word), tempfile.TemporaryDirectory() as folder:
                run = subprocess.Popen([*COMMAND, word, *words], stdin=subprocess.PIPE, stdout=subprocess.PIPE,
                                       stderr=subprocess.PIPE, cwd=folder)
                self.wait_for_read(run.pid)
                run.send_signal(signal.SIGINT)
                written, said = run.communicate(timeout=WAIT)
                self.assertEqual((run.returncode, written, said.decode()), (130, b"", f"cfetbl {word}: interrupted\n"))

    def test_interrupts_at_a_terminal(self):
        """An interrupt is for all programs of a word: the front command ends with 130, and says it once at most."""
        for words in (["play", "--text"], ["play", "--show", "/dev/stdin"], ["crew", "--text"], ["watch"], ["resets"], ["make", "-"], ["map", "-"]):
            with self.subTest(words), tempfile.TemporaryDirectory() as folder:
                ours, theirs = pty.openpty()
                run = subprocess.Popen([os.path.join(recorded.TOP, "cfetbl"), *words], stdin=theirs, stdout=subprocess.DEVNULL, stderr=subprocess.PIPE,
                                       cwd=folder, start_new_session=True)
                time.sleep(1)
                os.killpg(run.pid, signal.SIGINT)
                _, said = run.communicate(timeout=WAIT)
                self.assertIn(run.returncode, (130, -signal.SIGINT))
                self.assertNotIn(b"Traceback", said)
                self.assertNotIn(b"no status of its own", said)
                os.close(ours)
                os.close(theirs)

    def wait_for_read(self, process):
        """Waits until a process waits in a read of standard input, which is system call 0 on x86-64 and 63 on arm64."""
        for _ in range(100 * WAIT):
            with open(f"/proc/{process}/syscall", encoding="ascii") as file:
                if file.read().split()[:2] in (["0", "0x0"], ["63", "0x0"]):
                    return
            time.sleep(0.01)
        self.fail("it doesn't read")

    def test_a_file_that_may_not_grow(self):
        """Under a limit a write fails with its status, in the tool and in the program that it starts, and no signal ends either."""
        limit = {"preexec_fn": lambda: resource.setrlimit(resource.RLIMIT_FSIZE, (4096, 4096))}
        with tempfile.TemporaryDirectory() as folder:
            status, _, said = call("xtce", "-o", "page", cwd=folder, **limit)
            self.assertEqual((status, said), (4, "cfetbl xtce: writing failed: page: File too large\n"))
            for word, *words in (["serve", "--command-port", "0"], ["report", HELLO]):
                status, _, said = call(word, *words, cwd=folder, **limit)
                self.assertEqual(status, 7, said)

    def test_no_control_characters(self):
        """Escapes of the input are shown as text, by whatever it is named or said."""
        evil = "\x1b[31m\x07\x9b\u202e"
        self.assertEqual(streams.visible(f"a\tb\n{evil}\udcff é"), "a\tb\n\\x1B[31m\\x07\\x9B\\u202E\\xFF é")
        for word, *words in (["text", evil], ["show", "--no" + evil], ["explain", evil], ["describe", evil, "a"],
                             ["serve", "--to", evil], ["map", evil], ["report", evil], ["store", evil]):
            status, written, said = call(word, *words)
            self.assertEqual((status, [it for it in written.decode() + said if it in evil and it not in "[31m"]), (2, []), (word, said))

    def test_no_bytes_for_a_terminal(self):
        ours, theirs = pty.openpty()
        for word, *words in (["text", HELLO], ["make", DESCRIPTION]):
            done = subprocess.run([*COMMAND, word, *words], stdout=theirs, stderr=subprocess.PIPE)
            self.assertEqual(done.returncode, 2)
            self.assertIn(b"isn't written to a terminal", done.stderr)
        self.assertEqual(select.select([ours], [], [], 0)[0], [])
        os.close(ours)
        os.close(theirs)


if __name__ == "__main__":
    unittest.main()
