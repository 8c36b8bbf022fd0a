"""`cfetbl show` on a terminal: columns that fit its width, and colors."""
import fcntl
import os
import pty
import re
import struct
import subprocess
import tempfile
import termios
import unittest

from . import recorded
from .test_commands import COMMAND, call

EXAMPLE = os.path.join(recorded.TOP, "sessions", "refused-loads")
SHOWN = (EXAMPLE + ".session", EXAMPLE + ".transcript")
STYLE = re.compile(r"\x1b\[[0-9;]*m")


def seen(columns, *words, **variables):
    """The rows that a terminal of so many columns is given."""
    ours, theirs = pty.openpty()
    fcntl.ioctl(theirs, termios.TIOCSWINSZ, struct.pack("HHHH", 24, columns, 0, 0))
    left_out = ("NO_COLOR", "COLUMNS", "LINES")
    environment = {key: value for key, value in os.environ.items() if key not in left_out} | {"TERM": "xterm"} | variables
    with subprocess.Popen([*COMMAND, "show", *words], stdout=theirs, stderr=theirs, env=environment):
        os.close(theirs)
        found = b""
        try:
            while content := os.read(ours, 4096):
                found += content
        except OSError:
            # (the other end was closed)
            pass
    os.close(ours)
    return found.decode().splitlines()


def words_of(rows):
    return re.sub(r"\s+", " ", " ".join(rows).replace("->", " ")).strip()


class Terminal(unittest.TestCase):
    def setUp(self):
        self.plain = call("show", *SHOWN)[1].decode().splitlines()

    def test_rows_fit(self):
        """No row is wider than the terminal, and none of the words is lost."""
        wanted = re.sub(r"\s", "", words_of(self.plain))
        for columns in (40, 60, 80, 132, 200):
            with self.subTest(columns):
                rows = seen(columns, *SHOWN, NO_COLOR="1")
                self.assertEqual([it for it in rows if len(it) > columns or "\x1b" in it], [])
                self.assertEqual(re.sub(r"\s", "", words_of(rows)), wanted)

    def test_columns(self):
        """The answers begin below each other, at the column after half of the width."""
        found = [re.match(r" {3,4}\d+  \S.*? {2,}(?=\d+ [A-Z]{3})", row) for row in seen(100, *SHOWN, NO_COLOR="1")]
        self.assertEqual({len(it[0]) for it in found if it}, {5 + 2 + (100 - 7) // 2 + 2})

    def test_colors(self):
        """A refusal is red, and an event is blue or red; what is accepted isn't colored."""
        rows = seen(132, *SHOWN)
        for row in rows[:-1]:
            plain = STYLE.sub("", row)
            status = re.search(r"(?<=\S  )\d+ (?=[A-Z]+)", plain)
            if plain.lstrip().startswith("event 2 "):
                self.assertIn("\x1b[31m", row)
            elif plain.lstrip().startswith("event "):
                self.assertIn("\x1b[36m", row)
            elif status:
                self.assertEqual("\x1b[31m" in row, int(status[0]) >= 32 or int(status[0]) == 9, plain)

    def test_when(self):
        self.assertNotIn("\x1b", "".join(seen(80, *SHOWN, TERM="dumb")))
        self.assertNotIn("\x1b", "".join(seen(80, "--color", "never", *SHOWN)))
        self.assertIn("\x1b", "".join(seen(80, "--color=always", *SHOWN, NO_COLOR="1")))
        colored = call("show", "--color", "always", *SHOWN)[1].decode()
        self.assertEqual(STYLE.sub("", colored).splitlines(), self.plain)
        self.assertIn("\x1b[31m", colored)
        self.assertEqual(call("show", "--color", "perhaps", *SHOWN)[0], 2)

    def test_what_a_session_has_is_no_sequence(self):
        """A control character of a session stays visible beside the colors."""
        session = b'file "/a\\x1B[31m" hex 00\n'
        records = call("text", given=session)[1]
        transcript = bytes(21) + b"\xff" * 4 + bytes(1) + (1).to_bytes(4, "big") + len(records).to_bytes(4, "big")
        with tempfile.NamedTemporaryFile() as file:
            file.write(records)
            file.flush()
            shown = call("show", "--color", "always", file.name, "-", given=transcript)[1].decode()
        self.assertIn("\\x1B[31m", shown)


if __name__ == "__main__":
    unittest.main()
