"""Whether a transcript is that of a session: each of its own is, also of threads, of lists of what is admitted and over a store that
isn't empty; and none of another session is, also where the two differ in one record."""
import glob
import io
import os
import random
import subprocess
import tempfile
import unittest
from unittest import mock

from tblkit import drill, matching, packets, programs, records, show, text, transcript

from . import recorded
from .amounts import amount
from .test_commands import call

EXAMPLES = sorted(glob.glob(os.path.join(recorded.TOP, "sessions", "*.session")))
OWN, ANOTHER = True, False
CHANGES = amount(200, 50)


def session_of(name):
    with open(name, "rb") as file:
        return file.read()


def played(session, *words, folder=None):
    """The transcript of a session in a folder, or in an empty one."""
    with tempfile.TemporaryDirectory() as empty:
        return subprocess.run([programs.found(), *(words or ("play",))], input=session, capture_output=True, cwd=folder or empty).stdout


def is_own(session, output):
    """Whether a transcript is taken for that of the session."""
    index = records.Index(io.BytesIO(session))
    answers = list(show.answers(transcript.parts(io.BytesIO(output)), index))
    following = matching.Match()
    try:
        for it in answers:
            if isinstance(it, show.Answer):
                following.follow(it)
        matching.look_at_rest(answers, index)
    except matching.Another:
        return ANOTHER
    return OWN


class Matching(unittest.TestCase):
    @classmethod
    def setUpClass(cls):
        cls.sessions = [session_of(it) for it in EXAMPLES] + [b"".join(drill.session(seed, 50)) for seed in range(6)]
        cls.outputs = [played(it) for it in cls.sessions]

    def test_own(self):
        for session, output in zip(self.sessions, self.outputs):
            self.assertTrue(is_own(session, output))
            for words in (["crew"], ["play", "admit", "66", "2"], ["crew", "admit", "1", "any"]):
                self.assertTrue(is_own(session, played(session, *words)))

    def test_own_over_a_store_that_has_blocks(self):
        with tempfile.TemporaryDirectory() as folder:
            for name in ("critical", "blocks", "critical", "blocks"):
                session = session_of(os.path.join(recorded.TOP, "sessions", f"{name}.session"))
                session = session.replace(text.record_of("reset power-on"), b"")
                self.assertTrue(is_own(session, played(session, folder=folder)))

    def test_pairs(self):
        for number, session in enumerate(self.sessions):
            for other, output in enumerate(self.outputs):
                self.assertEqual(is_own(session, output), number == other, (number, other))

    def test_a_record_that_is_another(self):
        """Where the program answers a session with another record as it does without the change, the transcript is its own too."""
        chance = random.Random(1)
        pieces = [[it.content for it in records.pieces(io.BytesIO(session))] for session in self.sessions]
        for _ in range(CHANGES):
            number = chance.randrange(len(pieces))
            at = chance.randrange(len(pieces[number]))
            others = chance.choice(([], [chance.choice(chance.choice(pieces))], [chance.choice(pieces[number]), pieces[number][at]]))
            session = b"".join([*pieces[number][:at], *others, *pieces[number][at + 1:]])
            self.assertEqual(is_own(session, self.outputs[number]), played(session) == self.outputs[number], (number, at, others))

    def test_ends(self):
        """End records that another session would have, and sessions that have more or less than was played."""
        session, output = self.sessions[0], self.outputs[0]
        end = output[-transcript.END_SIZE:]
        for wrong in (end[:4] + b"\5" + end[5:], end[:4] + b"\6" + end[5:], end[:4] + b"\x63" + end[5:], end[:8] + b"\0" + end[9:], end[:12] + b"\0"):
            self.assertFalse(is_own(session, output[:-transcript.END_SIZE] + wrong))
        self.assertTrue(is_own(session, output[:-transcript.END_SIZE] + end[:4] + b"\3" + end[5:]))
        self.assertFalse(is_own(session + session, output))
        self.assertFalse(is_own(b"", output))
        self.assertTrue(is_own(b"", played(b"")))
        cut = self.sessions[1] + b"\1"
        self.assertTrue(is_own(cut, played(cut)))
        self.assertFalse(is_own(self.sessions[1], played(cut)))

    def test_without_a_program(self):
        """Then another session is known by what its answers have to have."""
        with mock.patch.object(programs, "found", lambda: None):
            for number, session in enumerate(self.sessions):
                for other, output in enumerate(self.outputs):
                    self.assertEqual(is_own(session, output), number == other, (number, other))

    def test_commands_of_a_wrong_form(self):
        """The first fault of a packet, in the order of docs/reference/packets.md. The byte 7 of each that is long enough makes it whole."""
        for packet, fault in (("1804C00000010000", (0, 0)), ("1804", (80, 1)), ("1804C00000020000", (80, 2)), ("1805C00000010000", (81, 0x1805)),
                              ("1804C000000120 00", (82, 32)), ("1804C0000002000000", (83, 1)), ("1804C000002905 00" + 40 * "00", (84, 1)),
                              ("1804C000004102 00" + 64 * "00", (84, 2)), ("180CC0000001FF00", (0, 0))):
            content = bytearray.fromhex(packet)
            if len(content) > 7:
                content[7] = 0xFF ^ packets.exclusive_or(content)
            self.assertEqual(matching.command_fault(bytes(content)), fault, packet)
        self.assertEqual(matching.command_fault(bytes.fromhex("1804C00000010023")), (80, 3))

    def test_by_the_command_line(self):
        for number in (0, 3, 5):
            status, page, said = call("report", EXAMPLES[number], EXAMPLES[number - 1][:-len("session")] + "transcript")
            self.assertEqual((status, page, said), (1, b"", "cfetbl report: the transcript is of another session\n"))


if __name__ == "__main__":
    unittest.main()
