"""The tables that tools/publish/reference makes: answers that examples have are in them, and links, layouts and bytes are as they should be."""
import glob
import os
import unittest

import reference_tables as tables
import spelled_bytes
from tblkit import names, packets, records, show, transcript

from . import recorded

COMMANDS = {it.name for it in names.named("command").values()} | {packets.HOUSEKEEPING}
CALLS = {it.name for it in names.requests().values() if not it.is_ground}


def answers():
    """The answers of all examples."""
    for path in sorted(glob.glob(os.path.join(recorded.TOP, "sessions", "*.session"))):
        with open(path, "rb") as session, open(path.removesuffix("session") + "transcript", "rb") as played:
            for part in show.answers(transcript.parts(played), records.Index(session)):
                if not isinstance(part, transcript.End):
                    yield part


def owners_of(request):
    """What the answers of a request are tables of."""
    yield request
    if request in CALLS:
        yield "any call"
    if request in CALLS and any(it.name == "handle" for it in names.fields(request)):
        yield "any call by a handle"
    if request in COMMANDS or request == "Command":
        yield "any command"


class Answers(unittest.TestCase):
    def test_each_answer_of_an_example_is_in_a_table(self):
        seen = {(it.request, it.status) for it in answers()}
        self.assertGreater(len(seen), 60)
        for request, status in sorted(seen):
            with self.subTest(request, status=status):
                known = {0} | {number for owner in owners_of(request) for statuses, *_ in tables.answers_of(owner)
                               for number in tables.numbers_in(statuses)}
                self.assertIn(status, known)

    def test_refusals_come_in_the_order_of_the_table(self):
        """The order in which a LOAD and a table file are tested."""
        order = [number for statuses, *_ in tables.answers_of("LOAD") for number in sorted(tables.numbers_in(statuses))]
        self.assertEqual(order, [46, 47, 48, 49, 50, 51, 52, 87, 88, 64, 44, 67, 55, 56, 54, 9, 57, 0])
        self.assertEqual([int(it) for it, *_ in tables.answers_of("a table file")], [47, 48, 49, 87, 88, 50, 51, 52])

    def test_where_a_status_is_an_answer(self):
        self.assertEqual(tables.answered_by(66), "[ACTIVATE](commands.md#activate)")
        self.assertEqual(tables.answered_by(32), "any call")
        self.assertEqual(tables.answered_by(88), "[LOAD](commands.md#load), [LoadFile](calls.md#loadfile)")


class Made(unittest.TestCase):
    def test_a_table_leaves_out_what_is_blank(self):
        self.assertEqual(tables.table(("a", "b", "c"), [(1, "", "x"), (2, "", "")]), "| a | c |\n|---|---|\n| 1 | x |\n| 2 |  |")

    def test_a_layout(self):
        self.assertIn("| 238 | 40 | table of the last load | of the last LOAD, LoadImage or LoadFile that succeeded | `LastTableLoaded` |",
                      tables.made("layout", ["housekeeping"]).splitlines())

    def test_bytes(self):
        self.assertEqual(spelled_bytes.of_command("ground NOOP"), "1804 C000 0001 00 22")
        self.assertEqual(spelled_bytes.spelled(bytes(4)), "00000000")
        self.assertEqual(spelled_bytes.spelled(b"A" + bytes(19)), "41 + 19 zeros")
        self.assertEqual(spelled_bytes.spelled(bytes(12)), "12 zeros")
        self.assertEqual(spelled_bytes.of_line("app", "1", "get", "0"), "    # app 1 get 0\n    1B 01 0002  0000")

    def test_the_bytes_of_an_example_are_its_bytes(self):
        """The bytes that a page has of a session and a transcript, read back, are those of the files."""
        for name in ("hello", "table", "uplink"):
            for kind, made in (("session", spelled_bytes.of_session(name)), ("transcript", spelled_bytes.of_transcript(name))):
                with open(os.path.join(recorded.TOP, "sessions", f"{name}.{kind}"), "rb") as file:
                    self.assertEqual(read_back(made), file.read())


def read_back(made):
    """The bytes that lines of hexadecimal have."""
    words = " ".join(it for it in made.splitlines() if not it.lstrip().startswith("#")).split()
    found = bytearray()
    for at, word in enumerate(words):
        if word == "zeros":
            found += bytes(int(words[at - 1]))
        elif word != "+" and (at + 1 == len(words) or words[at + 1] != "zeros"):
            found += bytes.fromhex(word)
    return bytes(found)


if __name__ == "__main__":
    unittest.main()
