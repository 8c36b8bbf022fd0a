"""Session text: lines of each form, wrong lines, and the way there and back."""
import glob
import io
import os
import random
import re
import tempfile
import unittest

from cfetbl.commands import text as text_command
from tblkit import text

from . import recorded

HERE = os.path.dirname(os.path.realpath(__file__))


def table(name):
    """The rows of a table beside this file, as lists of columns."""
    with open(os.path.join(HERE, name), encoding="utf-8") as lines:
        return [line.rstrip("\n").split("\t") for line in lines if not line.startswith("#")]


def bytes_of(words):
    """Bytes in hexadecimal, with NN*COUNT for one that is repeated."""
    found = b""
    for word in words.split():
        digits, _, count = word.partition("*")
        found += bytes.fromhex(digits) * int(count or 1)
    return found


def lines_of(session):
    into = io.BytesIO()
    text.to_text(io.BytesIO(session), into)
    return into.getvalue()


def records_of(lines, folder="."):
    into = io.BytesIO()
    text.to_records(io.BytesIO(lines), into, folder)
    return into.getvalue()


# What the help of `cfetbl text` has in the forms of lines, each with examples.
SAMPLES = {
    "FILE": ("/a",), "TABLE": ("A.T",), "NAME": ("N",), "N": ("1",), "HANDLE": ("0",), "SLOT": ("0",), "COUNT": ("4",), "OFFSET": ("0",),
    "NUMBER": ("0", "0x10"), "SECONDS": ("0",), "SUBSECONDS": ("0",), "BYTES": ("0102", "empty"), "DESCRIPTION": ("text",),
    "DATA": ("hex 01", "fill AA 16", "from text", "empty"), "IMAGE": ("inactive", "active", "7"),
    "OPTION": ("double", "dump-only", "critical", "options 9"), "HEADER": ("content 0", "description N", "states 5")}
DESCRIPTION = b"table A.T\noffset 0\nu8 a 1\n"


def forms():
    """The forms of lines that the help has, each alternative for itself."""
    for line in re.findall(r"(?m)^    ((?:ground|file|time|reset|app|bytes) .*)$", text_command.__doc__):
        first, *others = re.split(r"    +", line)[0].split(" | ")
        yield first
        front = first.split()[:2 if first.startswith("app") else 1]
        yield from (" ".join([*front, it]) for it in others)


def lines_of_form(form):
    """Lines of a form: with and without what is in brackets, and each alternative."""
    part = re.search(r"\[(.*?)(\.\.)?\]|\b(\w+-?\w*)\|([\w|-]+)", form)
    if part:
        chosen = (part[1], "") if part[1] else (part[3], *part[4].split("|"))
        for it in chosen:
            yield from lines_of_form(re.sub(" +", " ", form[:part.start()] + it + form[part.end():]).strip())
        return
    word = next((it for it in form.split() if it in SAMPLES), None)
    if word is None:
        yield form
        return
    for sample in SAMPLES[word]:
        yield from lines_of_form(re.sub(rf"(?<![\w-]){word}(?![\w-])", sample, form, count=1))


class Help(unittest.TestCase):
    """The forms of lines that `cfetbl text --help` has are those that there are."""

    @classmethod
    def setUpClass(cls):
        cls._temporary = tempfile.TemporaryDirectory()
        cls.folder = cls._temporary.name
        with open(os.path.join(cls.folder, "text"), "wb") as file:
            file.write(DESCRIPTION)

    @classmethod
    def tearDownClass(cls):
        cls._temporary.cleanup()

    def test_each_form_is_one(self):
        found = [form for form in forms() if " OBJ" not in form]
        self.assertGreaterEqual(len(found), 40)
        for form in found:
            for line in lines_of_form(form):
                with self.subTest(line):
                    self.assertIsInstance(text.record_of(line, self.folder), bytes)

    def test_each_word_that_is_allowed_is_there(self):
        """Whatever words may come next in a line stand in the help."""
        allowed = set()
        for form in forms():
            for line in lines_of_form(form.partition(" OBJ")[0]):
                words = line.split()
                for at in range(len(words) + 1):
                    try:
                        text.record_of(" ".join([*words[:at], '"?"']), self.folder)
                    except text.TextError as error:
                        allowed.update(error.allowed)
        self.assertGreater(len(allowed), 60)
        self.assertEqual({it for it in allowed if not re.search(rf"(?<![\w-]){it}(?![\w-])", text_command.__doc__)}, set())


class Lines(unittest.TestCase):
    def test_each_line_stands_for_its_bytes(self):
        for line, record in table("lines.tsv"):
            with self.subTest(line):
                self.assertEqual(text.record_of(line).hex(), bytes_of(record).hex())

    def test_bytes_give_their_line(self):
        for line, record in table("lines.tsv"):
            with self.subTest(line):
                self.assertEqual(lines_of(bytes_of(record)).decode(), line + "\n")

    def test_lines_of_other_forms(self):
        for line, usual in table("written.tsv"):
            with self.subTest(line):
                self.assertEqual(lines_of(text.record_of(line)).decode(), usual + "\n")

    def test_empty_lines_and_comments_stand_for_nothing(self):
        self.assertEqual(records_of(b"\n   \n# app 1 start A\n\t# x\r\n"), b"")

    def test_a_byte_order_mark_is_skipped(self):
        self.assertEqual(records_of(b"\xef\xbb\xbfground NOOP\r\n"), text.record_of("ground NOOP"))

    def test_a_file_is_sought_from_the_folder(self):
        with tempfile.TemporaryDirectory() as folder:
            with open(os.path.join(folder, "a.tbl"), "wb") as file:
                file.write(b"\1\2\3")
            self.assertEqual(text.record_of("app 1 load 0 from a.tbl", folder), bytes.fromhex("140100050000010203"))


class WrongLines(unittest.TestCase):
    def test_a_file_that_is_too_long(self):
        with tempfile.TemporaryDirectory() as folder:
            with open(os.path.join(folder, "long"), "wb") as file:
                file.write(bytes(32769))
            with self.assertRaisesRegex(text.TextError, "at most 32768 bytes, found 32769"):
                text.record_of("file /a from long", folder)

    def test_what_is_no_regular_file(self):
        """Nothing waits for a pipe, and a device isn't read."""
        with tempfile.TemporaryDirectory() as folder:
            os.mkfifo(os.path.join(folder, "pipe"))
            for name in ("pipe", ".", "/dev/zero"):
                with self.assertRaisesRegex(text.TextError, "it is no regular file"):
                    text.record_of(f"app 1 load 0 from {name}", folder)

    def test_each_says_what_was_expected(self):
        for line, column, words, *allowed in table("wrong-lines.tsv"):
            with self.subTest(line):
                with self.assertRaises(text.TextError) as caught:
                    text.record_of(line)
                self.assertEqual(str(caught.exception), words)
                self.assertEqual(caught.exception.at + 1, int(column))
                self.assertEqual(" ".join(caught.exception.allowed), "".join(allowed))

    def reports(self, lines):
        with self.assertRaises(text.WrongLines) as caught:
            records_of(lines)
        return str(caught.exception).splitlines()

    def test_a_line_is_told_with_its_place(self):
        self.assertEqual(self.reports(b"# first\napp 1 start A\n\tapp 1 load 0 hax 01\napp 2 start\n"), [
            "<stdin>:3:15: expected the image as hex, fill, from or empty, found hax; did you mean hex?",
            "     app 1 load 0 hax 01",
            "                  ^",
            "    allowed here: hex fill from empty",
            "<stdin>:4:12: expected the name, found the end of the line",
            "    app 2 start",
            "               ^"])

    def test_a_long_line_is_cut_around_the_place(self):
        said, line, caret = self.reports(b"app 1 load 0 hex " + b"00" * 200 + b"x" + b"00" * 200)
        self.assertEqual(said, f"<stdin>:1:418: expected the image in hexadecimal, two digits a byte, or empty, found x{'0' * 39}")
        self.assertEqual((len(line), line[caret.index("^")]), (104, "x"))

    def test_characters_that_do_not_print(self):
        self.assertEqual(self.reports(b"app 1 \x1b[31m\n")[1:3], ["    app 1 ?[31m", "          ^"])

    def test_as_many_as_ten_are_told(self):
        said = self.reports(b"foo\n" * 12)
        self.assertEqual([it.split(":")[1] for it in said if it.startswith("<stdin>:")][:10], [str(it) for it in range(1, 11)])
        self.assertEqual(said[-1], "<stdin>: no line was looked at after the 10 wrong ones")

    def test_a_line_has_an_end(self):
        self.assertEqual(self.reports(b"\n" + b" " * text.LONGEST_LINE + b"\nfoo"),
                         ["<stdin>:2:1: expected a line of fewer than 1048576 bytes, found a longer one"])


class ThereAndBack(unittest.TestCase):
    def check(self, session):
        self.assertEqual(records_of(lines_of(session)), session)

    def test_each_front_of_a_session(self):
        whole = b"".join(bytes_of(record) for line, record in table("lines.tsv") if not line.startswith("bytes"))
        for end in range(0, len(whole), 7):
            self.check(whole[:end])

    def test_a_session_with_one_byte_changed(self):
        whole = b"".join(bytes_of(record) for line, record in table("lines.tsv") if not line.startswith("bytes"))
        for place in range(0, len(whole), 5):
            self.check(whole[:place] + bytes([whole[place] ^ 0x41]) + whole[place + 1:])

    def test_any_bytes(self):
        chosen = random.Random(21)
        for _ in range(300):
            self.check(chosen.randbytes(chosen.randrange(2000)))
            self.check(bytes(chosen.choice((0, 1, 2, 4, 0x10, 0x14, 0xC0)) for _ in range(chosen.randrange(300))))

    def test_lines_that_were_written_stay(self):
        for name in glob.glob(os.path.join(recorded.TOP, "sessions", "*.session")):
            with open(name, "rb") as file:
                lines = lines_of(file.read())
            self.assertEqual(lines_of(records_of(lines)), lines)

    def test_examples(self):
        names = glob.glob(os.path.join(recorded.TOP, "sessions", "*.session"))
        self.assertTrue(names)
        for name in names:
            with self.subTest(name), open(name, "rb") as session, open(name.replace(".session", ".txt"), "rb") as lines:
                self.assertEqual(records_of(lines.read(), os.path.dirname(name)), session.read())
