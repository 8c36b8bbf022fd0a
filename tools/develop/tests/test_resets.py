"""`cfetbl resets`: the table of a session as it is written and as a page, and how far it is."""
import fcntl
import os
import re
import tempfile
import unittest

from tblkit import resets

from . import recorded
from .test_commands import COMMAND, TOOLS, call, in_terminal

ELEMENT = re.compile(r'data-write="(\d+)" data-table="(\S+)" data-from="(\d+)" data-to="(\d+)" data-back="([^"]*)"')


def shown():
    """The lines of the session of docs/use/store-and-resets.md, whole."""
    with open(os.path.join(recorded.TOP, "tools", "develop", "tests", "shown", "resets"), encoding="utf-8") as file:
        return file.read().splitlines()


class Resets(unittest.TestCase):
    def test_what_is_read(self):
        before, writes, after = resets.read(shown())
        self.assertEqual([len(before), len(writes), after[1]], [
            7, 9, "9 writes and 8307 resets were tried: after each number of bytes of each write, 0 and all of them too."])
        self.assertEqual([(it.size, it.request, it.what) for it in writes[6:8]], [
            (1, "2 app 1 LoadImage", "turn byte of slot 0"), (12, "3 app 1 LoadImage", "image 2 of NAV.MODES")])
        self.assertEqual([(it.first, it.last, it.words) for it in writes[6].backs], [
            (0, 0, "none"), (1, 1, "recovered: image 1 (crc 0x0FA1), whose copy broke off")])
        self.assertEqual([(it.first, it.last, it.words) for it in writes[8].backs], [
            (0, 0, "recovered: image 1 (crc 0x0FA1), the last that was copied"),
            (1, 1, "recovered: image 2 (crc 0x3BE3), whose copy broke off")])

    def test_each_byte_has_its_bar(self):
        page = resets.html("modes.txt", shown())
        counts = {}
        for number, _, first, last, words in ELEMENT.findall(page):
            counts.setdefault(int(number), []).append((int(first), int(last), words))
        writes = resets.read(shown())[1]
        self.assertEqual({number: sum(last - first + 1 for first, last, _ in it) for number, it in counts.items()},
                         {it.number: it.size + 1 for it in writes})
        self.assertEqual(re.findall(r'class="bar ([a-z ]+)" [^>]*data-write="9"', page), ["last", "stripes broken"])

    def test_without_tables(self):
        """A session without critical tables has writes all the same."""
        lines = ["The session registers no critical table.", "", shown()[7], "1      15     boot at the start       letters", "", "1 write"]
        self.assertEqual([(it.what, it.backs) for it in resets.read(lines)[1]], [("letters", [])])
        self.assertIn("no critical table", resets.html("a", lines))

    def program(self, folder, script):
        """A stand-in for the program that is run."""
        path = os.path.join(folder, "program")
        with open(path, "w", encoding="ascii") as file:
            file.write(f"#!/bin/bash\n{script}\n")
        os.chmod(path, 0o755)
        return path

    def test_the_table_is_passed_on(self):
        """Its rows as they come, what else the program says, and its status."""
        with tempfile.TemporaryDirectory() as folder:
            with open(os.path.join(folder, "table"), "w", encoding="ascii") as table:
                table.write("\n".join(shown()) + "\n")
            path = self.program(folder, f'echo "words $*"; cat; cat {folder}/table; echo other words >&2; exit 5')
            status, written, said = call("resets", "--program", path, "--every", "64", given=b"the session\n")
            self.assertEqual((status, said.splitlines()[0]), (5, "other words"))
            self.assertRegex(said, r"\ncfetbl resets: a record is bad or cut short [^\n]*\n\Z")
            self.assertEqual(written.decode().splitlines(), ["words --every 64", "the session", *shown()])
            self.assertEqual(call("resets", "--program", path, "--mirror")[1].splitlines()[0], b"words --mirror")

    def test_a_store_file(self):
        """Its name is passed on, and what the program says of it is said without the system's number."""
        with tempfile.TemporaryDirectory() as folder:
            said = "kept can't be opened for reading: No such file or directory"
            path = self.program(folder, f'echo "words $*"; echo "resets: {said} (os error 2)" >&2; exit 7')
            self.assertEqual(call("resets", "--program", path, "--store", "kept", "--every", "64"),
                             (7, b"words --store kept --every 64\n", f"cfetbl resets: {said}\n"))
            self.assertEqual(call("resets", "--program", path, "--mirror", "--store", "kept")[1], b"words --store kept --mirror\n")

    def test_a_store_file_in_use(self):
        """It is said by which process, if the system tells."""
        with tempfile.TemporaryDirectory() as folder:
            kept = os.path.join(folder, "kept")
            path = self.program(folder, f'echo "resets: {kept} is in use by another program" >&2; exit 7')
            with open(kept, "wb") as file:
                self.assertEqual(call("resets", "--program", path), (7, b"", f"cfetbl resets: {kept} is in use by another program\n"))
                fcntl.flock(file, fcntl.LOCK_EX)
                self.assertRegex(call("resets", "--program", path)[2], f"^cfetbl resets: {kept} is in use by process {os.getpid()} ")

    def test_a_page(self):
        with tempfile.TemporaryDirectory() as folder:
            page = os.path.join(folder, "page.html")
            with open(os.path.join(folder, "table"), "w", encoding="ascii") as table:
                table.write("\n".join(shown()) + "\n")
            path = self.program(folder, f"cat {folder}/table; exit 3")
            self.assertEqual(call("resets", "--program", path, "--html", page, "--name", "modes.txt")[:2], (3, b""))
            with open(page, encoding="utf-8") as file:
                self.assertIn("<h1>Resets in modes.txt</h1>", file.read())
            self.assertEqual(call("resets", "--program", path, "--html", "/dev/full", "--name", "a")[0], 4)

    def test_how_far_it_is(self):
        """Every few seconds, by the rows and by what the program says, also while rows come."""
        said = "resets: at write 3 of 7, after 1024 of 16392 bytes"
        with tempfile.TemporaryDirectory() as folder:
            path = self.program(folder, f"echo '1      15     boot'; echo '2      16392  boot'; echo '{said}' >&2; sleep 3; echo x; sleep 3")
            status, written, told = call("resets", "--program", path)
            self.assertEqual((status, written), (0, b"1      15     boot\n2      16392  boot\nx\n"))
            self.assertRegex(told, r"^cfetbl resets: 2 of 7 writes were tried, at write 3 of 7, after 1024 of 16392 bytes; \d s so far\n$")

    def test_how_far_it_is_at_a_terminal(self):
        """A line that stays in place, and is gone at the end."""
        with tempfile.TemporaryDirectory() as folder:
            path = self.program(folder, "echo '1      15     boot'; sleep 2.5")
            seen = in_terminal([*COMMAND, "resets", "--program", path])
        self.assertRegex(seen, r"boot\r\n(?:\r\x1b\[K)?cfetbl resets: 1 write was tried; \d s so far")
        self.assertTrue(seen.endswith("\r\x1b[K"))

    def test_no_table(self):
        with tempfile.TemporaryDirectory() as folder:
            path = self.program(folder, "echo 'write  bytes  in request'; echo 'no row'")
            self.assertEqual(call("resets", "--program", path, "--html", "-", "--name", "a"),
                             (1, b"", "cfetbl resets: no row of `cfetbl resets`: no row\n"))


if __name__ == "__main__":
    unittest.main()
