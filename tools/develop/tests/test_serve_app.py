"""`cfetbl serve --app`: images judged by functions of an application, what is said of those that don't answer, libraries that can't be
used, and the store file. Each session gives what the shipped program gives for the same verdicts, on the wire too."""
import functools
import glob
import io
import os
import resource
import shutil
import signal
import struct
import subprocess
import tempfile
import time
import unittest

from tblkit import files, names, packets, programs, records, store, text, transcript
from tblkit.states import VALIDATION_FINISHED

from . import recorded
from .compiled import HOST, needs_reader
from .test_commands import call
from .test_serve import Service

HERE = os.path.dirname(os.path.realpath(__file__))
INCLUDE = os.path.join(recorded.TOP, "c", "include")
CHECKER = os.path.join(recorded.TOP, "c", "examples", "checker")
# One of these is there once the program is built, or can be built at once.
BUILT = ("crates/tbl_c/out/libtbl_c.a", "out/unproved/tbl_app_serve", "out/app/tbl_app_serve")
NO_VERDICT, WAIT = -(1 << 31), 60
# A table of the checker: version and period, and four points with name, message id, place, limits, action, persistence and latch.
CHECKER_TABLE = struct.Struct("=I4xd" + 4 * "10sHB3xffiB?2x")
BATTERY = (b"BATT_VOLT", 0x0811, 12, 24.5, 33.6, 2, 3, True)
UNUSED = (b"", 0, 0, 0.0, 0.0, 0, 0, False)


def checker_table(low=24.5):
    return CHECKER_TABLE.pack(3, 0.25, *BATTERY[:3], low, *BATTERY[4:], *3 * UNUSED)


def entries(written):
    return [it for it in transcript.parts(io.BytesIO(written)) if isinstance(it, transcript.Entry)]


def odd_sizes(session):
    """The sizes of tables with a function of an odd number, which looks at the last byte of the image."""
    found = set()
    with open(session, "rb") as content:
        for piece in records.pieces(content):
            if not piece.fault and piece.request.name == "Register":
                size, number = (packets.number(names.field("Register", it).of(piece.body)) for it in ("size", "validator"))
                found |= {size} if number % 2 and number != 0xFF else set()
    return found


@unittest.skipUnless(HOST and any(os.path.exists(os.path.join(recorded.TOP, it)) for it in BUILT), "the program of serve --app isn't built here")
class WithLibraries(unittest.TestCase):
    @classmethod
    def setUpClass(cls):
        temporary = tempfile.TemporaryDirectory()
        cls.addClassCleanup(temporary.cleanup)
        cls.libraries = temporary.name
        cls.program = programs.found(word="serve-app")

    @classmethod
    @functools.cache
    def library(cls, kind, source="app_functions.c", *words):
        """The path of a library."""
        path = os.path.join(cls.libraries, f"{kind}.so")
        subprocess.run([HOST, "-shared", "-fPIC", "-Wall", "-Wextra", "-Werror", f"-I{INCLUDE}", f"-D{kind}", *words, os.path.join(HERE, source), "-o", path],
                       check=True)
        return path

    def run_program(self, session, library, *words, folder, **more):
        """What the program wrote and said, and its status."""
        done = subprocess.run([self.program, "--app", library, *words], input=session, capture_output=True, cwd=folder, timeout=WAIT, check=False, **more)
        return done.returncode, done.stdout, done.stderr.decode()

    def folder(self):
        made = tempfile.TemporaryDirectory()
        self.addCleanup(made.cleanup)
        return made.name


class Played(WithLibraries):
    """The program beside tbl_serve."""

    def both(self, session, size=1, folders=None):
        """Plays a session by both, and compares the transcripts and the store files."""
        ours, theirs = folders or (self.folder(), self.folder())
        done = subprocess.run([programs.found(word="serve")], input=session, capture_output=True, cwd=theirs, check=False)
        found = self.run_program(session, self.library("SHIPPED"), folder=ours, env=os.environ | {"TABLE_SIZE": str(size)})
        self.assertEqual(found[:2], (done.returncode, done.stdout))
        with open(os.path.join(ours, "cds.store"), "rb") as one, open(os.path.join(theirs, "cds.store"), "rb") as other:
            self.assertEqual(one.read(), other.read())

    def test_the_examples(self):
        tried = 0
        for name in sorted(glob.glob(os.path.join(recorded.TOP, "sessions", "*.session"))):
            sizes = odd_sizes(name)
            if len(sizes) < 2:
                with self.subTest(name), open(name, "rb") as session:
                    self.both(session.read(), *sizes)
                tried += 1
        self.assertGreater(tried, 10)

    def test_a_store_of_before(self):
        """Critical tables come back in the next session, and a bank that was of version 1, damaged or of zeros is booted alike."""
        lines = ["app 1 start A", "app 1 register M size 4 critical", "app 1 register N size 8 critical validator 0", "app 1 load 0 hex 01020304",
                 "app 1 load 1 hex 0102030405060708", "app 1 cds-register B size 16", "app 1 cds-copy 2 fill 07 16"]
        session = b"".join(map(text.record_of, lines))
        folders = self.folder(), self.folder()
        self.both(session, folders=folders)
        self.both(session, folders=folders)
        with open(os.path.join(folders[0], "cds.store"), "rb") as file:
            bank = bytearray(file.read())
        for damage in ({3: ord("1")}, {0: 0}, {16: 0x7A}, {16 + 64 + 1: 9}, {131_072 + 8_208: 0xFF}):
            changed = bytearray(bank)
            for at, byte in damage.items():
                changed[at] = byte
            for folder in folders:
                with open(os.path.join(folder, "cds.store"), "wb") as file:
                    file.write(changed)
            with self.subTest(damage):
                self.both(session, folders=folders)

    def test_what_is_no_record(self):
        noop = text.record_of("ground NOOP")
        for given in (b"\x7f\0\0\0", noop + b"\1\0\0", noop + noop[:9], noop + b"\4\0\0\1\7"):
            with self.subTest(given):
                self.both(given)

    def test_long(self):
        """Pieces of the input are cut anywhere, and records are as long as they can be."""
        lines = ["app 1 start A", "app 1 register T size 16384 validator 0", "app 1 register U size 16384 double critical validator 0"]
        lines += [f"app 1 load {it % 2} fill {1 + it:02X} 16384" for it in range(20)] + ["file /f fill 41 32768", "ground LOAD /f"]
        self.both(b"".join(map(text.record_of, lines)))

    def test_writes(self):
        """Wherever the program is killed, a block has the image before or the one after, whole."""
        lines = ["app 1 start A", "app 1 register M size 4 critical", *(f"app 1 load 0 fill {it:02X} 4" for it in (1, 2, 3, 4)), "app 1 unregister 0",
                 "app 1 register M size 8 critical", *(f"app 1 load 0 fill {it:02X} 8" for it in (5, 6)), "reset processor",
                 "app 1 register M size 8 critical", "app 1 unregister 0", "ground DELETE_CDS A.M", "app 1 register M size 8 critical", "reset power-on"]
        for durable in ([], ["--durable"]):
            folder = self.folder()
            self.run_program(b"".join(map(text.record_of, lines)), self.library("SHIPPED"), *durable, folder=folder, env=os.environ | {
                "LD_PRELOAD": self.library("WRITES", "app_writes.c", "-ldl"), "WRITES": os.path.join(folder, "writes")})
            with self.subTest(durable):
                self.check_writes(os.path.join(folder, "writes"), bool(durable))

    def check_writes(self, notes, is_durable):
        bank, shown, synced, head = bytearray(store.SIZE), [None], True, struct.Struct("=cQQ")
        with open(notes, "rb") as file:
            while front := file.read(head.size):
                tag, at, length = head.unpack(front)
                content = file.read(length)
                if tag == b"s":
                    synced = True
                    continue
                for cut in {1, length // 2, length} - {0}:
                    self.follow(bank[:at] + content[:cut] + bank[at + cut:], shown)
                bank[at:at + length] = content
                # What shows or opens a block is written once the sync before it is done.
                if is_durable and length == 1:
                    self.assertTrue(synced, at)
                synced = False
        images = [it and it.shown and it.shown.image.hex() for it in shown]
        self.assertEqual(images, [None, None, "01010101", "02020202", "03030303", "04040404", None, None, 8 * "05", 8 * "06", None, None, None])

    def follow(self, bank, shown):
        """Goes on to what a start finds: the block, whose image is whole if there is one, and other than that before."""
        blocks = [store.block(bank, it) for it in store.counted(bank)]
        found = blocks[0] if blocks else None
        if found and found.shown:
            self.assertTrue(found.is_whole)
        key = [(it is None, it and it.shown and it.shown.image) for it in (found, shown[-1])]
        if key[0] != key[1]:
            shown.append(found)

    def test_a_store_that_cant_be_written(self):
        folder, session = self.folder(), b"".join(map(text.record_of, ["app 1 start A", "app 1 register M size 4 critical"]))
        self.run_program(session, self.library("SHIPPED"), folder=folder)

        def small():
            signal.signal(signal.SIGXFSZ, signal.SIG_IGN)
            resource.setrlimit(resource.RLIMIT_FSIZE, (4096, 4096))

        status, _, said = self.run_program(session + text.record_of("app 1 load 0 hex 01020304"), self.library("SHIPPED"), folder=folder, preexec_fn=small)
        self.assertEqual((status, said), (4, "tbl_app_serve: cds.store can't be written: File too large\n"))
        with open(os.path.join(folder, "cds.store"), "rb") as file:
            bank = file.read()
        self.assertEqual([store.block(bank, it).shown for it in store.counted(bank)], [None])
        for name, why in ((folder, "can't be opened for reading and writing: Is a directory"), ("/dev/full", "has a length that can't be read")):
            self.assertEqual(self.run_program(b"", self.library("SHIPPED"), "--store", name, folder=folder)[0], 7, why)

    def test_a_store_in_use(self):
        folder = self.folder()
        with subprocess.Popen([self.program, "--app", self.library("SHIPPED")], cwd=folder, stdin=subprocess.PIPE, stdout=subprocess.PIPE) as other:
            other.stdin.write(text.record_of("ground NOOP"))
            other.stdin.flush()
            other.stdout.read(17)
            self.assertEqual(self.run_program(b"", self.library("SHIPPED"), folder=folder), (7, b"", "tbl_app_serve: cds.store is in use by another program\n"))
            # Its process for functions goes with it, and the lock goes too.
            other.kill()
        time.sleep(0.2)
        self.assertEqual(self.run_program(b"", self.library("SHIPPED"), folder=folder)[0], 0)


class Functions(WithLibraries):
    """Functions that don't answer, and libraries that can't be used."""

    def load(self, number, image="01020304", limit=None):
        """The entry of a load of a table with a function of this number, and what was said."""
        session = b"".join(map(text.record_of, ["app 1 start A", f"app 1 register T size 4 validator {number}", f"app 1 load 0 hex {image}",
                                                f"app 1 load 0 hex {image}"]))
        words = ["--app-limit", str(limit)] if limit else []
        status, written, said = self.run_program(session, self.library("HOSTILE"), *words, folder=self.folder())
        self.assertEqual(status, 0)
        return written, said.replace(self.libraries, "").splitlines()

    def verdicts(self, written):
        """The verdicts that were told, one for each load."""
        sent = [packets.decode(it) for entry in entries(written) for it in packets.split(entry.sent)]
        return [it.told.detail for it in sent if it.told and it.told.number == VALIDATION_FINISHED]

    def test_a_crash(self):
        written, said = self.load(0)
        self.assertEqual(self.verdicts(written), 2 * [NO_VERDICT % (1 << 32)])
        self.assertEqual(said, 2 * ["tbl_app_serve: validation function 0 (crashes) of /HOSTILE.so was ended by signal 11 (Segmentation fault). "
                                    "Its image of 4 bytes, 01020304, is refused with -2147483648"])

    def test_a_hang(self):
        begun = time.monotonic()
        written, said = self.load(1, limit=0.2)
        self.assertEqual(self.verdicts(written), 2 * [NO_VERDICT % (1 << 32)])
        self.assertEqual(said[0], "tbl_app_serve: validation function 1 (hangs) of /HOSTILE.so didn't return within 0.200 s. "
                                  "Its image of 4 bytes, 01020304, is refused with -2147483648")
        self.assertLess(time.monotonic() - begun, 10)

    def test_an_end(self):
        self.assertIn("function 32 (exits) of /HOSTILE.so ended its process with status 3.", self.load(32)[1][0])

    def test_what_it_says(self):
        written, said = self.load(48)
        self.assertEqual(said, 2 * ["to standard output", "tbl_app_serve: talks: log: a line", "tbl_app_serve: talks: event 7 ERROR: first byte 1?"])
        self.assertEqual([it.number("status") for it in entries(written)], 4 * [0])

    def test_codes(self):
        written, said = self.load(224, "FE000000")
        self.assertEqual((self.verdicts(written), said), (2 * [(1 << 32) - 254], []))

    def test_no_function(self):
        """A number that isn't the application's, or under which the library has none, is none."""
        for number in (2, 33, 64, 223, 240, 254):
            with self.subTest(number):
                written, _ = self.load(number)
                self.assertEqual([it.number("status") for it in entries(written)][1], 39)

    def test_libraries(self):
        folder, app = self.folder(), "it has no CFETBL_App, which cfetbl_app.h says how to define"
        with open(os.path.join(folder, "text.so"), "w", encoding="ascii") as file:
            file.write("no library")
        for path, why in (("no.so", "./no.so: cannot open shared object file: No such file or directory"), ("text.so", "./text.so: file too short"),
                          (folder, f"{folder}: cannot read file data: Is a directory"), (self.library("WITHOUT_APP"), f"WITHOUT_APP.so: {app}"),
                          (self.library("OUT_OF_RANGE"), "its CFETBL_App has a function of the number 240, and the greatest one is 239"),
                          (self.library("TWICE"), "its CFETBL_App has two functions of the number 5"),
                          (self.library("NO_FUNCTION"), "its CFETBL_App has no function or no name for the number 5"),
                          (self.library("OTHER_EDITION"), "its CFETBL_App is of the edition 2 of cfetbl_app.h, and this program takes edition 1"),
                          (self.library("UNDEFINED"), "undefined symbol: CFE_TBL_Load"),
                          (self.library("AS_IT_LOADS"), "AS_IT_LOADS.so was ended by signal 6 (Aborted) as it was loaded")):
            with self.subTest(path):
                status, written, said = self.run_program(b"", path, folder=folder)
                self.assertEqual((status, written, said.count("\n"), why in said), (2, b"", 1, True), said)
        self.assertEqual(os.listdir(folder), ["text.so"])

    def test_compilers(self):
        """The sources give no compiler a warning."""
        for compiler in filter(shutil.which, ("gcc", "clang")):
            for source in sorted(glob.glob(os.path.join(recorded.TOP, "c", "lib", "serving", "*.c"))):
                done = subprocess.run([compiler, "-std=c11", "-O2", "-Wall", "-Wextra", "-Werror", f"-I{INCLUDE}", f"-I{recorded.TOP}/c/lib", "-c", source, "-o",
                                       os.devnull], capture_output=True, text=True, check=False)
                self.assertEqual((done.returncode, done.stderr), (0, ""))

    def test_words(self):
        for words in ([], ["--app"], ["--app", "x", "more"], ["--app", "x", "--app-limit", "0"], ["--app", "x", "--app-limit", "1e9"]):
            self.assertEqual(subprocess.run([self.program, *words], capture_output=True, check=False).returncode, 2)
        self.assertIn(b"--app LIBRARY", subprocess.run([self.program, "--help"], capture_output=True, check=True).stdout)
        for words, why in ((["--app-limit", "1"], "--app-limit is of --app"), (["--app", "x", "--app-limit", "0"], "isn't from 0.001 to 1000 seconds")):
            status, _, said = call("serve", *words)
            self.assertEqual((status, why in said), (2, True))
        folder = self.folder()
        status, written, said = call("serve", "--command-port", "0", "--app", "no.so", cwd=folder)
        self.assertEqual((status, written, said.splitlines()[-1]), (2, b"", "tbl_app_serve: ./no.so: cannot open shared object file: No such file or directory"))


class Served(WithLibraries, Service):
    """The service with functions of an application."""

    SCRIPT = ("app 1 start APP", "app 1 register ONE size 4 validator 0", "app 1 register TWO size 4 double validator 1", "app 1 load 0 hex 01020304",
              "app 1 load 0 hex 00020304", "app 1 load 1 hex 01020300", "app 1 load 1 hex 01020301", "file /one table APP.ONE hex 05060708",
              "file /bad table APP.ONE hex 00060708")

    def setUp(self):
        super().setUp()
        with open(os.path.join(self.folder, "script.txt"), "w", encoding="ascii") as script:
            script.writelines(f"{it}\n" for it in self.SCRIPT)

    def pass_of(self, *words):
        """What the ground gets in a pass, without its time, and what is written."""
        served, address = self.start("--script", "script.txt", "--socket", os.path.join(self.folder, "calls"), "--store", "none", *words,
                                     env=os.environ | {"TABLE_SIZE": "4"})
        self.ground.settimeout(1)
        for name, table in (("/one", "APP.ONE"), ("/bad", "APP.ONE")):
            for command, payload in (("LOAD", name.encode().ljust(64, b"\0")), ("VALIDATE", bytes(2) + table.encode().ljust(40, b"\0"))):
                self.ground.sendto(packets.command(command, payload), address)
                time.sleep(0.05)
            self.call_lines(os.path.join(self.folder, "calls"), "app 1 manage 0")
            self.ground.sendto(packets.command("ACTIVATE", table.encode().ljust(40, b"\0")), address)
            time.sleep(0.05)
            self.call_lines(os.path.join(self.folder, "calls"), "app 1 manage 0")
        self.ground.sendto(packets.command("HOUSEKEEPING", b""), address)
        found = []
        try:
            while True:
                found.append(self.ground.recv(4096))
        except TimeoutError:
            pass
        status, written, _ = self.end(served)
        self.assertEqual(status, 0)
        return [it[:6] + bytes(6) + it[12:] for it in found], written

    def test_the_same_verdicts(self):
        """The wire has the same bytes as without a library."""
        for layout in ([], ["--cfe-layout", "--debug-events"]):
            library, shipped = self.pass_of(*layout, "--app", self.library("SHIPPED")), self.pass_of(*layout)
            if layout:
                # (the time of the last update is the one thing that two passes needn't have the same)
                library, shipped = ([len(it) for it in packets_] for packets_, _ in (library, shipped))
            self.assertEqual(library, shipped)
            self.assertGreater(len(library if layout else library[0]), 10)

    def test_an_application(self):
        """The library of c/examples/checker, which its Makefile makes: an image that it accepts, and one that it refuses with its code."""
        made = subprocess.run(["make", "-s", "-f", os.path.join(CHECKER, "Makefile"), f"CPPFLAGS=-I{INCLUDE}", "checker.so"], cwd=self.folder,
                              capture_output=True, text=True, check=False)
        self.assertEqual((made.returncode, made.stderr), (0, ""))
        cf = os.path.join(self.folder, "cf")
        os.mkdir(cf)
        for name, low in (("good", 24.5), ("bad", 40.0)):
            with open(os.path.join(cf, f"{name}.tbl"), "wb") as file:
                file.write(files.table_file(checker_table(low), {"table": b"CHECKER.Limits"}))
        with open(os.path.join(self.folder, "script.txt"), "w", encoding="ascii") as script:
            script.write(f"app 1 start CHECKER\napp 1 register Limits size {CHECKER_TABLE.size} validator 0\n")
        served, address = self.start("--cfe-layout", "--files", "cf", "--manage", "0.1", "--script", "script.txt", "--app", "checker.so")
        for name, number, told in (("good", 36, "CHECKER validation successful for Inactive 'CHECKER.Limits'"),
                                   ("bad", 96, "CHECKER validation failed for Inactive 'CHECKER.Limits', Status=0xFFFFFFFD")):
            self.ground.sendto(packets.command("ABORT_LOAD", b"CHECKER.Limits".ljust(40, b"\0")), address)
            self.ground.recv(4096)
            self.ground.sendto(packets.command("LOAD", f"/cf/{name}.tbl".encode().ljust(64, b"\0")), address)
            self.ground.recv(4096)
            self.ground.sendto(packets.command("VALIDATE", bytes(2) + b"CHECKER.Limits".ljust(40, b"\0")), address)
            event = self.ground.recv(4096)
            self.assertEqual((int.from_bytes(event[36:38], "little"), event[48:170].split(b"\0")[0].decode()), (number, told))
        status, _, said = self.end(served)
        self.assertEqual((status, said.decode().splitlines()), (0, [
            "tbl_app_serve: CHECKER_ValidateLimits: event 12 INFORMATION: Limits version 3: 1 points in use",
            "tbl_app_serve: CHECKER_ValidateLimits: event 12 ERROR: Point 0 (BATT_VOLT): low limit 40.00, high limit 33.60"]))

    def test_what_crashes(self):
        """The service goes on after a function that crashes or hangs, and ends in time while one hangs."""
        with open(os.path.join(self.folder, "script.txt"), "w", encoding="ascii") as script:
            script.write("app 1 start A\napp 1 register T size 4 validator 0\napp 1 register U size 4 validator 1\napp 1 load 0 hex 01020304\n")
        served, address = self.start("--script", "script.txt", "--socket", os.path.join(self.folder, "calls"), "--app", self.library("HOSTILE"),
                                     "--app-limit", "0.2")
        lines = self.call_lines(os.path.join(self.folder, "calls"), "app 1 load 1 hex 01020304", "app 1 load 0 hex 01020304")
        self.assertEqual([it for it in lines if "->" in it], ["4 app 1 load 1 hex 01020304 -> 58 ERR_VALIDATION_FAILED, verdict -2147483648",
                                                              "5 app 1 load 0 hex 01020304 -> 58 ERR_VALIDATION_FAILED, verdict -2147483648"])
        for _ in range(3):
            self.ground.recv(4096)
        self.assertEqual(self.ask(address, packets.command("NOOP", b""))[:2], b"\x08\x08")
        status, _, said = self.end(served)
        self.assertEqual((status, said.count(b"(crashes)"), said.count(b"(hangs)")), (0, 1, 1))


@needs_reader
class Page(WithLibraries, Service):
    """The block of docs/use/serve.md that builds a library and serves with it, at ports of its own."""

    NOTE = "<!-- played by tools/develop/gate/check-app -->"

    def test_the_block(self):
        with open(os.path.join(recorded.TOP, "docs", "use", "serve.md"), encoding="utf-8") as page:
            content = page.read()
        script, block = content.split("Put this into `checker.txt`:\n\n")[1].split("\n\n")[0], content.split(self.NOTE)[1].split("\n\n")[1]
        with open(os.path.join(self.folder, "checker.txt"), "w", encoding="ascii") as file:
            file.writelines(f"{it.strip()}\n" for it in script.splitlines())
        os.symlink(os.path.join(recorded.TOP, "c"), os.path.join(self.folder, "c"))
        *shell, last = [it[4:] for it in block.splitlines()]
        environment = os.environ | {"PATH": f"{recorded.TOP}:{os.environ['PATH']}", "CPPFLAGS": f"-I{INCLUDE}", "MAKEFLAGS": "-e"}
        done = subprocess.run(["bash", "-e"], input="\n".join(it[2:] for it in shell if it.startswith("$ ")), capture_output=True, text=True, cwd=self.folder,
                              env=environment, check=False)
        self.assertEqual((done.returncode, done.stdout.splitlines()), (0, [it for it in shell if not it.startswith("$ ")]), done.stderr)
        served, address = self.start(*last.removeprefix("$ cfetbl serve ").split())
        for command, payload in (("LOAD", b"/cf/limits.tbl".ljust(64, b"\0")), ("VALIDATE", bytes(2) + b"CHECKER.Limits".ljust(40, b"\0"))):
            self.ground.sendto(packets.command(command, payload), address)
            event = self.ground.recv(4096)
        self.assertEqual(event[48:170].split(b"\0")[0].decode(), "CHECKER validation successful for Inactive 'CHECKER.Limits'")
        status, _, said = self.end(served)
        self.assertEqual((status, said.decode().strip() in content), (0, True), said)


if __name__ == "__main__":
    unittest.main()
