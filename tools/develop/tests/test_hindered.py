"""`cfetbl serve` and `cfetbl repl` where a caller, the network, the disk, the program or a signal hinders them."""
import contextlib
import fcntl
import os
import pty
import resource
import signal
import socket
import subprocess
import sys
import tempfile
import time
import unittest

from tblkit import callers, live, locks, programs, records, server, text

from . import recorded
from .test_commands import COMMAND, call
from .test_serve import WAIT, Service
from .test_text import bytes_of

NOOP = bytes_of("1804 C000 0001 00 22")
LONG = "app 1 register T size 4\n"


def programs_of(process):
    """The processes that a process has started."""
    with open(f"/proc/{process}/task/{process}/children", encoding="ascii") as file:
        return [int(it) for it in file.read().split()]


def answer_of(caller, line):
    caller.sendall(line.encode() + b"\n")
    with caller.makefile("r", encoding="utf-8") as answers:
        return list(iter(lambda: next(answers), "\n"))


class Calling(Service):
    """A service at a path for callers."""

    def setUp(self):
        super().setUp()
        self.path = os.path.join(self.folder, "calls")

    def caller_at(self, path):
        made = socket.socket(socket.AF_UNIX, socket.SOCK_STREAM)
        self.addCleanup(made.close)
        made.settimeout(WAIT)
        made.connect(path)
        return made


class Programs(Calling):
    """A program that ends by itself, or doesn't begin."""

    def test_a_program_that_is_killed(self):
        served, _ = self.start("--socket", self.path)
        os.kill(programs_of(served.pid)[0], signal.SIGKILL)
        written, said = served.communicate(timeout=WAIT)
        self.assertEqual((served.returncode, written, said), (137, b"", b"cfetbl serve: the program was ended by a signal, SIGKILL\n"))
        self.assertFalse(os.path.exists(self.path))

    def test_a_store_that_cannot_be_opened(self):
        os.mkdir(os.path.join(self.folder, "cds.store"))
        status, written, said = call("serve", "--command-port", "0", "--socket", "calls", cwd=self.folder)
        self.assertEqual((status, written), (7, b""))
        self.assertIn("cfetbl serve: the program ended with 7: the store file can't be opened", said)
        self.assertNotIn("commands to", said)
        self.assertNotIn("calls", os.listdir(self.folder))

    def test_a_store_that_another_program_has(self):
        """Two programs can't have one store: the second one says whose process has it, and nothing is lost."""
        served, address = self.start()
        self.ask(address, NOOP)
        if not locks.holders(os.path.join(self.folder, "cds.store")):
            self.end(served)
            self.skipTest("the program doesn't lock its store")
        path = os.path.join(self.folder, "cds.store")
        for tool, words in (("serve", ("--command-port", "0")), ("report", (os.path.join(recorded.TOP, "sessions", "hello.txt"),))):
            status, _, said = call(tool, *words, cwd=self.folder)
            self.assertEqual(status, 7, said)
            self.assertIn(f"is in use by process {programs_of(served.pid)[0]} (tbl_serve", said)
        self.assertEqual(self.ask(address, NOOP)[12:14], b"\0\x01")
        self.assertEqual(self.end(served)[0], 0)
        self.assertEqual(os.path.getsize(path), 262_144)
        self.assertEqual(locks.holders(path), [])

    def test_two_programs_over_one_store(self):
        """The second one ends with 7 whatever it was to do, plays nothing, and the first one's table comes back after both."""
        program, start = programs.found(), "app 1 start A\napp 1 register T size 4 critical\n"
        session = [b"".join(map(text.record_of, it.splitlines())) for it in (start, "app 1 load 0 hex 01020304\n", start + "app 1 get 0\napp 1 read 0 at 0 length 4\n")]
        other = b"".join(map(text.record_of, ("reset power-on", "app 1 start B", "app 1 cds-register S size 4", "app 1 cds-copy 0 hex FFFFFFFF")))
        first = subprocess.Popen([program, "play"], cwd=self.folder, stdin=subprocess.PIPE, stdout=subprocess.PIPE)
        self.addCleanup(first.communicate)
        first.stdin.write(session[0])
        first.stdin.flush()
        first.stdout.read(2 * 21)
        if not locks.holders(os.path.join(self.folder, "cds.store")):
            self.skipTest("the program doesn't lock its store")
        for words in (["play"], ["crew"], ["watch"], ["drill", "7", "9"]):
            done = subprocess.run([program, *words], input=other, capture_output=True, cwd=self.folder)
            self.assertEqual((done.returncode, done.stdout, done.stderr), (7, b"", b"tbl: cds.store is in use by another program\n"), words)
        first.communicate(session[1])
        done = subprocess.run([program, "play"], input=session[2], capture_output=True, cwd=self.folder)
        self.assertEqual((first.returncode, done.returncode, bytes.fromhex("01020304") in done.stdout), (0, 0, True))

    def test_who_has_a_lock(self):
        path = os.path.join(self.folder, "locked")
        with open(path, "wb") as file:
            self.assertEqual(locks.in_use(path), "")
            fcntl.flock(file, fcntl.LOCK_EX)
            self.assertEqual([it.process for it in locks.holders(path)], [os.getpid()])
            self.assertRegex(locks.in_use(path), rf"^{path} is in use by process {os.getpid()} \(.*python")
        self.assertEqual(locks.in_use(os.path.join(self.folder, "no-such")), "")

    def test_more_requests_than_a_session_has(self):
        """A service has no last request, and the run keeps nothing of those that were played."""
        noop, count = text.record_of("ground NOOP"), records.MOST_RECORDS + 2
        with contextlib.ExitStack() as closing:
            running = live.Running(self.folder)
            closing.callback(running.kill)
            for place in range(count):
                self.assertEqual([it.entry.number("place") for it in running.ask(noop)], [place])
            self.assertEqual((running.finish(), running.count), (0, count))
            self.assertEqual(running.end_line(), f"end: status 0, the work is done; {count} entries; all {count * len(noop)} bytes of the session were played")

    def test_nobody_reads_the_output_any_more(self):
        """Then a write fails, which is no signal that ends the service."""
        served, address = self.start("--socket", self.path)
        served.stdout.close()
        self.ground.sendto(NOOP, address)
        self.assertEqual(served.wait(WAIT), 4)
        self.assertEqual(served.stderr.read(), b"cfetbl serve: writing failed: standard output: Broken pipe\n")
        served.stdout = None
        self.assertFalse(os.path.exists(self.path))

    def test_a_signal_and_what_does_not_end(self):
        """A program that stands still, and an output that nobody reads: a signal ends the service all the same."""
        served, _ = self.start("--socket", self.path)
        os.kill(programs_of(served.pid)[0], signal.SIGSTOP)
        self.caller_at(self.path).sendall(b"ground NOOP\n")
        time.sleep(0.3)
        status, _, said = self.end(served)
        self.assertEqual(status, 143)
        self.assertIn(b"what was under way took more than 3 s, and was broken off", said)
        self.assertFalse(os.path.exists(self.path))
        served, address = self.start("--socket", self.path)
        for _ in range(2000):
            self.ground.sendto(NOOP, address)
            time.sleep(0.0005)
        served.send_signal(signal.SIGTERM)
        self.assertEqual(served.wait(WAIT), 143)


class Clients(Calling):
    """Callers that hinder others."""

    def test_a_caller_that_never_reads(self):
        """It waits alone, and is dropped with a word."""
        served, address = self.start("--socket", self.path, stdout=subprocess.DEVNULL)
        hostile = self.caller_at(self.path)
        hostile.setblocking(False)
        with contextlib.suppress(BlockingIOError):
            while True:
                hostile.send(LONG.encode() * 100)
        self.assertEqual(self.ask(address, NOOP)[12:14], b"\0\x01")
        self.assertIn("ground NOOP -> 0 SUCCESS", answer_of(self.caller_at(self.path), "ground NOOP")[0])
        self.assertEqual(served.stderr.readline(), b"cfetbl serve: caller 1 didn't take its answer for 10 s: it is dropped\n")
        self.assertEqual(self.end(served)[0], 0)

    def test_lines(self):
        """A line without an end, one in pieces, several at once, and a last one that nothing ends."""
        served, _ = self.start("--socket", self.path)
        endless = self.caller_at(self.path)
        with contextlib.suppress(OSError):
            endless.sendall(b"x" * 300_000)
        self.assertEqual(served.stderr.readline(), b"cfetbl serve: caller 1 sent 131072 bytes without the end of a line: it is dropped\n")
        caller = self.caller_at(self.path)
        for piece in (b"gro", b"und NO", b"OP\n# nothing\nground NOPE \x1b[31m\n", b"ground NOOP"):
            caller.sendall(piece)
            time.sleep(0.05)
        caller.shutdown(socket.SHUT_WR)
        with caller.makefile("rb") as answers:
            found = answers.read()
        self.assertEqual([found.count(b"ground NOOP -> 0 SUCCESS\n"), found[:-1].split(b"\n").count(b""), found.count(b"\x1b")], [2, 4, 0])
        self.assertEqual(self.end(served)[0], 0)

    def test_files(self):
        """Over the socket only regular files below a folder that is given are taken."""
        inside, outside = os.path.join(self.folder, "in"), os.path.join(self.folder, "secret")
        os.mkdir(inside)
        os.mkfifo(os.path.join(inside, "pipe"))
        for name in (outside, os.path.join(inside, "image")):
            with open(name, "wb") as file:
                file.write(b"\1\2\3\4")
        os.symlink(outside, os.path.join(inside, "link"))
        served, _ = self.start("--socket", self.path, "--files", inside)
        caller = self.caller_at(self.path)
        self.assertIn("hex 01020304 -> 0 SUCCESS", answer_of(caller, "file /a from image")[0])
        for name, why in (("pipe", "it is no regular file"), (".", "it is no regular file"), ("no", "No such file"), ("../secret", "isn't below"),
                          ("link", "isn't below"), (outside, "isn't below"), ("/dev/zero", "isn't below"), ("/no/such", "isn't below")):
            self.assertIn(why, answer_of(caller, f"file /a from {name}")[0])
        self.assertEqual(self.end(served)[0], 0)
        served, _ = self.start("--socket", self.path)
        self.assertIn("there is no folder of which files are taken", answer_of(self.caller_at(self.path), f"file /a from {outside}")[0])
        self.assertEqual(self.end(served)[0], 0)
        self.assertEqual(call("serve", "--files", outside, "--socket", self.path, cwd=self.folder)[0], 2)

    def test_many_callers(self):
        """Those beyond the most, and those for whom no descriptor is left, take the place of the one that was silent for the longest."""
        served, _ = self.start("--socket", self.path)
        calling = [self.caller_at(self.path) for _ in range(callers.MOST_CALLERS + 3)]
        self.assertIn("-> 0 SUCCESS", answer_of(calling[-1], "ground NOOP")[0])
        self.assertEqual([calling[it].recv(1) for it in range(3)], [b""] * 3)
        self.assertIn(b"caller 1 was silent for the longest, and 64 callers are there: it is dropped", served.stderr.readline())
        self.assertEqual(self.end(served)[0], 0)
        served, _ = self.start("--socket", self.path, preexec_fn=lambda: resource.setrlimit(resource.RLIMIT_NOFILE, (20, 20)))
        calling = [self.caller_at(self.path) for _ in range(40)]
        self.assertIn("-> 0 SUCCESS", answer_of(calling[-1], "ground NOOP")[0])
        self.assertIn(b"was silent for the longest, and Too many open files: it is dropped", served.stderr.readline())
        self.assertEqual(self.end(served)[0], 0)


class Networks(Calling):
    """Addresses that are taken, unknown or out of reach."""

    def words(self, *words):
        status, written, said = call("serve", *words, cwd=self.folder)
        self.assertEqual((status, written, os.listdir(self.folder)), (2, b"", ["script.txt"]))
        return said

    def test_addresses_that_cannot_be_taken(self):
        port = str(self.ground.getsockname()[1])
        self.assertEqual(self.words("--command-port", port, "--socket", "calls"),
                         f"cfetbl serve: commands can't be taken at 127.0.0.1:{port}: Address already in use\n")
        self.assertIn("commands can't be taken at 192.0.2.1:1234: ", self.words("--listen", "192.0.2.1"))
        self.assertIn("the address no-such.invalid:1235 isn't known: ", self.words("--to", "no-such.invalid", "--command-port", "0"))
        self.assertIn("the address 1.2.3.4.5:1234 isn't known: ", self.words("--listen", "1.2.3.4.5"))
        self.assertIn("no socket can be made at /no/such/calls: ", self.words("--socket", "/no/such/calls", "--command-port", "0"))
        self.assertIn("no socket can be made at script.txt: ", self.words("--socket", "script.txt", "--command-port", "0"))

    def test_a_socket_that_was_left(self):
        """That of a service that was killed gives way; that of one that serves doesn't."""
        served, _ = self.start("--socket", self.path)
        self.assertEqual(call("serve", "--socket", self.path, "--command-port", "0", cwd=self.folder)[0], 2)
        served.kill()
        served.communicate()
        self.assertTrue(os.path.exists(self.path))
        served, _ = self.start("--socket", self.path)
        self.assertIn("ground NOOP -> 0 SUCCESS", answer_of(self.caller_at(self.path), "ground NOOP")[0])
        self.assertEqual(self.end(served)[0], 0)

    def test_telemetry_that_nobody_takes(self):
        """It is told once, and once more when it goes out again; service goes on, and no packet is held back."""
        served, address = self.start()
        port = self.ground.getsockname()[1]
        self.ground.close()
        asking = socket.socket(socket.AF_INET, socket.SOCK_DGRAM)
        self.addCleanup(asking.close)
        for _ in range(4):
            asking.sendto(NOOP, address)
            time.sleep(0.1)
        self.assertEqual(served.stderr.readline(), f"cfetbl serve: telemetry to 127.0.0.1:{port} fails: Connection refused\n".encode())
        with socket.socket(socket.AF_INET, socket.SOCK_DGRAM) as ground:
            ground.bind(("127.0.0.1", port))
            ground.settimeout(WAIT)
            for count in (4, 5):
                asking.sendto(NOOP, address)
                self.assertEqual(ground.recv(100)[2:4], (0xC000 | count).to_bytes(2, "big"))
            self.assertEqual(served.stderr.readline(), f"cfetbl serve: telemetry to 127.0.0.1:{port} goes out again\n".encode())
        status, written, said = self.end(served)
        self.assertEqual((status, len(written), said), (0, 13, b""))

    def test_an_address_out_of_reach(self):
        """It is told as the service starts, which it does all the same."""
        with contextlib.ExitStack() as closing:
            said = []
            made = server.ground.Telemetry(closing, "255.255.255.255", 1235, said.append)
            self.assertEqual(said, ["telemetry to 255.255.255.255:1235 fails: Permission denied"])
            made.send(b"packet")
            self.assertEqual(len(said), 1)


class Typed(unittest.TestCase):
    """The program of `cfetbl repl`, or of `cfetbl compare`, ends."""

    def test_between_calls(self):
        with tempfile.TemporaryDirectory() as folder:
            log = os.path.join(folder, "log")
            os.mkfifo(log)
            run = subprocess.Popen([*COMMAND, "compare", os.devnull, log], stdout=subprocess.PIPE, stderr=subprocess.PIPE)
            with open(log, "wb", buffering=0) as calls:
                os.kill(programs_of(run.pid)[0], signal.SIGKILL)
                calls.write(b"app 1 CFE_TBL_Update 7 -> CFE_SUCCESS\n")
                written, said = run.communicate(timeout=WAIT)
            self.assertEqual((run.returncode, written, said), (137, b"", b"cfetbl compare: the program was ended by a signal, SIGKILL\n"))

    def test_statuses(self):
        self.assertEqual([programs.status_of(it) for it in (0, 7, -9, -13)], [0, 7, 137, 141])
        self.assertIn("SIGXFSZ", programs.end_words(128 + signal.SIGXFSZ))
        self.assertIn("the store file", programs.end_words(7))
        self.assertIn("no status of its own", programs.end_words(99))

    def test_between_lines(self):
        """It is told at once, while a line is waited for, from a pipe and from a terminal."""
        for is_terminal in (False, True):
            with self.subTest(is_terminal), tempfile.TemporaryDirectory() as folder:
                ours, theirs = pty.openpty() if is_terminal else os.pipe()[::-1]
                run = subprocess.Popen([*COMMAND, "repl"], stdin=theirs, stdout=subprocess.PIPE,
                                       stderr=subprocess.PIPE, cwd=folder, env=os.environ | {"TERM": "dumb"})
                os.close(theirs)
                os.write(ours, b"ground NOOP\n")
                while b"event 1" not in run.stdout.readline():
                    pass
                os.kill(programs_of(run.pid)[0], signal.SIGKILL)
                _, said = run.communicate(timeout=WAIT)
                os.close(ours)
                self.assertEqual((run.returncode, said.splitlines()[-1:]), (137, [b"cfetbl repl: the program was ended by a signal, SIGKILL"]))


if __name__ == "__main__":
    unittest.main()
