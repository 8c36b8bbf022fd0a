"""`cfetbl serve`: commands and telemetry over UDP in both layouts, a script, callers over a local socket, and how it ends."""
import os
import re
import signal
import socket
import subprocess
import sys
import tempfile
import unittest

from tblkit import packets

from . import xtce
from .test_commands import COMMAND, TOOLS, call
from .test_text import bytes_of

SCRIPT = b"# CTRL has a table.\napp 1 start CTRL\napp 1 register T size 4\napp 1 notify 0 message 0x1880 code 5 parameter 7\n"
WAIT = 180


class Service(unittest.TestCase):
    """A service in a folder of its own, with a ground that takes its telemetry."""

    def setUp(self):
        folder = tempfile.TemporaryDirectory()
        self.addCleanup(folder.cleanup)
        self.folder = folder.name
        self.ground = socket.socket(socket.AF_INET, socket.SOCK_DGRAM)
        self.addCleanup(self.ground.close)
        self.ground.bind(("127.0.0.1", 0))
        self.ground.settimeout(WAIT)
        with open(os.path.join(self.folder, "script.txt"), "wb") as script:
            script.write(SCRIPT)

    def start(self, *words, **more):
        """The service, with the address to which commands go."""
        port = str(self.ground.getsockname()[1])
        served = subprocess.Popen([*COMMAND, "serve", "--command-port", "0", "--telemetry-port", port, *words],
                                  **{"cwd": self.folder, "stdout": subprocess.PIPE, "stderr": subprocess.PIPE} | more)
        self.addCleanup(served.communicate)
        self.addCleanup(served.kill)
        for line in served.stderr:
            found = re.match(rb"cfetbl serve: commands to 127.0.0.1:(\d+), telemetry to", line)
            if found:
                return served, ("127.0.0.1", int(found[1]))
        self.fail(f"it ended with {served.wait()}")

    def end(self, served, how=signal.SIGTERM):
        served.send_signal(how)
        written, said = served.communicate(timeout=WAIT)
        return served.returncode, (written or b"").decode().splitlines(), said

    def ask(self, address, packet):
        self.ground.sendto(packet, address)
        return self.ground.recv(2048)

    def call_lines(self, path, *lines):
        """The lines of the answers of a caller."""
        found = []
        with socket.socket(socket.AF_UNIX, socket.SOCK_STREAM) as caller:
            caller.settimeout(WAIT)
            caller.connect(path)
            with caller.makefile("r", encoding="utf-8") as answers:
                for line in lines:
                    caller.sendall(line.encode() + b"\n")
                    while (answer := next(answers).rstrip("\n")):
                        found.append(answer)
        return found


class Served(Service):
    def test_commands_and_telemetry(self):
        served, address = self.start()
        self.assertEqual(self.ask(address, bytes_of("1804 C000 0001 00 22")), bytes_of("0808 C000 0011 00000000 0000 0001 00000000 FFFF 00000000"))
        self.assertEqual(self.ask(address, bytes_of("1804 C000 0001 00 23")), bytes_of("0808 C001 0011 00000000 0000 0002 00000050 FFFF 00000003"))
        self.assertEqual(self.ask(address, bytes_of("180C C000 0001 00 2A"))[:14], bytes_of("0804 C000 011B 00000000 0000 01 01"))
        status, written, _ = self.end(served)
        self.assertEqual((status, written[0], written[-1]), (0, "0 ground NOOP -> 0 SUCCESS",
                         "end: status 0, the work is done; 3 entries; all 36 bytes of the session were played"))
        self.assertEqual(os.path.getsize(os.path.join(self.folder, "cds.store")), 262_144)

    def test_a_script_and_callers(self):
        path = os.path.join(self.folder, "calls")
        served, address = self.start("--script", "script.txt", "--socket", path)
        self.assertEqual(self.call_lines(path, "app 1 load 0 hex 01020304", "", "app 1 get 0"), [
            "3 app 1 load 0 hex 01020304 -> 0 SUCCESS", "      event 5 image went active: row 0 CTRL.T, images 1", "4 app 1 get 0 -> 1 INFO_UPDATED"])
        self.assertEqual(packets.decode(self.ground.recv(2048)).kind, "event")
        wrong = self.call_lines(path, "app 1 nothing", "bytes 7F000000", "file /a table CTRL.T hex 05060708", "ground LOAD /a")
        self.assertEqual([wrong[0], *wrong[-4:-1]], ["<line>:7: expected a request of an application, found nothing",
                         "a line has to be one whole record", "5 file /a table CTRL.T at 0 hex 05060708 -> 0 SUCCESS", "6 ground LOAD /a -> 0 SUCCESS"])
        self.ground.recv(2048)
        self.assertEqual(self.call_lines(path, "ground VALIDATE inactive CTRL.T", "ground ACTIVATE CTRL.T")[-1],
                         "      notice: parameter 7, message id 0x1880, function code 5")
        kinds = [packets.decode(self.ground.recv(2048)).kind for _ in range(3)]
        self.assertEqual(kinds, ["event"] * 3)
        self.assertEqual(self.ask(address, packets.command("NOOP", b""))[12:14], b"\0\x01")
        status, written, _ = self.end(served, signal.SIGINT)
        self.assertEqual((status, len([it for it in written if not it.startswith(" ")])), (0, 11))
        self.assertFalse(os.path.exists(path))

    def test_cfe_layout(self):
        """A ground system that has cFE's layouts encodes commands and decodes telemetry by the definition."""
        for order, more in (("little", []), ("big", ["--big-endian"])):
            known = xtce.Definition(call("xtce", "--cfe-layout", *more)[1])
            served, address = self.start("--cfe-layout", *more, "--script", "script.txt")
            command = bytearray(known.encode("VALIDATE", {"select": 1, "table": "CTRL.T"}))
            command[7] = 0xFF ^ packets.exclusive_or(command)
            self.assertEqual(command[8:10], (1).to_bytes(2, order))
            kind, values = known.decode(self.ask(address, bytes(command)))
            self.assertEqual((kind, values["event_message"]), ("event", "Internal Error (Status=0x0000003C)"))
            kind, values = known.decode(self.ask(address, packets.command("HOUSEKEEPING", b"")))
            self.assertEqual((kind, values["housekeeping_commanderrorcounter"], values["housekeeping_numtables"]), ("housekeeping", 1, 1))
            self.assertEqual(self.end(served)[0], 0)

    def test_the_clock(self):
        served, address = self.start("--clock")
        event = packets.decode(self.ask(address, packets.command("NOOP", b"")))
        self.assertGreater(event.field("seconds").value, 1_400_000_000)
        self.assertEqual(self.end(served)[0], 0)

    def test_what_is_no_command(self):
        """A datagram that is longer than any record isn't played, and an empty one is refused by the service."""
        served, address = self.start()
        self.ground.sendto(bytes(40_000), address)
        self.assertEqual(self.ask(address, b"")[12:18], bytes_of("0002 00000050"))
        _, written, said = self.end(served)
        self.assertEqual((len(written), said), (3, b"cfetbl serve: a datagram of 40000 bytes is no command\n"))

    def test_words(self):
        self.assertEqual([call("serve", *it, cwd=self.folder)[0] for it in (
            ["--help"], ["--no"], ["--big-endian"], ["--command-port", "65536"], ["--listen", "192.0.2.1"], ["--script", "nofile"])], [0, 2, 2, 2, 2, 2])
        with open(os.path.join(self.folder, "wrong.txt"), "wb") as script:
            script.write(b"app 1 start A\nground NOPE\n")
        status, _, said = call("serve", "--command-port", "0", "--script", "wrong.txt", cwd=self.folder)
        self.assertEqual((status, "wrong.txt, line 2: " in said), (2, True))


if __name__ == "__main__":
    unittest.main()
