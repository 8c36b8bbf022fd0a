"""`cfetbl serve --cfe-layout` as a ground system sees cFE's table task: commands as senders of cFS make them, each of cFE's events with
its number, type and text, and what of it is as on cFE's bus."""
import contextlib
import os
import re
import socket
import struct
import time
import unittest
from unittest import mock

from tblkit import files, ground, live, locks, show, text

from . import cosmos, xtce
from .test_commands import call
from .test_serve import WAIT, Service

SCRIPT = """\
app 1 start APP
app 1 register LIMITS size 4 validator 0
app 1 register PLAIN size 4
app 1 register STATS size 4 dump-only
app 1 register TWO size 4 double
app 1 load 0 hex 01020304
app 1 load 1 hex 01020304
"""
LITTLE, BIG = "<", ">"
DEBUG, INFORMATION, ERROR = 1, 2, 3
# The message ids of cFE's default configuration and of cFS's lab applications, of commands and of telemetry, without the table task's own.
OTHERS = (0x1801, 0x1803, 0x1805, 0x1806, 0x1808, 0x1809, 0x180B, 0x180D, 0x180E, 0x1810, 0x1811, 0x1860, 0x1862, 0x1880, 0x1881, 0x1882, 0x1884, 0x1885,
          0x0800, 0x0801, 0x0803, 0x0804, 0x0805, 0x0806, 0x0808, 0x0809, 0x080A, 0x080B, 0x080C, 0x080D, 0x080E, 0x0810)


def cmd_util(code, payload=b"", message=0x1804, checksum=None):
    """A packet as cFS-GroundSystem's cmdUtil makes it: big-endian primary header, and a checksum, or the one that is given."""
    packet = bytearray(struct.pack(">HHHBB", message, 0xC000, len(payload) + 1, code, 0) + payload)
    packet[7] = 0xFF if checksum is None else checksum
    for byte in packet[:7] + packet[8:] if checksum is None else b"":
        packet[7] ^= byte
    return bytes(packet)


def yamcs(packet, count):
    """A packet of a definition in XTCE as a link of Yamcs sends it: its post-processor puts count, length and checksum in."""
    packet = bytearray(packet)
    packet[2:6] = struct.pack(">HH", 0xC000 | count, len(packet) - 7)
    packet[7] = 0
    for byte in bytes(packet):
        packet[7] ^= byte
    packet[7] ^= 0xFF
    return bytes(packet)


def named(order, *parts):
    """A payload: numbers of two bytes, and names with the bytes of their fields."""
    return b"".join(struct.pack(f"{order}H", it) if isinstance(it, int) else it[0].encode().ljust(it[1], b"\0") for it in parts)


def table(name):
    return (name, 40)


def file(name):
    return (name, 64)


def event_of(packet, order):
    """The fields of a long event packet, by cFE's header: its count, then those of the payload."""
    message, count, length = struct.unpack(">HHH", packet[:6])
    app, number, kind, spacecraft, processor, words, spares = struct.unpack(f"{order}20sHHII122s2s", packet[16:])
    if (message, length, spares, packet[12:16]) != (0x0808, len(packet) - 7, bytes(2), bytes(4)) or (spacecraft, processor) != (66, 1):
        raise AssertionError(packet)
    return count & 0x3FFF, app.rstrip(b"\0").decode(), number, kind, words.split(b"\0")[0].decode()


class Task(Service):
    """A service like cFE's table task."""

    def begin(self, *words, order=LITTLE, script=SCRIPT):
        with open(os.path.join(self.folder, "task.txt"), "w", encoding="ascii") as lines:
            lines.write(script)
        self.order = order
        more = ["--big-endian"] if order == BIG else []
        served, self.address = self.start("--cfe-layout", "--script", "task.txt", "--socket", os.path.join(self.folder, "calls"), *more, *words)
        return served

    def line(self, *lines):
        return self.call_lines(os.path.join(self.folder, "calls"), *lines)

    def send(self, code, *parts, **more):
        self.ground.sendto(cmd_util(code, named(self.order, *parts), **more), self.address)

    def take(self):
        return self.ground.recv(4096)

    def event(self):
        """Number, type and text of the next packet, which is an event of the table task."""
        _, app, *told = event_of(self.take(), self.order)
        self.assertEqual(app, "CFE_TBL")
        return tuple(told)

    def housekeeping(self):
        """The payload of housekeeping by cFE's header, after the packets that come before it."""
        self.send(0, message=0x180C)
        while (packet := self.take())[:2] != b"\x08\x04":
            pass
        return struct.unpack(f"{self.order}BBHHHIiB40sBBBBBxxIII40s64s64s40s", packet[16:])

    def put(self, name, content=bytes([5, 6, 7, 8]), of="APP.PLAIN", **more):
        """Uplinks a table file."""
        self.line(f"file {name} hex {files.table_file(content, {'table': of.encode()} | more).hex()}")


class Events(Task):
    def test_what_is_accepted(self):
        self.begin("--debug-events")
        self.assertEqual([self.event() for _ in range(2)], [(35, DEBUG, "Successfully loaded 'APP.LIMITS' from 'Addr 0x00000000'"),
                                                             (35, DEBUG, "Successfully loaded 'APP.PLAIN' from 'Addr 0x00000000'")])
        self.send(0)
        self.assertEqual(self.event()[:2], (10, INFORMATION))
        self.send(1)
        self.assertEqual(self.event(), (11, DEBUG, "Reset Counters command"))
        self.put("/plain")
        self.send(2, file("/plain"))
        self.assertEqual(self.event(), (12, INFORMATION, "Successful load of '/plain' into 'APP.PLAIN' working buffer"))
        self.send(4, 0, table("APP.PLAIN"))
        self.assertEqual(self.event(), (23, INFORMATION, "Tbl Services assumes 'APP.PLAIN' is valid. No validation function has been registered"))
        self.send(5, table("APP.PLAIN"))
        self.assertEqual(self.event(), (17, DEBUG, "Tbl Services notifying App that 'APP.PLAIN' has a load pending"))
        self.line("app 1 manage 1")
        self.assertEqual(self.event(), (37, INFORMATION, "APP Successfully Updated 'APP.PLAIN'"))
        self.send(3, 1, table("APP.PLAIN"), file("/dump"))
        self.assertEqual(self.event(), (14, INFORMATION, "Successfully dumped Table 'APP.PLAIN' to '/dump'"))
        self.send(3, 1, table("APP.PLAIN"), file("/dump"))
        self.assertEqual(self.event(), (13, INFORMATION, "Successfully overwrote '/dump' with Table 'APP.PLAIN'"))
        self.send(6, file(""))
        self.assertEqual(self.event(), (22, DEBUG, "Successfully dumped Table Registry to '/ram/cfe_tbl_reg.log':Size=640,Entries=4"))
        self.send(6, file("/ram/cfe_tbl_reg.log"))
        self.assertEqual(self.event(), (15, DEBUG, "Successfully overwrote '/ram/cfe_tbl_reg.log' with Table Registry:Size=640,Entries=4"))
        self.send(7, table("APP.TWO"))
        self.assertEqual(self.event(), (18, DEBUG, "Table Registry entry for 'APP.TWO' will be telemetered"))
        self.assertEqual(self.take()[:2], b"\x08\x0C")
        self.line("app 1 load 1 hex 01010101")
        self.assertEqual(self.event(), (35, INFORMATION, "Successfully loaded 'APP.PLAIN' from 'Addr 0x00000000'"))
        self.line("app 1 load-file 1 /dump")
        self.assertEqual(self.event(), (35, INFORMATION, "Successfully loaded 'APP.PLAIN' from '/dump'"))
        self.line("app 2 start CDS", "app 2 register B size 4 critical", "app 2 unregister 4")
        self.send(8, table("CDS.B"))
        self.assertEqual(self.event(), (38, INFORMATION, "Successfully removed 'CDS.B' from CDS"))

    def test_validations(self):
        """The owner's function accepts what doesn't begin with a zero byte."""
        self.begin("--debug-events", order=BIG)
        self.take(), self.take()
        for content, verdict in ((bytes([0, 1, 2, 3]), -5), (bytes([9, 1, 2, 3]), 0)):
            self.put("/l", content, "APP.LIMITS")
            self.send(2, file("/l"))
            self.send(4, 0, table("APP.LIMITS"))
            self.assertEqual([self.event()[0] for _ in range(2)], [12, 16])
            self.line("app 1 validate 0")
            self.assertEqual(self.event(), (36, INFORMATION, "APP validation successful for Inactive 'APP.LIMITS'") if verdict == 0 else
                             (96, ERROR, "APP validation failed for Inactive 'APP.LIMITS', Status=0xFFFFFFFB"))
            counts = self.housekeeping()
            self.assertEqual((counts[6], counts[9:12]), (verdict, (0, 1, 1) if verdict else (1, 1, 2)))
        self.send(4, 1, table("APP.LIMITS"))
        self.send(4, 0, table("APP.LIMITS"))
        self.assertEqual([self.event() for _ in range(2)], [(16, DEBUG, "Tbl Services issued validation request for 'APP.LIMITS'")] * 2)
        self.line("app 1 manage 0")
        self.assertEqual([self.event() for _ in range(2)], [(36, INFORMATION, f"APP validation successful for {it} 'APP.LIMITS'")
                                                             for it in ("Active", "Inactive")])
        self.send(9, table("APP.LIMITS"))
        self.assertEqual(self.event(), (21, INFORMATION, "Table Load Aborted for 'APP.LIMITS'"))
        self.line("app 1 load 0 hex 00000000")
        self.assertEqual(self.event()[:2], (93, ERROR))

    def test_what_is_refused(self):
        self.begin()
        self.put("/stats", of="APP.STATS")
        self.put("/other", of="APP.OTHER")
        self.put("/part", b"\1", of="APP.TWO")
        self.put("/past", bytes(4), of="APP.PLAIN", offset=1)
        self.put("/zero", b"", of="APP.PLAIN")
        self.put("/many", bytes(4), of="APP.PLAIN", **{"image bytes": 3})
        self.put("/few", bytes(4), of="APP.PLAIN", **{"image bytes": 5})
        self.put("/type", content=bytes(4), subtype=9)
        self.line("file /short hex 00", f"file /header hex {files.table_file(b'', {})[:100].hex()}",
                  f"file /content hex {(bytes(4) + files.table_file(b'', {})[4:]).hex()}")
        loads = {
            "/none": (53, "Unable to open file '/none' for table load, Status = 46"),
            "/short": (54, "Unable to read std header for '/short', Status = 0x0000002F"),
            "/content": (58, "File '/content' is not a cFE file type, ContentType = 0x00000000"),
            "/type": (59, "File subtype for '/type' is wrong. Subtype = 0x00000009"), "/header": (55, "Unable to read tbl header for '/header', Status = 0x00000032"),
            "/other": (57, "Unable to locate 'APP.OTHER' in Table Registry"), "/stats": (79, "Attempted to load DUMP-ONLY table 'APP.STATS' from '/stats'"),
            "/part": (74, "'/part' has partial load for uninitialized table 'APP.TWO'"), "/past": (72, "Cannot load '/past' (4) at offset 1 in 'APP.PLAIN' (4)"),
            "/zero": (73, "Table Hdr in '/zero' indicates no data in file"), "/many": (75, "File '/many' has more data than Tbl Hdr indicates (3)"),
            "/few": (71, "Incomplete load of '/few' into 'APP.PLAIN' working buffer")}
        for name, (number, said) in loads.items():
            self.send(2, file(name))
            self.assertEqual(self.event(), (number, ERROR, said))
        none = "APP.NONE"
        for (code, *parts), number, said in (
                ((4, 0, table(none)), 57, f"Unable to locate '{none}' in Table Registry"), ((7, table(none)), 57, f"Unable to locate '{none}' in Table Registry"),
                ((4, 0, table("APP.PLAIN")), 66, "No Inactive Buffer for Table 'APP.PLAIN' present"),
                ((3, 0, table("APP.PLAIN"), file("/d")), 66, "No Inactive Buffer for Table 'APP.PLAIN' present"),
                ((5, table("APP.PLAIN")), 70, "Cannot activate table 'APP.PLAIN'. No Inactive image available"),
                ((9, table("APP.PLAIN")), 69, "Cannot abort load of 'APP.PLAIN'. No load started."),
                ((4, 7, table("APP.PLAIN")), 80, "Cmd for Table 'APP.PLAIN' had illegal buffer parameter (0x00000007)"),
                ((5, table("APP.STATS")), 78, "Illegal attempt to activate dump-only table 'APP.STATS'"),
                ((8, table("APP.PLAIN")), 82, "'APP.PLAIN' found in Table Registry. CDS cannot be deleted until table is unregistered"),
                ((8, table(none)), 84, f"Table '{none}' is not found in Critical Table Registry"),
                ((3, 1, table("APP.PLAIN"), file("")), 62, "Error creating dump file '', Status=0x00000054"),
                ((2, file("")), 53, "Unable to open file '' for table load, Status = 84"),
                ((3, 1, table("APP.TWO"), file("/d")), 61, "Internal Error (Status=0x0000003C)"),
                ((10,), 51, "Invalid command code -- ID = 0x1804, CC = 10"), ((0, file("")), 52, "Invalid msg length: ID = 0x1804, CC = 0, Len = 72, Expected = 8"),
                ((2,), 52, "Invalid msg length: ID = 0x1804, CC = 2, Len = 8, Expected = 72")):
            self.send(code, *parts)
            self.assertEqual(self.event(), (number, ERROR, said))
        self.ground.sendto(cmd_util(0)[:4] + b"\0\2" + cmd_util(0)[6:], self.address)
        self.assertEqual(self.event()[0], 52)
        self.assertEqual(self.housekeeping()[:2], (0, 29))

    def test_dumps_of_a_dump_only_table(self):
        self.begin()
        for number, said in ((14, "Successfully dumped Table 'APP.STATS' to '/s'"), (13, "Successfully overwrote '/s' with Table 'APP.STATS'")):
            self.send(3, 1, table("APP.STATS"), file("/s"))
            self.send(3, 1, table("APP.STATS"), file("/again"))
            self.assertEqual(self.event(), (77, ERROR, "A dump for 'APP.STATS' is already pending"))
            self.line("app 1 dump-to-buffer 2")
            self.send(0, message=0x180C)
            self.assertEqual(self.event(), (number, INFORMATION, said))
            self.take()

    def test_loads_that_wait(self):
        self.begin()
        self.put("/plain")
        self.send(2, file("/plain"))
        self.send(5, table("APP.PLAIN"))
        self.assertEqual([self.event()[0], self.event()], [12, (81, ERROR, "Cannot activate table 'APP.PLAIN'. Inactive image not Validated")])
        self.send(4, 0, table("APP.PLAIN"))
        self.send(5, table("APP.PLAIN"))
        self.send(2, file("/plain"))
        self.assertEqual([self.event()[0], self.event()], [23, (88, ERROR, "Attempted to load table 'APP.PLAIN' while previous load is still pending")])
        script = "".join(f"app 2 register T{it} size 1\nfile /t{it} table B.T{it} hex 01\n" for it in range(4))
        self.line("app 2 start B", *script.splitlines())
        for number in range(4):
            self.send(2, file(f"/t{number}"))
        self.assertEqual([self.event()[0] for _ in range(3)], [12] * 3)
        self.assertEqual(self.event(), (60, ERROR, "No working buffers available for table 'B.T3'"))
        self.send(3, 1, table("APP.STATS"), file("/s"))
        self.assertEqual(self.event(), (76, ERROR, "Too many Dump Only Table Dumps have been requested"))


class AsOnTheBus(Task):
    def test_message_ids_of_others(self):
        """They are counted nowhere, as what is too short to be a packet."""
        self.begin()
        for message in OTHERS:
            self.send(0, message=message)
        self.ground.sendto(cmd_util(0)[:7], self.address)
        self.ground.sendto(b"", self.address)
        self.assertEqual(self.housekeeping()[:3], (0, 0, 4))
        self.send(0)
        self.assertEqual((self.event()[0], self.housekeeping()[:2]), (10, (1, 0)))

    def test_senders(self):
        """cmdUtil with and without a checksum, Yamcs and COSMOS are understood in both byte orders."""
        for order, more in ((LITTLE, []), (BIG, ["--big-endian"])):
            served = self.begin(order=order)
            known = xtce.Definition(call("xtce", "--cfe-layout", *more)[1])
            target = cosmos.Definition(call("cosmos", "--cfe-layout", *more)[1].decode())
            payload = named(order, 1, table("APP.PLAIN"), file("/d"))
            packets = [cmd_util(3, payload), cmd_util(3, payload, checksum=0)]
            packets += [yamcs(known.encode("DUMP", {"select": 1, "table": "APP.PLAIN", "file": "/d"}), it) for it in (0, 16_383)]
            packets += [target.encode("DUMP", {"SELECT": 1, "TABLE": "APP.PLAIN", "FILE": "/d"})]
            for number, packet in enumerate(packets):
                self.ground.sendto(packet, self.address)
                self.assertEqual(self.event()[0], 13 if number else 14)
            self.assertEqual(self.end(served)[0], 0)

    def test_any_checksum_in_the_own_layouts(self):
        """What the definitions of COSMOS leave 0 is taken, where it is asked for."""
        packet = cosmos.Definition(call("cosmos")[1].decode()).encode("NOOP", {})
        for words, number in ((["--any-checksum"], 1), ([], 2)):
            served, address = self.start(*words)
            self.assertEqual(self.ask(address, packet)[12:14], bytes([0, number]))
            self.end(served)

    def test_debug_events_and_counts(self):
        """Events of type DEBUG aren't sent, and leave no gap in the counts, of which each message id has its own from 1 on."""
        served = self.begin()
        for code in (1, 0, 1, 0):
            self.send(code)
        self.send(0, message=0x180C)
        found = [self.take() for _ in range(3)]
        self.assertEqual([event_of(it, LITTLE)[::2][:2] for it in found[:2]], [(1, 10), (2, 10)])
        self.assertEqual((found[2][:4], found[2][16:18]), (bytes.fromhex("0804C001"), b"\1\0"))
        self.line("reset processor")
        self.send(0)
        self.assertEqual(event_of(self.take(), LITTLE)[0], 1)
        self.end(served)

    def test_the_time(self):
        """It begins as cFE's does and runs on, or runs on from what a line sets."""
        self.begin()
        begun = time.monotonic()
        self.send(0)
        first = int.from_bytes(self.take()[6:10], "big")
        self.assertLessEqual(1_001_000, first)
        time.sleep(1.1)
        self.send(0)
        self.assertLessEqual(first + 1, int.from_bytes(self.take()[6:10], "big"))
        self.line("time 5000 0")
        self.send(0)
        self.assertIn(int.from_bytes(self.take()[6:10], "big") - 5000, range(int(time.monotonic() - begun) + 1))

    def test_validations_without_a_function(self):
        """They are no requests to applications, and a reset of the counters counts on from 0."""
        self.begin()
        for _ in range(2):
            self.send(4, 1, table("APP.PLAIN"))
            self.assertEqual((self.event()[0], self.housekeeping()[9:12]), (23, (1, 0, 0)))
            self.send(1)

    def test_numbers_of_a_header(self):
        header = os.path.join(self.folder, "cfe_tbl_eventids.h")
        with open(header, "w", encoding="ascii") as lines:
            lines.write("/* of a mission */\n#define CFE_TBL_NOOP_INF_EID   110\n#  define CFE_TBL_CC1_ERR_EID (0x151)\n#define CFE_TBL_OTHER 7\n")
        served = self.begin("--event-ids", header)
        for code, number in ((0, 110), (10, 0x151), (2, 52)):
            self.send(code)
            self.assertEqual(self.event()[0], number)
        self.end(served)
        for tool, wanted in (("xtce", b'value="110" label="CFE_TBL_NOOP_INF_EID"'), ("cosmos", b"STATE CFE_TBL_NOOP_INF_EID 110\n")):
            self.assertIn(wanted, call(tool, "--cfe-layout", "--event-ids", header)[1])
            self.assertEqual([call(tool, *it)[0] for it in (["--event-ids", header], ["--cfe-layout", "--event-ids", "no-such"])], [2, 2])
        with open(header, "w", encoding="ascii") as lines:
            lines.write("#define CFE_TBL_OTHER 7\n")
        for words in (["--cfe-layout", "--event-ids", header], ["--event-ids", header], ["--debug-events"], ["--cfe-layout", "--event-ids", "no-such"]):
            self.assertEqual(call("serve", "--command-port", "0", *words, cwd=self.folder)[0], 2)

    def test_play_gives_the_same_answers(self):
        """What standard output tells is a session: `play` of its lines tells the same."""
        served = self.begin("--debug-events", "--manage", "0.05")
        self.put("/plain")
        for code, *parts in ((2, file("/plain")), (4, 0, table("APP.PLAIN")), (5, table("APP.PLAIN")), (3, 1, table("APP.PLAIN"), file("/d")),
                             (11,), (7, table("APP.TWO"))):
            self.send(code, *parts)
        for _ in range(10):
            self.take()
        _, written, _ = self.end(served)
        lines = [re.match(r"\d+ (.*?) -> ", it)[1] for it in written[:-1] if it[0] != " "]
        run = live.Running(self.folder, ("--store", os.path.join(self.folder, "fresh.store")))
        played = [told for it in lines for answer in run.ask(text.record_of(it)) for told in show.lines(answer)]
        run.finish()
        self.assertEqual(played, written[:-1])


class Living(Task):
    """What lives behind it: a folder of files, owners that manage their tables, and a scheduler."""

    def setUp(self):
        super().setUp()
        self.cf = os.path.join(self.folder, "cf")
        os.mkdir(self.cf)

    def write(self, name, content):
        with open(os.path.join(self.folder, name), "wb") as made:
            made.write(content)

    def read(self, name):
        with open(os.path.join(self.folder, name), "rb") as found:
            return found.read()

    def test_files_both_ways(self):
        self.begin("--files", "cf")
        os.mkdir(os.path.join(self.cf, "below"))
        for name, image in (("cf/plain.tbl", bytes([5, 6, 7, 8])), ("cf/below/plain.tbl", bytes([9, 9, 9, 9]))):
            self.write(name, files.table_file(image, {"table": b"APP.PLAIN"}))
            self.send(2, file(f"/{name}"))
            self.assertEqual(self.event(), (12, INFORMATION, f"Successful load of '/{name}' into 'APP.PLAIN' working buffer"))
            self.send(3, 0, table("APP.PLAIN"), file(f"/{name}.new"))
            self.assertEqual(self.event()[:2], (14, INFORMATION))
            self.assertEqual(self.read(f"{name}.new")[116:], image)
        self.write("cf/there", b"before")
        self.send(3, 0, table("APP.PLAIN"), file("/cf/there"))
        self.assertEqual((self.event()[0], self.read("cf/there")[116:]), (13, bytes([9, 9, 9, 9])))
        self.write("cf/plain.tbl", b"changed")
        self.send(2, file("/cf/plain.tbl"))
        self.assertEqual(self.event()[0], 54)
        self.line("app 1 load-file 1 /cf/there")
        self.assertEqual(sorted(os.listdir(self.cf)), ["below", "plain.tbl", "plain.tbl.new", "there"])

    def test_nothing_outside(self):
        """Neither `..` nor links lead out, and pipes, folders and long files are none that are taken."""
        served = self.begin("--files", "cf")
        self.write("outside", files.table_file(bytes(4), {"table": b"APP.PLAIN"}))
        self.write("cf/long", bytes(32_769))
        os.symlink(os.path.join(self.folder, "outside"), os.path.join(self.cf, "link"))
        os.symlink(self.folder, os.path.join(self.cf, "up"))
        os.mkfifo(os.path.join(self.cf, "pipe"))
        names = ("/cf/../outside", "/cf/link", "/cf/up/outside", "/cf/pipe", "/cf/.", "/cf/", "/cf//outside", "/cf/long", "/outside", "/cf/no")
        for name in names:
            self.send(2, file(name))
            self.assertEqual(self.event()[:2], (53, ERROR), name)
        for name in names[:1] + names[2:3] + names[4:7]:
            self.send(3, 1, table("APP.PLAIN"), file(name))
            self.assertEqual(self.event()[0], 14)
        self.send(3, 1, table("APP.PLAIN"), file("/cf/link"))
        self.assertEqual(self.event()[0], 14)
        self.assertEqual(self.housekeeping()[:2], (6, 10))
        self.assertEqual(self.read("outside")[116:], bytes(4))
        self.assertEqual((os.path.islink(os.path.join(self.cf, "link")), self.read("cf/link")[116:]), (False, bytes([1, 2, 3, 4])))
        self.assertEqual(sorted(os.listdir(self.folder)), ["calls", "cds.store", "cf", "outside", "script.txt", "task.txt"])
        _, _, said = self.end(served)
        self.assertEqual((said.count(b"isn't taken from the folder"), said.count(b"isn't written")), (9, 5))

    def test_owners_and_a_scheduler(self):
        self.begin("--manage", "0.05", "--housekeeping", "0.2")
        self.put("/l", bytes([9, 1, 2, 3]), "APP.LIMITS")
        self.send(2, file("/l"))
        self.send(4, 0, table("APP.LIMITS"))
        self.send(3, 1, table("APP.STATS"), file("/s"))
        found, packet = [], b""
        while 36 not in found or 14 not in found:
            packet = self.take()
            found += [event_of(packet, self.order)[2]] if packet[:2] == b"\x08\x08" else []
        self.send(5, table("APP.LIMITS"))
        while 37 not in found:
            packet = self.take()
            found += [event_of(packet, self.order)[2]] if packet[:2] == b"\x08\x08" else []
        counts = [it for it in (self.take() for _ in range(4)) if it[:2] == b"\x08\x04"]
        self.assertEqual(([it for it in found if it != 14], {it[16:18] for it in counts}), ([12, 36, 37], {b"\4\0"}))
        for words in (["--manage", "0"], ["--housekeeping", "x"], ["--manage", "nan"], ["--files", "no-such"]):
            self.assertEqual(call("serve", "--command-port", "0", *words, cwd=self.folder)[0], 2)

    def test_calls(self):
        served, path = self.begin(), os.path.join(self.folder, "calls")
        status, written, said = call("call", path, "app 1 get-status 0", "ground NOOP")
        self.assertEqual((status, re.sub(r"(?m)^\d+ |, sequence.*", "", written.decode()), said), (
            0, "app 1 get-status 0 -> 0 SUCCESS\nground NOOP -> 0 SUCCESS\n      event 1 command accepted: function code 0 NOOP\n", ""))
        self.assertEqual(call("call", path, given=b"# nothing\n\napp 1 get-status 9\n")[0], 0)
        status, written, _ = call("call", path, "ground NOPE", "ground NOOP")
        self.assertEqual((status, b"did you mean NOOP?" in written, b"ground NOOP -> 0" in written), (1, True, True))
        self.assertEqual([call("call", *it)[0] for it in ([], ["--help"], [self.folder + "/no"], [self.folder], ["x" * 200, "a"])], [2, 0, 2, 2, 2])
        served.kill()
        served.wait()
        self.assertEqual(call("call", path, "ground NOOP")[0], 2)


class Load(Task):
    def test_a_burst(self):
        """3,000 commands as fast as they can be sent are all played, in their order."""
        served = self.begin("--quiet")
        for _ in range(3000):
            self.ground.sendto(cmd_util(0), self.address)
        self.assertEqual(self.housekeeping()[:2], (3000 % 256, 0))
        status, written, said = self.end(served)
        self.assertEqual((status, said, len(written)), (0, b"", 1))

    def test_what_is_dropped_is_told(self):
        """What waits is bounded, by its number and by its bytes, and so is what is taken at once."""
        for bound, most in (("MOST_WAITING", 3), ("MOST_BYTES", 30)):
            said = []
            with contextlib.ExitStack() as closing, mock.patch.object(ground, bound, most), mock.patch.object(ground, "AT_ONCE", 4):
                inbox = ground.Inbox(closing, "127.0.0.1", 0, said.append)
                for number in range(5):
                    self.ground.sendto(bytes([number]) * 10, inbox.address)
                inbox.drain()
                self.assertEqual([inbox.next()[0] for _ in range(len(inbox))], [0, 1, 2])
                inbox.drain()
                self.assertEqual(inbox.next()[0], 4)
                inbox.tell_dropped()
                inbox.tell_dropped()
            self.assertEqual(said, ["commands were dropped, since they came faster than they could be kept: 1, 1 in all"])

    def test_what_the_system_drops_is_told(self):
        said = []
        with contextlib.ExitStack() as closing, mock.patch.object(ground, "ROOM", 1), mock.patch.object(ground, "SO_RCVBUFFORCE", socket.SO_RCVBUF):
            inbox = ground.Inbox(closing, "127.0.0.1", 0, said.append)
            for _ in range(200):
                self.ground.sendto(bytes(100), inbox.address)
            inbox.drain()
            kept = len(inbox)
            inbox.tell_dropped()
        self.assertEqual(said, [f"commands were dropped, since they came faster than they could be kept: {200 - kept}, {200 - kept} in all"])

    def test_a_kill_and_a_restart(self):
        """The next service takes the ports, the socket and the store of one that was killed at once."""
        served = self.begin()
        self.line("app 1 register KEPT size 4 critical", "app 1 load 4 hex 01020304")
        served.kill()
        served.wait()
        self.wait_for_store()
        words = ["--command-port", str(self.address[1])]
        again = self.begin(*words, script="app 1 start APP\napp 1 register KEPT size 4 critical\n")
        self.send(0)
        self.assertEqual(self.event()[0], 10)
        self.assertIn("bytes 01020304", self.line("app 1 get 0", "app 1 read 0 at 0 length 4")[-1])
        self.assertEqual(self.end(again)[0], 0)

    def wait_for_store(self):
        """The killed service's program ends by itself once its input ends, which may take a moment on a busy machine."""
        until = time.monotonic() + WAIT
        while locks.in_use(os.path.join(self.folder, "cds.store")) and time.monotonic() < until:
            time.sleep(0.01)


if __name__ == "__main__":
    unittest.main()
