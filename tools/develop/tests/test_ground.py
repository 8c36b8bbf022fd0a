"""What ground systems are given: definitions in XTCE and for COSMOS, and packets in cFE's layouts."""
import glob
import os
import shutil
import subprocess
import tempfile
import unittest
from xml.etree import ElementTree

from tblkit import cfe, dictionary, names, packets, records, show, text, transcript

from . import cosmos, recorded, xtce
from .test_commands import call, into_full
from .test_text import bytes_of

EXAMPLES = sorted(glob.glob(os.path.join(recorded.TOP, "sessions", "*.session")))
# The commands of docs/reference/packets.md with their bytes, and what is asked of a reader of definitions.
COMMANDS = (
    ("1804 C000 0001 00 22", "NOOP", {}), ("1804 C000 0001 01 23", "RESET_COUNTERS", {}), ("180C C000 0001 00 2A", "HOUSEKEEPING", {}),
    ("1804 C000 0041 02 2B 2F72616D2F612E74626C 00*54", "LOAD", {"file": "/ram/a.tbl"}),
    ("1804 C000 002B 04 37 0000 412E54 00*37", "VALIDATE", {"select": 0, "table": "A.T"}),
    ("1804 C000 0029 05 34 412E54 00*37", "ACTIVATE", {"table": "A.T"}),
    ("1804 C000 0029 08 39 412E54 00*37", "DELETE_CDS", {"table": "A.T"}),
    ("1804 C000 006B 03 3F 0001 412E54 00*37 2F72616D2F642E74626C 00*54", "DUMP", {"select": 1, "table": "A.T", "file": "/ram/d.tbl"}))
CHECKSUM = 7
# Fields of cFE's housekeeping and registry packets, and those here that say the same.
SAME = {"commandcounter": "commands_accepted", "commanderrorcounter": "commands_refused", "numtables": "tables_registered",
        "numloadpending": "open_loads", "validationcounter": "validations_finished", "lastvalstatus": "last_verdict",
        "lastvalcrc": "check_word_of_the_last_validated_image", "lastvaltablename": "table_of_the_last_validation",
        "numfreesharedbufs": "free_shared_buffers", "lastupdatetime_seconds": "seconds_of_the_last_update",
        "lastupdatedtable": "table_of_the_last_update", "lastfileloaded": "last_file_loaded", "lasttableloaded": "table_of_the_last_load",
        "lastfiledumped": "last_file_dumped", "size": "size", "crc": "check_word_of_the_last_image", "name": "table", "owner": "owner",
        "timeoflastupdate_seconds": "seconds_of_the_last_update", "seconds": "seconds"}
STATE = {"tableloadedonce": 0x01, "loadpending": 0x02, "dumponly": 0x04, "doublebuffered": 0x08, "critical": 0x10}


def answers(session):
    with open(session, "rb") as records_of, open(session[:-len("session")] + "transcript", "rb") as output:
        yield from (it for it in show.answers(transcript.parts(output), records.Index(records_of)) if isinstance(it, show.Answer))


def sent():
    """Each packet that the service sends in the examples, with the object of `--json` and the tables that are known then."""
    for session in EXAMPLES:
        for answer in answers(session):
            yield from zip(answer.packets, show.as_object(answer, None)["packets"], [answer.view] * len(answer.packets))


def plain(values):
    """Values by the names that they have without that of their container. A verdict is the detail of its event."""
    found = {}
    for name, value in values.items():
        for kind in ("event_verdict_", "event_detail_", "packet_", "housekeeping_", "event_", "registry_", "notice_"):
            name = name.removeprefix(kind)
        found["detail" if name == "verdict" else name] = value
    return found


def told(packet):
    return {key: value for key, value in packet.items() if key not in ("kind", "detail_name", "table" if packet["kind"] == "event" else "")}


class Definitions(unittest.TestCase):
    def test_every_packet_of_the_examples(self):
        readers = {"xtce": xtce.Definition(call("xtce")[1]), "cosmos": cosmos.Definition(call("cosmos")[1].decode())}
        count = 0
        for packet, wanted, _ in sent():
            _, found = readers["xtce"].decode(packet.content)
            self.assertEqual(plain(found), told(wanted))
            _, found = readers["cosmos"].decode(packet.content)
            self.assertEqual(plain({key.lower(): value for key, value in found.items()}), told(wanted))
            count += 1
        self.assertGreater(count, 100)

    def test_every_command(self):
        known = xtce.Definition(call("xtce")[1])
        target = cosmos.Definition(call("cosmos")[1].decode())
        for digits, name, arguments in COMMANDS:
            wanted = bytearray(bytes_of(digits))
            wanted[CHECKSUM] = 0
            self.assertEqual(known.encode(name, arguments), bytes(wanted))
            self.assertEqual(target.encode(name, {key.upper(): value for key, value in arguments.items()}), bytes(wanted))
        self.assertEqual(set(known.commands), {it.name for it in names.named("command").values()} | {"HOUSEKEEPING"})
        self.assertEqual(set(target.commands), set(known.commands))

    def test_what_ground_systems_build_on(self):
        """An abstract command with the headers, a place for each entry, words on each command, and a container of another database."""
        root = ElementTree.fromstring(call("xtce", "--base", "/CCSDS/tm")[1])
        commands = list(root.iter(xtce.SPACE + "MetaCommand"))
        self.assertEqual([it.get("name") for it in commands if it.get("abstract") == "true"], ["command"])
        bases = [it.find(xtce.SPACE + "BaseMetaCommand") for it in commands[1:]]
        self.assertEqual({it.get("metaCommandRef") for it in bases}, {"command"})
        said = {it.get("name"): it.get("shortDescription") for it in commands}
        self.assertEqual(said["ACTIVATE"], "the load of a table is asked to go active")
        self.assertEqual(len(set(said.values())), len(commands))
        entries = [it for listed in root.iter(xtce.SPACE + "EntryList") for it in listed]
        self.assertEqual({it.find(xtce.SPACE + "LocationInContainerInBits").get("referenceLocation") for it in entries}, {"containerStart"})
        containers = {it.get("name"): it.find(xtce.SPACE + "BaseContainer") for it in root.iter(xtce.SPACE + "SequenceContainer")}
        self.assertEqual((containers["packet"].get("containerRef"), containers["event"].get("containerRef")), ("/CCSDS/tm", "packet"))
        reader = xtce.Definition(call("xtce", "--base", "/CCSDS/tm")[1])
        packet = bytes_of("0808 C000 0011 00000000 0000 0001 00000000 FFFF 00000000")
        self.assertEqual(reader.decode(packet)[1]["packet_message_id"], 0x0808)

    def test_words(self):
        self.assertEqual(call("cosmos", "--base", "a")[0], 2)
        for tool in ("xtce", "cosmos"):
            self.assertEqual([call(tool, *it)[0] for it in (["--help"], ["--no"], ["--big-endian"], ["a"])], [0, 2, 2, 2])
            self.assertEqual(into_full(tool)[0], 4)


def sent_as_cfe(order):
    """What a ground system with cFE's layouts gets in the examples, with the objects of `--json` of the packets that it is of."""
    for session in EXAMPLES:
        sender = cfe.Sender(order, is_debug=True)
        for answer in answers(session):
            told = [it for it in show.as_object(answer, None)["packets"] if it["kind"] != "notice"]
            got = list(sender.packets(answer))
            # (of what a dump, a registry dump and a validation without a function tell, cFE sends one event)
            yield from zip(got, told[len(told) - len(got):])


class LayoutsOfCfe(unittest.TestCase):
    def test_every_packet_of_the_examples(self):
        for order, more in ((cfe.LITTLE, []), (cfe.BIG, ["--big-endian"])):
            reader = xtce.Definition(call("xtce", "--cfe-layout", *more)[1])
            target = cosmos.Definition(call("cosmos", "--cfe-layout", *more)[1].decode())
            kinds = []
            for content, wanted in sent_as_cfe(order):
                kind, found = reader.decode(content)
                self.assertEqual(kind, wanted["kind"])
                self.check(plain(found), wanted)
                self.check(plain({key.lower(): it for key, it in target.decode(content)[1].items()}), wanted)
                kinds.append(kind)
            self.assertGreater(min(kinds.count(it) for it in dictionary.TELEMETRY), 1)

    def check(self, found, wanted):
        self.assertEqual({key: found[key] for key, ours in SAME.items() if key in found and ours in wanted},
                         {key: wanted[ours] for key, ours in SAME.items() if key in found and ours in wanted})
        if wanted["kind"] == "registry":
            self.assertEqual({key: found[key] for key in STATE}, {key: int(bool(wanted["state"] & bit)) for key, bit in STATE.items()})
        if wanted["kind"] == "event":
            self.assertEqual([found["packetid_appname"], found["packetid_eventtype"] == 3], ["CFE_TBL", wanted["status"] != 0])

    def answer(self, line, status, sent):
        """The answer to a line, that sent these packets."""
        entry = transcript.Entry(bytes(4) + bytes([0]) + status.to_bytes(4, "big") + bytes(4), b"", b"".join(sent))
        return show.Answer(entry, records.Piece(0, text.record_of(line)))

    def test_by_hand(self):
        """A refused command as a long event packet, and a request for housekeeping, byte by byte."""
        event = bytes_of("0808 C001 0011 00000064 8000 0002 00000041 FFFF 00000000")
        message = b"Cannot activate table 'A.T'. No Inactive image available".ljust(122, b"\0")
        sender = cfe.Sender()
        self.assertEqual(list(sender.packets(self.answer("ground ACTIVATE A.T", 65, [event]))), [bytes_of(
            "0808 C001 00A5 00000064 8000 00000000 4346455F54424C 00*13 4600 0300 42000000 01000000") + message + bytes(2)])
        body = "04 00 0001 0000 0001 00009C2B 00000000 00 01 00 01 04 000000 00000064 8000"
        housekeeping = bytes_of(f"0804 C000 011B 00000064 0000 {body} 412E54 00*37 412E54 00*37 2F61 00*62 00*64 412E54 00*37")
        self.assertEqual(list(sender.packets(self.answer("ground HOUSEKEEPING", 0, [housekeeping]))), [bytes_of(
            "0804 C001 0125 00000064 0000 00000000 04 00 0100 0000 0100 2B9C0000 00000000 00 412E54 00*37 01 00 01 04 00 0000 00000000"
            " 64000000 00000080 412E54 00*37 2F61 00*62 00*64 412E54 00*37")])

    def test_a_registry_dump_without_a_name(self):
        """It has the platform's default name, and its checksum is as right as before."""
        named = cfe.command(packets.command("DUMP_REGISTRY", bytes(64), 7))
        self.assertEqual((named[8:], packets.command_name(named)), (b"/ram/cfe_tbl_reg.log".ljust(64, b"\0"), "DUMP_REGISTRY"))
        self.assertEqual(named[:7], packets.command("DUMP_REGISTRY", bytes(64), 7)[:7])

    def test_commands(self):
        for digits, name, arguments in COMMANDS:
            packet = bytes_of(digits)
            encoded = bytearray(xtce.Definition(call("xtce", "--cfe-layout")[1]).encode(name, arguments))
            encoded[CHECKSUM] = packet[CHECKSUM]
            self.assertEqual(cfe.command(bytes(encoded)), packet)
            self.assertEqual(cfe.command(packet, cfe.BIG), packet)
        self.assertEqual([cfe.command(it) for it in (b"", b"\x18\x04\xc0", bytes_of("1804 C000 0002 04 33 01"))],
                         [b"", b"\x18\x04\xc0", bytes_of("1804 C000 0002 04 33 01")])

    @unittest.skipUnless(shutil.which("cc"), "there is no C compiler")
    def test_places_as_a_compiler_has_them(self):
        with tempfile.TemporaryDirectory() as folder:
            program = os.path.join(folder, "layouts")
            subprocess.run(["cc", "-o", program, os.path.join(os.path.dirname(__file__), "cfe_layouts.c")], check=True)
            *lines, sizes = subprocess.run([program], stdout=subprocess.PIPE, text=True, check=True).stdout.splitlines()
        found = {(kind, field): (int(place), int(width)) for kind, field, place, width in (it.split() for it in lines)}
        ours = {(kind, it.name): (it.place, it.width) for kind in dictionary.TELEMETRY for it in names.fields(cfe.owner_of(kind))
                if it.name != "Alignment"}
        self.assertEqual(ours, found)
        self.assertEqual([names.size_of(cfe.owner_of(it)) for it in dictionary.TELEMETRY], [int(it) for it in sizes.split()[1:]])


if __name__ == "__main__":
    unittest.main()
