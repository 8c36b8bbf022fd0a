"""Transcripts: lines, ends, differences, captures, and what recorded sessions say in their own words."""
import glob
import io
import os
import struct
import unittest

from tblkit import diff, pcap, records, show, text, transcript

from . import recorded
from .test_text import bytes_of, records_of, table

END_OF_NOTHING = bytes_of("FFFFFFFF 00 00000000 00000000")
EXAMPLES = sorted(glob.glob(os.path.join(recorded.TOP, "sessions", "*.session")))


def content_of(name):
    with open(name, "rb") as file:
        return file.read()


def entry(place, actor, status, detail, reply, sent):
    counted = b"".join(len(it).to_bytes(4, "big") + it for it in (reply, sent))
    return place.to_bytes(4, "big") + bytes([actor]) + status.to_bytes(4, "big") + detail + counted


def entries(actors):
    """Entries of these actors that say nothing else."""
    return b"".join(entry(place, actor, 0, bytes(4), b"", b"") for place, actor in enumerate(actors))


def end(status, count, place):
    return b"\xff\xff\xff\xff" + bytes([status]) + count.to_bytes(4, "big") + place.to_bytes(4, "big")


def parts(session, output):
    index = records.Index(io.BytesIO(session)) if session is not None else None
    return list(show.answers(transcript.parts(io.BytesIO(output)), index)), index


def frames_of(capture):
    """The frames of a capture in pcapng, each with its comment. Its section and its interface have 28 and 20 bytes."""
    found, at = [], 28 + 20
    while at < len(capture):
        kind, length, *_, count, whole = struct.unpack(">IIIQII", capture[at:at + 28])
        assert kind == 6 and count == whole and capture[at + length - 4:at + length] == struct.pack(">I", length)
        options = capture[at + 28 + count + -count % 4:at + length - 4]
        code, size = struct.unpack(">HH", options[:4]) if options else (0, 0)
        assert code == (1 if options else 0) and len(options) == (4 + size + -size % 4 + 4 if options else 0)
        found.append((capture[at + 28:at + 28 + count], options[4:4 + size].decode()))
        at += length
    return found


class Lines(unittest.TestCase):
    def test_each_answer(self):
        for line, status, detail, reply, sent, wanted in table("shown.tsv"):
            with self.subTest(line, status=status):
                session = text.record_of(line)
                output = entry(0, session[1], int(status), bytes_of(detail), bytes_of(reply), bytes_of(sent))
                found, _ = parts(session, output + END_OF_NOTHING)
                self.assertEqual("||".join(it.strip() for it in show.lines(found[0])), wanted)

    def test_without_a_session(self):
        output = entry(0, 3, 0, bytes(4), b"", b"") + END_OF_NOTHING
        self.assertEqual(list(show.lines(parts(None, output)[0][0])), ["0 app 3 -> 0 SUCCESS"])

    def test_all_fields(self):
        output = entry(0, 0, 0, bytes(4), b"", bytes_of("0808C0000011 000000000000 0001 00000000 FFFF 00000000"))
        found, _ = parts(records_of(b"ground NOOP"), output)
        self.assertEqual([it.strip() for it in show.lines(found[0], True)], [
            "0 ground NOOP -> 0 SUCCESS", "event", "message id: 0x0808", "sequence flags: 3", "sequence count: 0",
            "length: 17", "seconds: 0", "subseconds: 0", "number: 1 command accepted", "status: 0 SUCCESS", "row: none",
            "function code: 0 NOOP"])


class AnotherOrder(unittest.TestCase):
    """Transcripts in which the actors had their turns in another order than that of the session."""

    SESSION = b"app 1 start A\nground NOOP\napp 1 exit\napp 2 start B\n"
    LENGTH = 24 + 12 + 4 + 24

    def shown(self, actors, *ending):
        found, index = parts(records_of(self.SESSION), entries(actors) + end(*ending))
        return [next(show.lines(it)) for it in found[:-1]] + [show.end_lines(found[-1], index)]

    def test_each_actor_has_its_records_in_order(self):
        for actors, lines in (((2, 1, 0, 1), ("app 2 start B", "app 1 start A", "ground NOOP", "app 1 exit")),
                              ((0, 1, 1, 2), ("ground NOOP", "app 1 start A", "app 1 exit", "app 2 start B"))):
            self.assertEqual(self.shown(actors, 0, 4, self.LENGTH), [
                *(f"{place} {it} -> 0 SUCCESS" for place, it in enumerate(lines)),
                "end: status 0, the work is done; 4 entries; all 64 bytes of the session were played"])

    def test_records_that_were_not_played(self):
        failed = "end: status 7, the store failed while it booted"
        for actors, place, words in (
                ((1, 0), 36, "record 2, at byte 36, wasn't played: kind 21 Exit"),
                ((0, 1), 36, "record 2, at byte 36, wasn't played: kind 21 Exit"),
                ((1, 2), 48, "record 1, at byte 24, is the first that wasn't played: kind 01 Command"),
                ((2, 0), 36, "record 0, at byte 0, is the first that wasn't played: kind 10 Start")):
            with self.subTest(actors):
                self.assertEqual(self.shown(actors, 7, 2, place)[-1], f"{failed}; 2 entries; {words}")

    def test_a_transcript_of_another_session(self):
        self.assertEqual(self.shown((0, 2, 2, 3), 0, 4, 80), [
            "0 ground NOOP -> 0 SUCCESS", "1 app 2 start B -> 0 SUCCESS",
            "2 app 2, whose request isn't in this session -> 0 SUCCESS",
            "3 app 3, whose request isn't in this session -> 0 SUCCESS",
            "end: status 0, the work is done; 4 entries; the records that were played have 80 bytes, and those of this session 36: "
            "the transcript is of another one"])
        self.assertIn("of another one", self.shown((1, 0, 1, 2), 0, 4, self.LENGTH + 1)[-1])

    def test_as_objects(self):
        found, index = parts(records_of(self.SESSION), entries((2, 0, 1, 2)))
        told = [show.as_object(it, index) for it in found[:-1]]
        self.assertEqual([it["line"] for it in told], ["app 2 start B", "ground NOOP", "app 1 start A", None])
        self.assertEqual([it["request"] for it in told], ["Start", "NOOP", "Start", None])

    def test_a_difference_is_of_the_actors_request(self):
        found, _ = parts(records_of(self.SESSION), entries((2, 0, 1, 1)))
        other = entries((2, 0, 1)) + entry(3, 1, 9, bytes(4), b"", b"")
        self.assertEqual(list(diff.lines(found, transcript.parts(io.BytesIO(other))))[0], "entry 3, app 1 exit:")

    def test_a_capture_has_the_commands(self):
        file = io.BytesIO()
        capture = pcap.Capture(file)
        for answer in parts(records_of(self.SESSION), entries((2, 1, 0, 1)))[0][:-1]:
            capture.add(answer)
        (content, words), = frames_of(file.getvalue())
        self.assertEqual((content[28:].hex(), words), ("1804c00000010022", ""))


class Ends(unittest.TestCase):
    def end_of(self, session, ending):
        count = int.from_bytes(bytes_of(ending)[5:9], "big")
        found, index = parts(session, entries([0] * count) + bytes_of(ending))
        return show.end_lines(found[-1], index)

    def test_all_was_played(self):
        self.assertEqual(self.end_of(b"", "FFFFFFFF 00 00000000 00000000"),
                         "end: status 0, the work is done; 0 entries; all 0 bytes of the session were played")

    def test_bad_records(self):
        noop = records_of(b"ground NOOP")
        for bad, words in (("7F000000", "kind 7F, which is none"), ("01010008", "kind 01 Command of actor 1"),
                           ("01008041", "kind 01 Command with a body of 32833 bytes"),
                           ("10010014 410042 00*17", "kind 10 Start with bytes after the name in its field `name`"),
                           ("04000001 03", "kind 04 Reset with the byte 03"),
                           ("0100", "2 bytes, which is less than the head of a record"),
                           ("14010006 0000", "kind 14 cut off: 2 of 6 bytes of its body")):
            with self.subTest(bad):
                self.assertEqual(self.end_of(noop + bytes_of(bad), "FFFFFFFF 05 00000001 0000000C"),
                                 "end: status 5, a record is bad, or the input ends inside one; 1 entry; "
                                 f"record 1, at byte 12, is bad: {words}")

    def test_a_record_that_the_service_does_not_know(self):
        self.assertEqual(self.end_of(records_of(b"app 1 share A.T"), "FFFFFFFF 05 00000000 00000000"),
                         "end: status 5, a record is bad, or the input ends inside one; 0 entries; "
                         "record 0, at byte 0, wasn't played: kind 12 Share")

    def test_transcripts_that_break_off(self):
        whole = content_of(EXAMPLES[0].replace(".session", ".transcript"))
        for end in range(0, len(whole), 3):
            last = parts(None, whole[:end])[0][-1]
            self.assertIsInstance(last, transcript.Broken, end)
        self.assertIsInstance(parts(None, whole + b"\0")[0][-1], transcript.Broken)


class Differences(unittest.TestCase):
    def difference(self, one, other):
        found, _ = parts(None, one)
        return list(diff.lines(found, transcript.parts(io.BytesIO(other))))

    def test_a_changed_byte(self):
        for name in EXAMPLES:
            whole = content_of(name.replace(".session", ".transcript"))
            self.assertEqual(self.difference(whole, whole), [])
            for place in range(0, len(whole), 7):
                changed = whole[:place] + bytes([whole[place] ^ 4]) + whole[place + 1:]
                self.assertGreater(len(self.difference(whole, changed)), 1, (name, place))

    def test_the_field_is_named(self):
        whole = content_of(os.path.join(recorded.TOP, "sessions", "hello.transcript"))
        for place, line in ((8, "  status: 0 SUCCESS | 5 INFO_DUMP_PENDING"), (12, "  detail: 0 | 5"),
                            (21 + 12 + 7, "  packet 1, row: none | 65530"),
                            (45 + 21 + 12 + 20, "  packet 1, free shared buffers: 4 | 1"),
                            (len(whole) - 9, "  end: status 0, the work is done; 2 entries; the records that were played "
                             "have 24 bytes | status 5, a record is bad, or the input ends inside one; 2 entries; the "
                             "records that were played have 24 bytes")):
            changed = whole[:place] + bytes([whole[place] ^ 5]) + whole[place + 1:]
            self.assertEqual(self.difference(whole, changed)[1:], [line])

    def test_bytes_that_are_not_shown(self):
        one, other = (entry(0, 1, 0, bytes(4), bytes(99) + it, b"") for it in (b"\1", b"\2"))
        self.assertEqual(self.difference(one, other), ["entry 0, app 1:", "  byte 99 of the reply bytes: 01 | 02"])

    def test_an_entry_less(self):
        whole = content_of(os.path.join(recorded.TOP, "sessions", "hello.transcript"))
        self.assertEqual(self.difference(whole, whole[:45])[0], "entry 1, ground:")


class Captures(unittest.TestCase):
    def test_what_is_no_packet_and_too_long(self):
        file = io.BytesIO()
        found, _ = parts(None, entry(0, 0, 0, bytes(4), b"", bytes_of("00000000FFFF 00*65536")) + END_OF_NOTHING)
        pcap.Capture(file).add(found[0])
        (content, _), = frames_of(file.getvalue())
        self.assertEqual(len(content), 65535)

    def test_an_event_has_the_table_as_comment(self):
        name = os.path.join(recorded.TOP, "sessions", "table.session")
        found, _ = parts(content_of(name), content_of(name.replace(".session", ".transcript")))
        file = io.BytesIO()
        capture = pcap.Capture(file)
        for answer in found[:-1]:
            capture.add(answer)
        self.assertEqual([words for _, words in frames_of(file.getvalue())], ["row 0 A.T"])

    def test_frames_of_hello(self):
        """The NOOP, its event, the request for housekeeping, the housekeeping packet, each as a datagram."""
        name = os.path.join(recorded.TOP, "sessions", "hello.session")
        found, _ = parts(content_of(name), content_of(name.replace(".session", ".transcript")))
        file = io.BytesIO()
        capture = pcap.Capture(file)
        for answer in found[:-1]:
            capture.add(answer)
        self.assertEqual(file.getvalue()[:48].hex(), "0a0d0d0a0000001c1a2b3c4d00010000ffffffffffffffff0000001c"
                         "00000001" "00000014" "0065" "0000" "0000ffff" "00000014")
        frames = [content for content, _ in frames_of(file.getvalue())]
        self.assertEqual([len(it) for it in frames], [36, 52, 36, 318])
        header = "45000024000000004011f6c5c0000201c0000202" "04d204d200100000"
        self.assertEqual(frames[0].hex(), header + "1804c00000010022")
        self.assertEqual([it[22:24].hex() for it in frames], ["04d2", "04d3", "04d2", "04d3"])
