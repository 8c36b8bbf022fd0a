"""Recorded sessions, where they lie beside the repository: there and back as text, and decoded as they say themselves."""
import io
import unittest

from tblkit import records, show, text, transcript

from . import recorded
from .test_text import lines_of, records_of

LONG = 6_000
EVENT = {"number": "number", "status": "status", "row": "row", "detail": "detail"}
HOUSEKEEPING = {
    "accepted": "commands_accepted", "refused": "commands_refused", "tables": "tables_registered", "loads": "open_loads",
    "finished": "validations_finished", "check": "check_word_of_the_last_validated_image", "verdict": "last_verdict",
    "active": "image_of_the_last_validation", "good": "validations_with_verdict_0",
    "bad": "validations_with_another_verdict", "requests": "validate_commands_accepted", "free": "free_shared_buffers",
    "update_seconds": "seconds_of_the_last_update", "update_sub": "subseconds_of_the_last_update",
    "validated": "table_of_the_last_validation", "updated": "table_of_the_last_update", "loaded_file": "last_file_loaded",
    "dumped_file": "last_file_dumped", "loaded": "table_of_the_last_load"}
REGISTRY = {
    "size": "size", "check": "check_word_of_the_last_image", "images": "images",
    "update_seconds": "seconds_of_the_last_update", "update_sub": "subseconds_of_the_last_update", "bits": "state",
    "validator": "validator", "table": "table", "owner": "owner", "file": "last_file_loaded"}
NOTICE = {"code": "function_code", "parameter": "parameter", "check": "checksum"}
FIELDS = {"event": EVENT, "housekeeping": HOUSEKEEPING, "registry": REGISTRY, "notice": NOTICE}


def packet_values(packet):
    """What a recording says of a packet, by the names of the fields here."""
    values = {"kind": packet["kind"], "message_id": int(packet["id"], 16), "sequence_count": packet["count"]}
    if packet["kind"] != "notice":
        values |= {"seconds": packet["seconds"], "subseconds": packet["sub"]}
    for name, ours in FIELDS[packet["kind"]].items():
        values[ours] = int(packet[name], 16) if name == "check" else packet[name]
    return values


def our_values(packet, wanted):
    """The same fields as `cfetbl show` has them. A verdict is told with its sign, and a recording has a detail without."""
    found = {name: packet.get(name) for name in wanted}
    if packet["kind"] == "event":
        found["detail"] %= 1 << 32
    return found


class ThereAndBack(unittest.TestCase):
    """The lines give the same bytes. They are made of the bytes alone, so they too stay the same, there and back."""

    def test_sessions(self):
        seen = set()
        for pack in recorded.packs():
            for case in recorded.sessions(pack):
                if len(case.session) <= LONG:
                    self.assertEqual(records_of(lines_of(case.session)), case.session, (pack, case.name))
                else:
                    self.check_pieces(case, seen)

    def check_pieces(self, case, seen):
        """The same of a long session, piece by piece, each of which is looked at once in all sessions."""
        found = list(records.pieces(io.BytesIO(case.session)))
        self.assertEqual(b"".join(it.content for it in found), case.session, case.name)
        for piece in found:
            if piece.content not in seen:
                seen.add(piece.content)
                self.assertEqual(text.record_of(text.line_of(piece)), piece.content, case.name)


class Decoded(unittest.TestCase):
    def check_answer(self, found, wanted):
        told = show.as_object(found, None)
        if wanted.get("end"):
            self.assertEqual([told[it] for it in ("status", "entries", "place")],
                             [wanted[it] for it in ("status", "count", "offset")])
            return
        self.assertEqual([told[it] for it in ("place", "actor", "status", "status_name", "reply")],
                         [wanted[it] for it in ("place", "actor", "status", "name")] + [wanted["bytes"].upper()])
        self.assertEqual(told["detail"] % (1 << 32), wanted["detail"])
        self.assertEqual(found.record and found.record.request.name, wanted["request"])
        values = [packet_values(it) for it in wanted["packets"]]
        self.assertEqual([our_values(*it) for it in zip(told["packets"], values)], values)

    def test_transcripts(self):
        for pack in recorded.packs():
            for case in recorded.sessions(pack):
                if len(case.output) > LONG or not case.decoded:
                    continue
                index = records.Index(io.BytesIO(case.session))
                found = list(show.answers(transcript.parts(io.BytesIO(case.output)), index))
                self.assertEqual(len(found), len(case.decoded), (pack, case.name))
                for one, wanted in zip(found, case.decoded):
                    with self.subTest(pack=pack, case=case.name, place=wanted.get("place")):
                        self.check_answer(one, wanted)
