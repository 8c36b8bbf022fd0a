"""The tables and handles that stand before each request, and the order in which the answers of threads are shown."""
import io
import os
import tempfile
import unittest

from tblkit import content, names, order, records, show, text, transcript

from . import recorded
from .test_show import END_OF_NOTHING, entry, parts
from .test_text import bytes_of, table

EVENT = "0808C0000011 000000000000 0005 00000000 {:04X} 00000001"


def answers(session, turns):
    """The answers to the lines of a session as these have their turns: line, status, detail, reply bytes and packets of each."""
    output = b"".join(entry(place, text.record_of(line)[1], status, detail.to_bytes(4, "big"), bytes_of(reply), bytes_of(sent))
                      for place, (line, status, detail, reply, sent) in enumerate(turns))
    found, _ = parts(b"".join(map(text.record_of, session)), output + END_OF_NOTHING)
    return found


class Named(unittest.TestCase):
    START = [("app 1 start A", 0, 0, "", ""), ("app 2 start B", 0, 0, "", ""), ("app 1 register T size 4", 0, 0, "", ""),
             ("app 2 register U size 4", 2, 1, "", ""), ("app 2 share A.T", 0, 2, "", "")]

    def lines_after(self, *turns):
        """The lines of these turns after the first ones, without the requests."""
        turns = self.START + list(turns)
        found = [it for answer in answers([line for line, *_ in turns], turns)[:-1] for it in show.lines(answer)]
        return [it.strip().partition(" -> ")[2] or it.strip() for it in found[len(self.START):]]

    def test_an_event_and_a_read(self):
        self.assertEqual(self.lines_after(("app 2 load 1 empty", 0, 0, "", EVENT.format(1)), ("app 2 read 2 at 0 length 1", 0, 0, "07", "")),
                         ["0 SUCCESS", "event 5 image went active: row 1 B.U, images 1", "0 SUCCESS, row 0 A.T, bytes 07"])

    def test_the_rows_of_used_buffers(self):
        self.assertEqual(self.lines_after(("app 1 load 0 empty", 57, 0, "00 01 02 03", "")),
                         ["57 ERR_NO_BUFFER_AVAIL, rows 0 A.T, 1 B.U, 2, 3"])

    def test_a_wrong_handle(self):
        self.assertEqual(self.lines_after(("app 2 get 7", 33, 0, "", ""), ("app 1 get 1", 34, 0, "", ""), ("app 3 get 1", 33, 0, "", "")),
                         ["33 ERR_INVALID_HANDLE, app 2 has the handles 1 B.U, 2 A.T (of app 1)",
                          "34 ERR_NO_ACCESS, app 1 has the handle 0 A.T", "33 ERR_INVALID_HANDLE, app 3 has no handle"])

    def test_a_table_that_is_gone(self):
        self.assertEqual(self.lines_after(("app 1 unregister 0", 0, 0, "", ""), ("app 2 get 2", 35, 0, "", ""),
                                          ("app 1 register V size 1", 17, 0, "", ""), ("app 1 load 0 empty", 0, 0, "", EVENT.format(0)))[1:],
                         ["35 ERR_UNREGISTERED, app 2 has the handles 1 B.U, 2 (its table is gone)",
                          "17 WARN_NOT_CRITICAL, handle 0", "0 SUCCESS", "event 5 image went active: row 0 A.V, images 1"])

    def test_an_application_that_ended(self):
        self.assertEqual(self.lines_after(("app 1 exit", 0, 0, "", ""), ("app 2 read 2 at 0 length 1", 0, 0, "07", ""),
                                          ("app 2 unregister 2", 0, 0, "", ""), ("app 2 get 2", 33, 0, "", ""))[1:],
                         ["0 SUCCESS, bytes 07", "0 SUCCESS", "33 ERR_INVALID_HANDLE, app 2 has the handle 1 B.U"])

    def test_resets(self):
        for line, status, name in (("reset processor", 0, "A.T"), ("reset power-on", 0, ".T"), ("app 1 cds-delete 0", 10, "A.T")):
            with self.subTest(line):
                self.assertEqual(self.lines_after((line, status, 0, "", ""), ("app 1 get 0", 33, 0, "", ""),
                                                  ("app 1 register T size 4", 0, 0, "", ""), ("app 1 load 0 empty", 0, 0, "", EVENT.format(0)))[1:],
                                 ["33 ERR_INVALID_HANDLE, app 1 has no handle", "0 SUCCESS, handle 0", "0 SUCCESS",
                                  f"event 5 image went active: row 0 {name}, images 1"])

    def test_many_handles(self):
        rows = [("app 3 share A.T", 0, number, "", "") for number in range(3, 21)]
        self.assertEqual(self.lines_after(*rows, ("app 3 get 0", 34, 0, "", ""))[-1],
                         "34 ERR_NO_ACCESS, app 3 has the handles " + ", ".join(f"{it} A.T (of app 1)" for it in range(3, 19)) + ", and 2 more")

    def test_as_objects(self):
        turns = self.START + [("app 1 load 0 empty", 0, 0, "", EVENT.format(0)), ("app 2 read 2 at 0 length 1", 0, 0, "07", "")]
        told = [show.as_object(it, None) for it in answers([line for line, *_ in turns], turns)[:-1]]
        self.assertEqual([it.get("table") for it in told[-2:]], [None, "A.T"])
        self.assertEqual([(it["row"], it["table"]) for it in told[-2]["packets"]], [(0, "A.T")])

    def test_nothing_is_named_without_the_session(self):
        output = entry(0, 1, 33, bytes(4), b"", bytes_of(EVENT.format(0))) + END_OF_NOTHING
        self.assertEqual(list(show.lines(parts(None, output)[0][0])),
                         ["0 app 1 -> 33 ERR_INVALID_HANDLE", "      event 5 image went active: row 0, images 1"])

    def test_recorded_sessions(self):
        """Where a command names a table, its event's row is that table's; and a handle that isn't given is refused with 33."""
        for case in (it for pack in recorded.packs() for it in recorded.sessions(pack)):
            index = records.Index(io.BytesIO(case.session))
            for answer in show.answers(transcript.parts(io.BytesIO(case.output)), index):
                if isinstance(answer, show.Answer) and answer.record is not None:
                    self.check(answer, (case.pack, case.name, answer.line()))

    def check(self, answer, place):
        if answer.status == 33:
            self.assertIsNone(answer.handle(), place)
        field = next((it for it in names.fields(answer.request or "") if it.name == "table" and answer.actor == 0), None)
        for row in (it.field("row") for it in answer.packets if it.kind == "event" and field):
            if row.words != "none":
                self.assertEqual(answer.view.rows.get(row.value), names.quoted(names.name_in(field.of(answer.record.body[8:]))), place)


class SessionOrder(unittest.TestCase):
    def test_each_order(self):
        for session, turns, wanted in table("order.tsv"):
            with self.subTest(session, turns=turns):
                parted = [it.partition(" -> ") for it in session.split("||")]
                lines = [line for line, _, _ in parted]
                played = [self.turn(*parted[int(it)]) for it in turns.split()]
                found = list(order.in_session_order(answers(lines, played)))
                self.assertEqual([it.line() for it in found[:-1]], [lines[int(it)] for it in wanted.split()])
                self.assertIsInstance(found[-1], transcript.End)

    @staticmethod
    def turn(line, _, said):
        status, detail, *sent = said.split() + ["0"] * (2 - len(said.split()))
        return line, int(status), int(detail), "", EVENT.format(0xFFFF) if sent else ""


class Kinds(unittest.TestCase):
    def test_each_kind(self):
        for front, kind in table("kinds.tsv"):
            with self.subTest(front):
                given = bytes_of(front[4:]) if front.startswith("hex ") else front.encode().replace(b"|", b"\n")
                self.assertIs(content.kind_of(given), content.Kind[kind])

    def test_what_is_said_of_each(self):
        for kind, words in table("said.tsv"):
            with self.subTest(kind):
                self.assertEqual(content.Kind[kind].said_of("F", b"\x7fELF\0\1\2\3\4"), words)
        self.assertEqual([kind for kind, _ in table("said.tsv")], [it.name for it in content.Kind])
        self.assertEqual(content.Kind.STORE.said_of("-", b""), "standard input is a store file")

    def test_each_example(self):
        folder = os.path.join(recorded.TOP, "sessions")
        for name in (it for it in os.listdir(folder) if "." in it):
            with open(os.path.join(folder, name), "rb") as file:
                kind = content.kind_of(content.front_of(file))
            self.assertIs(kind, {"txt": content.Kind.TEXT, "session": content.Kind.RECORDS,
                                 "transcript": content.Kind.TRANSCRIPT}[name.rpartition(".")[2]], name)
