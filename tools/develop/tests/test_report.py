"""`cfetbl report`: what its picture says of each example, and its words, files and statuses."""
import glob
import io
import json
import os
import tempfile
import unittest

from tblkit import names, programs, records, report, show, states, text, transcript

from . import recorded
from .pages import differences, drawn, packed_in
from .test_commands import TOOLS, call, into_full

EXAMPLES = sorted(glob.glob(os.path.join(recorded.TOP, "sessions", "*.session")))
# An edit of the session that the page of sessions/activation.txt has, in JSON, and what it is found as.
EDITS = (('"status":[0,0,0,1', '"status":[0,0,0,0', "requests"), ('"image","image 2",2]', '"image","image 2",3]', "images"),
         ('"refused":[8,9,10,21]', '"refused":[8,9,10]', "refused lines"), ('"refused":[8,9,10,21]', '"refused":[8,9,21]', "refused requests"),
         ('"activation asked",null]', '"load validated",null]', "activations asked"), ('[23,33,"pin"', '[24,33,"pin"', "addresses got"),
         ('[3,22,"pin"', '[3,23,"pin"', "addresses released"), ('"refusals":[8,9,10,21]', '"refusals":[8,9,10]', "refusals with a table"))
HELLO = os.path.join(recorded.TOP, "sessions", "hello")


def transcript_of(session):
    return session[:-len("session")] + "transcript"


def played(session):
    """The transcript of records that the program plays in a folder of its own, and the page of it."""
    here = os.getcwd()
    with tempfile.TemporaryDirectory() as folder, tempfile.TemporaryFile() as source, tempfile.TemporaryFile() as output:
        source.write(session)
        os.chdir(folder)
        try:
            programs.play(source, output)
        finally:
            os.chdir(here)
        made = report.Report("a session", records.Index(source))
        answers = list(show.answers(transcript.parts(output), records.Index(source)))
        for part in answers:
            made.add(part)
        return answers, made


class Pictures(unittest.TestCase):
    def test_examples(self):
        for session in EXAMPLES:
            with self.subTest(session):
                status, page, said = call("report", session, transcript_of(session))
                self.assertEqual((status, said), (0, ""))
                told = [json.loads(it) for it in call("show", "--json", session, transcript_of(session))[1].splitlines()]
                self.assertEqual(differences(packed_in(page.decode()), told), [])

    def test_what_is_found(self):
        """A picture that says something else of a request or a table."""
        session = os.path.join(recorded.TOP, "sessions", "activation.session")
        page = json.dumps(report.unpacked(call("report", session, transcript_of(session))[1].decode()), separators=(",", ":"))
        told = [json.loads(it) for it in call("show", "--json", session, transcript_of(session))[1].splitlines()]
        for was, is_now, found in EDITS:
            self.assertIn(was, page)
            self.assertIn(found, [it[0] for it in differences(drawn(json.loads(page.replace(was, is_now))), told)], was)

    def test_against_the_registry(self):
        """At the end of each example SEND_REGISTRY tells of each table what the picture has at its right end."""
        for name in EXAMPLES:
            with self.subTest(name), open(name, "rb") as session:
                records_of = session.read()
                tables = played(records_of)[1].timeline.standing
                asked = b"".join(text.record_of(f"ground SEND_REGISTRY {it}") for it in tables)
                answers, made = played(records_of + asked)
                page = packed_in(made.page())
                told = [it.body for answer in answers[-1 - len(tables):-1] for it in answer.packets if it.kind == "registry"]
                self.assertEqual(len(told), len(tables))
                for fields in told:
                    self.check_end(page, {it.name: it for it in fields}, len(answers) - 1)

    def check_end(self, page, said, length):
        own = [it.said for it in page.picture if it.said.get("table") == names.quoted(said["table"].value.encode()) and it.said.get("to") == length]
        images = [it["image"] for it in own if it["kind"] == "image"]
        phases = [it["phase"] for it in own if it["kind"] == "load"]
        self.assertEqual(images, [said["images"].value] if said["images"].value else [])
        bits = said["state"].words.split(" and ")
        self.assertEqual([bool(phases), phases == [states.Load.ASKED.value]], ["load open" in bits, "activation asked" in bits])


class Words(unittest.TestCase):
    def test_plays_the_session(self):
        with tempfile.TemporaryDirectory() as folder:
            done = call("report", "-o", "page.html", HELLO + ".txt", cwd=folder)
            with open(os.path.join(folder, "page.html"), encoding="utf-8") as page:
                found = page.read()
            self.assertEqual(done[:2], (0, b""))
            self.assertEqual(found, call("report", HELLO + ".txt", HELLO + ".transcript")[1].decode())
            self.assertNotIn("http://", found.replace("http://www.w3.org/2000/svg", ""))

    def test_statuses(self):
        self.assertEqual(call("report", "--help")[0], 0)
        self.assertEqual([call("report", *it)[0] for it in ([], ["a", "b", "c"], ["/no/such"], [HELLO + ".transcript"])], [2] * 4)
        self.assertEqual(into_full("report", HELLO + ".txt", HELLO + ".transcript"),
                         (4, "cfetbl report: writing failed: standard output: No space left on device\n"))

    def test_a_page_over_what_is_read(self):
        with tempfile.TemporaryDirectory() as folder:
            session = os.path.join(folder, "session.txt")
            with open(session, "wb") as file:
                file.write(b"ground NOOP\n")
            self.assertEqual(call("report", "-o", session, session, cwd=folder),
                             (2, b"", f"cfetbl report: -o {session} would write over {session}, which is read\n"))
            self.assertEqual(call("map", "-o", session, session, cwd=folder)[0], 2)
            self.assertEqual(os.path.getsize(session), 12)

    def test_another_session(self):
        status, page, said = call("report", HELLO + ".txt", transcript_of(EXAMPLES[0]))
        self.assertEqual((status, page, said), (1, b"", "cfetbl report: the transcript is of another session\n"))

    def test_a_transcript_that_breaks_off(self):
        with open(HELLO + ".transcript", "rb") as file:
            status, page, said = call("report", HELLO + ".txt", "-", given=file.read()[:100])
        self.assertEqual((status, said), (1, "cfetbl report: the transcript breaks off inside an entry; the page has 1 of the 2 requests of the session\n"))
        self.assertIn(b"broken: the transcript breaks off", page)

    def test_how_far_it_is(self):
        """By what the program has read of the session, and then by the requests that are in the page."""
        with open(HELLO + ".session", "rb") as session:
            progress = report.Progress(session, records.Index(session))
            os.lseek(session.fileno(), 12, os.SEEK_SET)
            self.assertEqual(progress.words(), "12 of 24 bytes of the session were played")
            progress.done = 1
            self.assertEqual(progress.words(), "1 of 2 requests are in the page")
            # (the end record comes after the last of them)
            progress.done = 3
            self.assertEqual(progress.words(), "2 of 2 requests are in the page")

    def test_a_bad_record(self):
        with tempfile.TemporaryDirectory() as folder:
            status, page, _ = call("report", "-", given=bytes.fromhex("010000081804C00000010022 7F000000"), cwd=folder)
        self.assertEqual(status, 5)
        self.assertIn(b"record 1, at byte 12, is bad", page)


if __name__ == "__main__":
    unittest.main()
