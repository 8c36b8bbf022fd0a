"""`cfetbl text`, `show` and `explain` as they are called: statuses, what is written and said, and what memory a long session takes."""
import contextlib
import json
import os
import pty
import resource
import shutil
import subprocess
import sys
import tempfile
import unittest

from . import recorded

TOOLS, DEVELOP = (os.path.join(recorded.TOP, "tools", it) for it in ("command", "develop"))
# What words of the command line come after.
COMMAND = (sys.executable, os.path.join(TOOLS, "cfetbl"))
HELLO = os.path.join(recorded.TOP, "sessions", "hello")
MANY = 1500
LARGE = 32830
MEMORY = 64 << 20


def call(*words, given=b"", **more):
    """Calls the command line with words and standard input: its status, what it wrote, and what it said."""
    done = subprocess.run([*COMMAND, *words], input=given, capture_output=True, **more)
    return done.returncode, done.stdout, done.stderr.decode()


def in_terminal(command, given=b"", **more):
    """What is seen at a terminal that a command has as its streams, once it has ended."""
    ours, theirs = pty.openpty()
    with subprocess.Popen(command, stdin=theirs, stdout=theirs, stderr=theirs, env=os.environ | {"TERM": "dumb"}, **more) as run:
        os.close(theirs)
        os.write(ours, given)
        seen = b""
        with contextlib.suppress(OSError):
            while content := os.read(ours, 4096):
                seen += content
        run.wait()
    os.close(ours)
    return seen.decode()


def into_full(*words, given=b""):
    with open("/dev/full", "wb") as full:
        done = subprocess.run([*COMMAND, *words], input=given, stdout=full, stderr=subprocess.PIPE)
    return done.returncode, done.stderr.decode()


class Text(unittest.TestCase):
    def test_there_and_back(self):
        status, session, said = call("text", given=b"ground NOOP\n")
        self.assertEqual((status, session.hex(), said), (0, "010000081804c00000010022", ""))
        self.assertEqual(call("text", "--back", given=session), (0, b"ground NOOP\n", ""))

    def test_a_wrong_line_writes_nothing(self):
        status, written, said = call("text", "-", given=b"ground NOOP\nground NOPE\n")
        self.assertEqual((status, written), (1, b""))
        self.assertEqual(said, """\
<stdin>:2:8: expected a command, or packet, found NOPE; did you mean NOOP?
    ground NOPE
           ^
    allowed here: NOOP RESET_COUNTERS LOAD DUMP VALIDATE ACTIVATE DUMP_REGISTRY SEND_REGISTRY
      DELETE_CDS ABORT_LOAD HOUSEKEEPING packet
""")

    def test_statuses(self):
        self.assertEqual(call("text", HELLO + ".txt")[0], 0)
        self.assertEqual([call("text", *it)[0] for it in (["a", "b"], ["--no"], ["/no/such/file"], [TOOLS])], [2] * 4)
        self.assertEqual(call("text", "--help")[0], 0)

    def test_a_write_that_fails(self):
        failed = "cfetbl text: writing failed: standard output: No space left on device\n"
        self.assertEqual(into_full("text", given=b"ground NOOP"), (4, failed))
        self.assertEqual(into_full("text", "--back", HELLO + ".session"), (4, failed))
        self.assertEqual(into_full("text", "--help"), (4, failed))

    def test_standard_error_that_takes_nothing(self):
        with open("/dev/full", "wb") as full:
            for given, status in ((b"ground NOPE", 1), (b"\x7fELF", 2)):
                self.assertEqual(subprocess.run([*COMMAND, "text"], input=given, stderr=full, check=False).returncode, status)
        closed = subprocess.run(["bash", "-c", 'echo ground NOPE | "$0" "$@" 2>&-', *COMMAND, "text"], capture_output=True)
        self.assertEqual((closed.returncode, closed.stdout), (1, b""))

    def test_a_file_of_another_kind(self):
        for name, words in (("hello.session", "a session as records: `cfetbl play --show NAME` plays it, and `cfetbl text --back NAME` "
                             "writes it as text"), ("hello.transcript", "a transcript: `cfetbl show SESSION NAME` prints it")):
            path = os.path.join(os.path.dirname(HELLO), name)
            self.assertEqual(call("text", path), (2, b"", f"cfetbl text: {path} is {words.replace('NAME', path)}\n"))

    def test_the_kind_of_a_file(self):
        for name, words in (("hello.txt", b"text"), ("hello.session", b"records")):
            self.assertEqual(call("text", "--kind", os.path.join(os.path.dirname(HELLO), name))[:2], (0, words + b"\n"))
        self.assertIn(b"is a transcript: ", call("text", "--kind", HELLO + ".transcript")[1])


class Show(unittest.TestCase):
    def test_text_or_records_as_session(self):
        shown = [call("show", HELLO + end, HELLO + ".transcript") for end in (".session", ".txt")]
        self.assertEqual(shown[0], shown[1])
        self.assertEqual(shown[0], (0, b"""\
0 ground NOOP -> 0 SUCCESS
      event 1 command accepted: function code 0 NOOP
1 ground HOUSEKEEPING -> 0 SUCCESS
      housekeeping: commands accepted 1, free shared buffers 4
end: status 0, the work is done; 2 entries; all 24 bytes of the session were played
""", ""))

    def test_standard_input(self):
        with open(HELLO + ".transcript", "rb") as file:
            given = file.read()
        self.assertEqual(call("show", HELLO + ".session", "-", given=given)[1].count(b"\n"), 5)
        self.assertEqual(call("show", given=given)[1].splitlines()[-1],
                         b"end: status 0, the work is done; 2 entries; the records that were played have 24 bytes")
        self.assertEqual(call("show", "--end", given=given)[1].count(b"\n"), 1)

    def test_json(self):
        status, written, _ = call("show", "--json", HELLO + ".session", HELLO + ".transcript")
        told = [json.loads(it) for it in written.splitlines()]
        self.assertEqual([it.get("request") for it in told], ["NOOP", "HOUSEKEEPING", None])
        self.assertEqual(told[0]["packets"], [{
            "kind": "event", "message_id": 0x0808, "sequence_flags": 3, "sequence_count": 0, "length": 17, "seconds": 0,
            "subseconds": 0, "number": 1, "status": 0, "row": 0xFFFF, "detail": 0, "detail_name": "function_code"}])
        self.assertEqual([told[2][it] for it in ("end", "status", "entries", "place")], [True, 0, 2, 24])

    def test_a_capture(self):
        with tempfile.TemporaryDirectory() as folder:
            name = os.path.join(folder, "capture.pcap")
            self.assertEqual(call("show", "--pcap", name, HELLO + ".session", HELLO + ".transcript"), (0, b"", ""))
            self.assertEqual(os.path.getsize(name), 28 + 20 + 4 * 32 + 36 + 52 + 36 + 320)

    def test_a_capture_over_what_is_read(self):
        with tempfile.TemporaryDirectory() as folder:
            session, other = os.path.join(folder, "s"), os.path.join(folder, "t")
            for path, end in ((session, ".session"), (other, ".transcript")):
                shutil.copy(HELLO + end, path)
            os.symlink(session, os.path.join(folder, "link"))
            for written, over in ((session, session), (other, other), (os.path.join(folder, "link"), session)):
                self.assertEqual(call("show", "--pcap", written, session, other),
                                 (2, b"", f"cfetbl show: --pcap {written} would write over {over}, which is read\n"))
            self.assertEqual([os.path.getsize(it) for it in (session, other)], [24, 369])

    def test_a_capture_of_what_breaks_off(self):
        with tempfile.TemporaryDirectory() as folder:
            name = os.path.join(folder, "capture")
            with open(HELLO + ".transcript", "rb") as file:
                status, written, said = call("show", "--pcap", name, given=file.read()[:100])
            self.assertEqual((status, written), (1, b""))
            self.assertEqual(said, f"cfetbl show: the transcript breaks off inside an entry; {name} has what came before\n")
        self.assertEqual(call("show", "--pcap", "/dev/full", HELLO + ".transcript")[::2],
                         (4, "cfetbl show: writing failed: /dev/full: No space left on device\n"))

    def test_what_is_no_transcript(self):
        for name, words in (("hello.txt", "a session as text: `cfetbl play --show NAME` plays it, and `cfetbl text NAME` writes its records"),
                            ("hello.session", "a session as records: `cfetbl play --show NAME` plays it, and `cfetbl text --back NAME` "
                             "writes it as text")):
            path = os.path.join(os.path.dirname(HELLO), name)
            self.assertEqual(call("show", HELLO + ".txt", path),
                             (1, b"", f"cfetbl show: no transcript: {path} is {words.replace('NAME', path)}\n"))
        self.assertEqual(call("show", given=b"\x7fELF"),
                         (1, b"", "cfetbl show: no transcript: standard input is neither text nor records\n"))

    def test_what_is_no_session(self):
        status, written, said = call("show", HELLO + ".transcript", HELLO + ".session")
        self.assertEqual((status, written), (2, b""))
        self.assertIn(".transcript is a transcript: ", said)

    def test_statuses(self):
        whole = HELLO + ".transcript"
        self.assertEqual(call("show", whole, "--diff", whole)[:2], (0, b"no difference\n"))
        other = HELLO.replace("hello", "table") + ".transcript"
        self.assertEqual(call("show", whole, "--diff", other)[0], 1)
        self.assertEqual(call("show", given=b"\0")[0], 1)
        self.assertEqual([call("show", *it)[0] for it in (["a", "b", "c"], ["--no"], ["/no/such"], [TOOLS])], [2] * 4)
        self.assertEqual(call("show", "--help")[0], 0)
        self.assertEqual(into_full("show", whole), (4, "cfetbl show: writing failed: standard output: No space left on device\n"))

    def test_a_wrong_text_as_session(self):
        with tempfile.NamedTemporaryFile() as file:
            file.write(b"ground NOPE")
            file.flush()
            status, written, said = call("show", file.name, HELLO + ".transcript")
        self.assertEqual((status, written), (2, b""))
        self.assertIn(f"{file.name}:1:8: expected a command, or packet, found NOPE", said)


class Explain(unittest.TestCase):
    NOT_VALIDATED = b"""\
status 66 ERR_NOT_VALIDATED
  in cFE: CFE_TBL_UNVALIDATED_ERR_EID
  means: the load wasn't validated since it last changed
  when: an ACTIVATE
  to do: send VALIDATE of the inactive image, have the owner finish it by Validate or Manage with
         verdict 0, and send ACTIVATE again; a further LOAD takes the mark away
"""

    def firsts(self, *words):
        """The first lines of what is told."""
        status, written, said = call("explain", *words)
        self.assertEqual((status, said), (0, ""))
        return [it.split("\n")[0] for it in written.decode().split("\n\n")]

    def test_a_number_or_a_name(self):
        for word in ("66", "ERR_NOT_VALIDATED", "not_validated"):
            self.assertEqual(call("explain", word), (0, self.NOT_VALIDATED, ""))
        self.assertEqual(self.firsts("5"), ["status 5 INFO_DUMP_PENDING", "event 5 image went active",
                                            "run 5 a record is bad, or the input ends inside one"])
        self.assertEqual(self.firsts("event", "5"), ["event 5 image went active"])
        self.assertEqual(self.firsts("run", "7"), ["run 7 the store failed while it booted"])
        self.assertEqual(self.firsts("command", "refused"), ["event 2 command refused"])
        self.assertEqual(self.firsts("past"), ["status 56 ERR_PAST_END"])

    def test_all(self):
        lines = call("explain")[1].decode().splitlines()
        self.assertEqual((lines[0], lines[91], lines[92]), (
            "status 0 SUCCESS", "run 13 the service has no room for the request", "CFE_SUCCESS: status 0 SUCCESS"))
        self.assertIn("CFE_PLATFORM_TBL_MAX_NUM_TABLES: 128", lines)

    def test_words_of_cfe(self):
        for word, here, told in (
                ("CFE_TBL_ERR_NEVER_LOADED", "status 60 ERR_NEVER_LOADED", "a call returns it"),
                ("cfe_tbl_file_access_err_eid", "status 46 ERR_FILE_NOT_FOUND", "it is sent as a command is refused"),
                ("CFE_TBL_NOOP_INF_EID", "event 1 command accepted", "its function code is 0, a NOOP"),
                ("CFE_TBL_LOAD_CC", "command 2 LOAD", "the image bytes of a table file"),
                ("CFE_TBL_SEND_HK_MID", "message 0x180C request for housekeeping", ""),
                ("CFE_TBL_Manage", "request 0x18 Manage", "the line `app N manage HANDLE`"),
                ("CFE_TBL_OPT_CRITICAL", "0x0008", "the word `critical`"),
                ("CFE_PLATFORM_TBL_MAX_NUM_TABLES", "128", "tables; one more is answered with 42 ERR_REGISTRY_FULL"),
                ("MAX_NUM_TABLES", "128", "tables; one more"),
                ("CFE_TBL_INIT_INF_EID", "none", "the service sends nothing as it starts")):
            with self.subTest(word):
                status, written, said = call("explain", word)
                self.assertEqual((status, said), (0, ""))
                self.assertIn(f"  here: {here}\n", written.decode())
                self.assertIn(told, written.decode())
        self.assertEqual(self.firsts("CFE_TBL_ERR_NEVER_LOADED"), ["CFE_TBL_ERR_NEVER_LOADED", "status 60 ERR_NEVER_LOADED"])
        self.assertEqual(self.firsts("CFE_TBL_Load"), ["CFE_TBL_Load"] * 2)
        self.assertIn(b"in cFE: CFE_TBL_ERR_PARTIAL_LOAD, CFE_TBL_PARTIAL_LOAD_ERR_EID", call("explain", "54")[1])

    def test_what_is_not_known(self):
        for words, said in ((["99"], "is called 99; without a word it lists the numbers and names of all"),
                            (["NOTVALIDATED"], "is called NOTVALIDATED; did you mean ERR_NOT_VALIDATED?"),
                            (["CFE_TBL_ERR_NEVR_LOADED"], "; did you mean CFE_TBL_ERR_NEVER_LOADED or"),
                            (["event", "4"], "is called 4; ")):
            status, written, error = call("explain", *words)
            self.assertEqual((status, written), (2, b""))
            self.assertIn(said, error)
        self.assertEqual(into_full("explain", "66"),
                         (4, "cfetbl explain: writing failed: standard output: No space left on device\n"))


class Memory(unittest.TestCase):
    """A session of 49 MB in 64 MB of address space, of which Python takes some 30: it never stands in memory whole."""

    def limited(self, *words, given, into):
        def limit():
            resource.setrlimit(resource.RLIMIT_AS, (MEMORY, MEMORY))
        with open(given, "rb") as source, open(into, "wb") as written:
            subprocess.run([*COMMAND, *words], stdin=source, stdout=written, preexec_fn=limit, check=True)

    def test_a_long_session(self):
        line = b"app 1 load 0 hex " + bytes(range(256)).hex().upper().encode() * (LARGE // 256) + b"\n"
        with tempfile.TemporaryDirectory() as folder:
            lines, session, back, output, shown = (os.path.join(folder, it) for it in ("l.txt", "s", "b", "t", "o"))
            with open(lines, "wb") as file:
                file.writelines([line] * MANY)
            self.limited("text", given=lines, into=session)
            self.assertEqual(os.path.getsize(session), MANY * (4 + 2 + LARGE // 256 * 256))
            self.limited("text", "--back", given=session, into=back)
            self.assertEqual(os.path.getsize(back), MANY * len(line))
            with open(output, "wb") as file:
                for place in range(MANY):
                    file.write(place.to_bytes(4, "big") + b"\1" + bytes(16))
                file.write(b"\xff\xff\xff\xff\0" + MANY.to_bytes(4, "big") + os.path.getsize(session).to_bytes(4, "big"))
            self.limited("show", session, "-", given=output, into=shown)
            with open(shown, "rb") as file:
                self.assertEqual(sum(1 for _ in file), MANY + 1)


if __name__ == "__main__":
    unittest.main()
