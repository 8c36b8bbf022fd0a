"""`cfetbl crash-test`: what it makes of the reports of a program, and how it ends. The reports are those of a stand-in; tools/develop/check-c and
tools/develop/gate/check-install try programs."""
import json
import os
import re
import shutil
import tempfile
import unittest

from tblkit import crashes

from .test_commands import call

ELEMENT = re.compile(r'data-write="(\d+)" data-from="(\d+)" data-to="(\d+)" data-outcome="([^"]*)"')
TEXT = ["crash test over the service's own store: the scenario makes 3 calls, with 3 writes to the Critical Data Store",
        "tried: 80 resets in writes, 1 at the end; the restart was called 40 times, in 0.10 s", "1. a reset in write 1, after 0 to 9 of 63 bytes (10 of them)"]


def place(write, first, last, length, **more):
    return {"write": write, "first": first, "last": last, "length": length, "at": 145, "places": length, "call": 2, "name": "CFE_TBL_Load",
            "line": "app.c:31 (APP_Save)", "what": "image of APP.T"} | more


def finding(kind, outcome, where, why="", **more):
    return {"kind": kind, "outcome": outcome, "count": where["last"] - where["first"] + 1, "place": where, "returned": "CFE_TBL_ERR_NEVER_LOADED",
            "answers": "CFE_TBL_Register: CFE_SUCCESS, CFE_TBL_GetAddress: CFE_TBL_ERR_NEVER_LOADED", "why": why} | more


def report(*findings, **more):
    """A report of three writes."""
    writes = [place(1, 0, 0, 63, what="entry of APP.T"), place(2, 0, 0, 16), place(3, 0, 0, 1, what="turn byte of APP.T")]
    counts = ("calls", "tried", "resets", "ends", "faults", "second_resets", "power_ons", "restarts", "failed", "milliseconds")
    return {"whole": True, "like_cfe": False, **dict.fromkeys(counts, 3), "message": "", "writes": writes, "findings": list(findings)} | more


FOUND = report(
    finding("reset", "not up", place(1, 0, 9, 63)), finding("reset", "broken", place(1, 20, 62, 63), "mode 3 and step <1> don't fit"),
    finding("reset", "hangs", place(2, 0, 4, 16), "the restart didn't return within 5000 ms"),
    finding("reset", "dies", place(2, 9, 15, 16), "the restart was ended by signal 11 (Segmentation fault)"),
    finding("fault", "broken", place(2, 3, 3, 16), "other"), finding("end", "broken", place(4, 0, 0, 0), "at last"),
    finding("second reset", "broken", place(3, 0, 0, 1), "twice", second=place(1, 2, 5, 16)))


def reports():
    """Two tests: one with each kind of finding, and one without."""
    return [crashes.read(FOUND, TEXT), crashes.read(report(like_cfe=True), [*TEXT[:2], "no finding"])]


class Page(unittest.TestCase):
    def test_each_byte_has_its_bar(self):
        page = crashes.html("app_test", reports())
        spans = {}
        for write, first, last, outcome in ELEMENT.findall(page):
            spans.setdefault(int(write), []).append((int(first), int(last), outcome))
        self.assertEqual(spans[1][:3], [(0, 9, "not up"), (10, 19, "holds"), (20, 62, "broken")])
        self.assertEqual(spans[2][:3], [(0, 4, "hangs"), (5, 8, "holds"), (9, 15, "dies")])
        # Both tests have the same writes.
        self.assertEqual({write: sum(last - first + 1 for first, last, _ in it) for write, it in spans.items()}, {1: 126, 2: 32, 3: 2})

    def test_places_that_were_not_tried(self):
        """What comes at a place goes up to the next one that was tried."""
        where = place(1, 0, 0, 63, places=8)
        told = report(finding("reset", "not up", place(1, 16, 24, 63, places=8)), writes=[where])
        page = crashes.html("app_test", [crashes.read(told, TEXT)])
        self.assertEqual([it[1:] for it in ELEMENT.findall(page)], [("0", "15", "holds"), ("16", "31", "not up"), ("32", "62", "holds")])
        self.assertIn("63 (each 8. tried)", page)

    def test_what_it_says(self):
        page = crashes.html("app_test", reports()[:1])
        for words in ("mode 3 and step &lt;1&gt; don't fit", "app.c:31 (APP_Save)", "2 CFE_TBL_Load", "at the end of the scenario", "fault after 3: other",
                      "reset in write 3, after 0 of 1, and one in the restart's write 1, after 2 to 5 of 16", "the restart returned CFE_TBL_ERR_NEVER_LOADED"):
            self.assertIn(words, page)
        self.assertNotIn("Test 1", page)


class Run(unittest.TestCase):
    def setUp(self):
        self.folder = tempfile.mkdtemp()
        self.addCleanup(shutil.rmtree, self.folder)

    def run_program(self, script, *words, lines=(), options=()):
        """What the command makes of a program, which has such lines beside it."""
        path, kept = os.path.join(self.folder, "program"), os.path.join(self.folder, "lines")
        with open(kept, "w", encoding="utf-8") as file:
            file.writelines(f"{it if isinstance(it, str) else json.dumps(it)}\n" for it in lines)
        with open(path, "w", encoding="ascii") as file:
            file.write(f"#!/bin/bash\nlines={kept}\n{script}\n")
        os.chmod(path, 0o755)
        return call("crash-test", *options, path, *words)

    def test_without_a_finding(self):
        status, written, said = self.run_program('[ "$*" = "like-cfe --json" ] && cat $lines > $CFETBL_CRASH_REPORT; echo not shown', "like-cfe", "--json",
                                                 lines=[{"progress": {"tried": 1, "write": 1, "writes": 3, "failed": 0}}, *TEXT[:2], "no finding", report()])
        self.assertEqual((status, written.decode().splitlines(), said), (0, [*TEXT[:2], "no finding"], ""))

    def test_with_findings(self):
        page = os.path.join(self.folder, "page.html")
        lines = [*TEXT, FOUND, *TEXT[:2], report()]
        status, written, said = self.run_program("cat $lines > $CFETBL_CRASH_REPORT; exit 1", lines=lines, options=("--html", page))
        self.assertEqual((status, written.decode().splitlines(), said), (1, [*TEXT, *TEXT[:2]], ""))
        with open(page, encoding="utf-8") as file:
            self.assertIn("<h2>Test 2</h2>", file.read())
        status, written, _ = self.run_program("cat $lines > $CFETBL_CRASH_REPORT; exit 1", lines=lines, options=("--json",))
        self.assertEqual((status, [json.loads(it) for it in written.splitlines()]), (1, [FOUND, report()]))

    def test_a_test_that_is_not_whole(self):
        broken = report(whole=False, message="the scenario isn't the same at each play: call 3, CFE_TBL_Load, is the first that differs")
        status, written, said = self.run_program("cat $lines > $CFETBL_CRASH_REPORT; exit 1", lines=[*TEXT, broken])
        self.assertEqual((status, said), (2, f"cfetbl crash-test: {broken['message']}\n"))
        self.assertEqual(written.decode().splitlines(), TEXT)

    def test_programs_that_are_not_fit(self):
        for script, lines, wanted in (("exit 3", [], "the program makes no crash test; it ended with 3"), ("kill -9 $$", [], "it ended with 137"),
                                      ("cat $lines > $CFETBL_CRASH_REPORT; exit 9", [*TEXT, report()], "the program ended with 9"),
                                      ("cat $lines > $CFETBL_CRASH_REPORT; exit 1", [*TEXT, report()], "the program ended with 1"),
                                      ("cat $lines > $CFETBL_CRASH_REPORT", TEXT, "a report is cut off"),
                                      ("head -c 200 $lines > $CFETBL_CRASH_REPORT", [FOUND], "a report is cut off"),
                                      ("cat $lines > $CFETBL_CRASH_REPORT", [{"writes": []}], "a report has another form"),
                                      ("cat $lines > $CFETBL_CRASH_REPORT", [report(finding("reset", "odd", place(1, 0, 0, 1)))], "another form")):
            with self.subTest(wanted):
                status, _, said = self.run_program(script, lines=lines)
                self.assertEqual((status, said.count("\n")), (2, 1), said)
                self.assertIn(wanted, said)

    def test_wrong_use(self):
        for words, wanted in ((("no/such/program",), "no/such/program can't be run: No such file or directory"), ((), "program"),
                              (("--json", "--html", "-", "program"), "--html - and --json both go to standard output")):
            status, written, said = call("crash-test", *words)
            self.assertEqual((status, written), (2, b""))
            self.assertIn(wanted, said)

    def test_how_far_it_is(self):
        told = {"tried": 1, "write": 1, "writes": 3, "failed": 2}
        self.assertEqual(crashes.tell(told, "7 s"), "1 trouble tried, 2 with a finding, write 1 of 3; 7 s so far")
        self.assertEqual(crashes.tell({}, "7 s"), "the scenario is played; 7 s so far")
        _, _, said = self.run_program("cat $lines > $CFETBL_CRASH_REPORT; sleep 6", lines=[{"progress": told}])
        self.assertIn("cfetbl crash-test: 1 trouble tried, 2 with a finding, write 1 of 3; ", said)


if __name__ == "__main__":
    unittest.main()
