"""What tools/develop/bench and tools/develop/walk measure: the works, what is read of callgrind, the way of a request, tables of figures, and the
time and the peak memory of a program. If rustc is there, what the plain Rust programs write. What callgrind itself counts isn't
tried here."""
import glob
import io
import os
import random
import shutil
import stat
import subprocess
import sys
import tempfile
import unittest

from tblkit import callgrind, figures, measured, records, ways, works
from tblkit.programs import TOP

COUNTS = """version: 1
creator: callgrind-3.19.0
events: Ir

fl=(1) a.rt
fn=(1) tbl_core::parts::play::<#c4>
16 5
cfn=(2) tbl_kinds::entry::new
calls=3 0
16 60
cob=(2) /lib/libc.so.6
cfi=(9) string.c
cfn=(3) memcpy
calls=4 0
16 40

fn=(2)
20 60
cfn=(4) core::option::map::<44'tbl_kinds::entry>
calls=3 0
20 9

fn=(1)
18 1
cfn=(2)
calls=2 0
18 40

fn=(4)
7 9

summary: 1234
"""
PLAY, NEW, MAP = "tbl_core::parts::play::<#c4>", "tbl_kinds::entry::new", "core::option::map::<44'tbl_kinds::entry>"

TABLES = """Text with 1,234.

| work | instructions a request | plain Rust | times |
|---|---|---|---|
| NOOP | 1,000 | 900 | 1.11 |
| a, b | 12,345 | - | - |
| unknown | - | 1 | - |

| work | requests | milliseconds |
|---|---|---|
| NOOP | 20 | 1.5 |
"""

# A program that has had 64 MiB, and then reads its input or writes a line, by its word.
HUNGRY = """#!{python}
import sys
bytearray(64 << 20)
if sys.argv[1] == "play":
    while sys.stdin.buffer.read(4096):
        pass
elif sys.argv[1] == "drill":
    print("entries 9")
else:
    sys.exit(3)
"""
LEAST, MOST = 64 << 20, 128 << 20


def fault_of(session):
    """Why a session isn't one of good records; empty where it is."""
    pieces = list(records.pieces(io.BytesIO(session)))
    return next((it.fault for it in pieces if it.fault), "more records" if len(pieces) > records.MOST_RECORDS else "")


class Works(unittest.TestCase):
    def test_each_is_a_session(self):
        found = list(works.works())
        self.assertEqual(len({it.name for it in found}), len(found))
        for work in found:
            self.assertEqual(fault_of(work.session(1)), "", work.name)
            self.assertLessEqual(len(work.opening) + work.requests(work.rounds), records.MOST_RECORDS)
            self.assertTrue(work.session(work.rounds).startswith(work.session(0)))

    def test_a_pass_has_no_reset(self):
        opening, again = works.ordinary_pass()
        self.assertEqual((len(opening), len(again)), (15, 30))
        self.assertFalse([it for it in opening + again if it.startswith("reset")])

    def test_a_state_is_what_it_says(self):
        for state in works.STATES:
            for name in works.REQUESTS:
                work = works.request_in(state, name)
                self.assertEqual(fault_of(work.session(1)), "", name)
                self.assertEqual(len(work.opening), state.place)
                said = [it.split()[2] for it in work.opening if it.startswith("app")]
                self.assertEqual(said.count("register"), state.tables)
                self.assertEqual(said.count("register") + said.count("share"), state.handles)
                # No power of two comes between the first place and the last one.
                last = state.place + work.requests(work.rounds) - 1
                self.assertEqual(state.place.bit_length(), last.bit_length())

    def test_crews_take_turns(self):
        for make, counts in works.CREWS.values():
            for actors in counts:
                found = works.in_turn(make, actors)
                self.assertEqual([it[1] for it in found[:actors]], list(range(1, actors + 1)))
                self.assertLessEqual(len(found), records.MOST_RECORDS)

    def test_readers_get_their_handles_in_any_order(self):
        for actors in works.READERS:
            scripts = {it: works.with_own_handle(it, actors, "size 4") for it in range(1, actors + 1)}
            in_turn = [it for of_each in zip(*([it] * len(scripts[it]) for it in scripts)) for it in of_each]
            for order in (in_turn, sorted(in_turn), sorted(in_turn, reverse=True), *map(shuffled, 100 * [in_turn])):
                self.assertEqual(handles_after(scripts, order), {it - 1: it for it in scripts})


CHANCE = random.Random(1)


def shuffled(actors):
    return CHANCE.sample(actors, len(actors))


def handles_after(scripts, order):
    """Who has each handle after registrations and ends of tables in an order of turns: a new table has the least free handle."""
    left, handles = {it: iter(script) for it, script in scripts.items()}, {}
    for actor in order:
        _, _, word, *rest = next(left[actor]).split()
        if word == "register" and (actor, rest[0]) not in handles.values():
            handles[next(it for it in range(256) if it not in handles)] = (actor, rest[0])
        elif word == "unregister" and handles.get(int(rest[0]), (None,))[0] == actor:
            del handles[int(rest[0])]
    return {handle: actor for handle, (actor, _) in handles.items()}


class Times(unittest.TestCase):
    def test_a_run_that_did_less_is_left_out(self):
        runs = [measured.Run(*it) for it in ((9.0, 7.5, 1_000), (2.0, 1.0, 700), (8.0, 9.0, 990), (8.5, 8.0, 1_010))]
        self.assertEqual(measured.least(runs), measured.Run(8.0, 7.5, 1_010))

    def test_a_program_that_fails(self):
        with tempfile.TemporaryFile() as source:
            took, processor, memory = measured.timed((sys.executable, "-c", "print(1)"), source)
            self.assertGreater(min(took, memory), 0)
            with self.assertRaisesRegex(OSError, "ended with status 3\nno room"):
                measured.timed((sys.executable, "-c", "import sys; print('no room', file=sys.stderr); sys.exit(3)"), source)

    def test_each_sink_takes_more_than_a_pipe_holds(self):
        with tempfile.TemporaryFile() as source:
            for sink in measured.SINKS:
                self.assertGreater(measured.timed((sys.executable, "-c", "print(1_000_000 * '1')"), source, sink).took, 0, sink)


@unittest.skipUnless(shutil.which("rustc"), "rustc isn't there")
class RustPrograms(unittest.TestCase):
    @classmethod
    def setUpClass(cls):
        folder = tempfile.TemporaryDirectory()
        cls.addClassCleanup(folder.cleanup)
        cls.programs = [measured.rust_program(name, folder.name) for name in measured.RUST.values()]

    def played(self, program, session):
        """The status of a program that plays a session, what it writes and says, and its store file."""
        with tempfile.TemporaryDirectory() as folder:
            done = subprocess.run([program, "play"], input=session, capture_output=True, cwd=folder, check=False)
            with open(os.path.join(folder, "cds.store"), "rb") as store:
                return done.returncode, done.stdout, done.stderr, store.read()

    def test_both_write_the_same_for_each_work(self):
        for work in works.works():
            for rounds in (0, 3):
                plain, tuned = (self.played(it, work.session(rounds)) for it in self.programs)
                self.assertEqual((plain[0], plain[2]), (0, b""), work.name)
                self.assertEqual(plain, tuned, work.name)

    def test_each_writes_the_transcript_of_an_example_up_to_what_it_leaves_out(self):
        whole = 0
        for name in glob.glob(os.path.join(TOP, "sessions", "*.session")):
            # Its transcript is that of `play --admit`.
            if os.path.basename(name) == "admitted.session":
                continue
            with open(name, "rb") as records_of, open(name.replace(".session", ".transcript"), "rb") as written:
                session, transcript = records_of.read(), written.read()
            for program in self.programs:
                status, found, said, _ = self.played(program, session)
                whole += status == 0
                self.assertEqual(found, transcript if status == 0 else transcript[:len(found)], name)
                self.assertEqual(status, 2 if said.endswith(b" is left out\n") else 0, name)
        self.assertGreaterEqual(whole, 14)


class Callgrind(unittest.TestCase):
    def test_instructions(self):
        self.assertEqual(callgrind.instructions(COUNTS), 1234)

    def test_functions_by_names(self):
        own, calls = callgrind.read(COUNTS)
        self.assertEqual(own, {PLAY: 6, NEW: 60, MAP: 9})
        self.assertEqual(calls, {(PLAY, NEW): 5, (PLAY, "memcpy"): 4, (NEW, MAP): 3})


class Ways(unittest.TestCase):
    def test_where_a_function_stands(self):
        with tempfile.TemporaryDirectory() as top:
            for path in ("a/src/lib.rt", "a/src/parts.rt", "a/src/parts/row.rt", "b/src/main.rt"):
                os.makedirs(os.path.join(top, "crates", os.path.dirname(path)), exist_ok=True)
                with open(os.path.join(top, "crates", path), "x", encoding="utf-8"):
                    pass
            for symbol, path in (("a::parts::Parts::play::<#c4>", "a/src/parts.rt"), ("a::parts::row::Row::new", "a/src/parts/row.rt"),
                                 ("a::added", "a/src/lib.rt"), ("b::main::<1'b::x>", "b/src/main.rt"),
                                 ("a::parts::fn::first::position+FnMut::call_mut", "a/src/parts.rt")):
                self.assertEqual(ways.file_of(symbol, top), os.path.join("crates", path))
            self.assertEqual(ways.file_of("c::parts::play", top), "")

    def test_what_the_compiler_wrote(self):
        for symbol in ("a::Destruct++none::drop::<u8>", "a::core++option++Option+Destruct::drop::<#c4>"):
            self.assertFalse(ways.is_written(symbol))
        self.assertTrue(ways.is_written("a::parts::fn::first::position+FnMut::call_mut"))

    def test_calls_below_a_function(self):
        calls = {("a::run", "a::step::<#1>"): 1, ("a::run", "b::write"): 1, ("a::step::<#1>", "b::new"): 5, ("b::new", "core::map"): 1,
                 ("core::map", "b::fn::new::map+FnOnce::call_once"): 3, ("b::fn::new::map+FnOnce::call_once", "b::size"): 3,
                 ("a::step::<#1>", "memcpy"): 4, ("b::new", "b::core++option++Option+Destruct::drop"): 2, ("a::steps", "b::new"): 7}
        way = ways.Way(calls, {"a", "b"}, "a::step", TOP)
        self.assertEqual(way.figures(), [8, 5, 2, 1, 0])
        self.assertEqual(list(way.changing), [("a::step::<#1>", "b::new")])


class Figures(unittest.TestCase):
    def test_what_is_kept(self):
        kept = figures.kept(TABLES.splitlines(), ["work", "instructions a request"])
        self.assertEqual(kept, {"NOOP": [1000, 900], "a, b": [12345]})

    def test_what_is_more(self):
        kept = {"NOOP": [1000, 900]}
        self.assertEqual(list(figures.more_than_kept(kept, "NOOP", [1020])), [])
        self.assertEqual(list(figures.more_than_kept(kept, "NOOP", [1021])), ["docs/work/performance.md has 1,000"])
        self.assertEqual(list(figures.more_than_kept(kept, "NOOP", [1000, 919])), ["docs/work/performance.md has 1,000 900"])
        self.assertEqual(list(figures.more_than_kept(kept, "NOOP", [1050], figures.MEMORY_SLACK)), [])
        self.assertEqual(list(figures.more_than_kept(kept, "NOOP", [1051], figures.MEMORY_SLACK)), ["docs/work/performance.md has 1,000"])
        self.assertEqual(list(figures.more_than_kept(kept, "LOAD", [1])), ["docs/work/performance.md has no figure"])

    def test_times(self):
        self.assertEqual(figures.beside([1500, 1000], "{:,}"), ["1,500", "1,000", "1.50"])
        self.assertEqual(figures.beside([1500, 1000, 500], "{:,}"), ["1,500", "1,000", "1.50", "500", "3.00"])
        self.assertEqual(figures.beside([1500], "{:,}"), ["1,500"])

    def test_the_document_has_each_row(self):
        with open(os.path.join(TOP, "docs", "work", "performance.md"), encoding="utf-8") as document:
            lines = document.readlines()
        for heads, rows in ((["work", "instructions a request"], [it.name for it in works.works()]),
                            (["work", "requests"], [it.name for it in works.works()]),
                            (["request", works.STATES[0].name], list(works.REQUESTS)),
                            (["request", "calls"], list(works.REQUESTS))):
            self.assertEqual(list(figures.kept(lines, heads)), rows)


class Memory(unittest.TestCase):
    def setUp(self):
        folder = tempfile.TemporaryDirectory()
        self.addCleanup(folder.cleanup)
        self.program = os.path.join(folder.name, "hungry")
        with open(self.program, "x", encoding="utf-8") as script:
            script.write(HUNGRY.format(python=sys.executable))
        os.chmod(self.program, stat.S_IRWXU)

    def test_of_a_session(self):
        self.assertTrue(LEAST < measured.memory_of_play(self.program, bytes(1 << 20)) < MOST)

    def test_of_a_line(self):
        peak, told = measured.memory_of_line([self.program, "drill"])
        self.assertTrue(LEAST < peak < MOST)
        self.assertEqual(told, "entries 9\n")

    def test_a_program_that_fails(self):
        with self.assertRaisesRegex(OSError, "ended with status 3"):
            measured.memory_of_line([self.program, "other"])
