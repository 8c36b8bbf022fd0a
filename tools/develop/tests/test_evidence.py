"""What docs/proof/README.md is checked by: tools/develop/gate/claims, tools/develop/gate/believed, tools/develop/reached.py, tools/develop/tried.py."""
import os
import tempfile
import unittest
from importlib import machinery, util

import reached
import tried

from . import recorded

LOWER = '''use std::alloc::Global;

pub trait Bank {
    fn write_at(&mut self) -> u8;
}

impl Bank for File {
    fn write_at(&mut self) -> u8 {
        narrowed(1)
    }
}

impl Drop for File {
    fn drop(&mut self) {
        closed()
    }
}

fn narrowed(it: u8) -> u8 {
    it
}

fn closed() {}

pub fn finish() {}

pub fn begin() {}
'''
UPPER = '''use lower::{begin as started, Bank};

pub struct Player;

impl Player {
    pub fn finish(&self) {
        Self::end_of(0)
    }

    fn end_of(it: u8) {}
}

/// Not `hidden()`.
fn main(bank: Lent)
    requires { asked() }
    ensures done { it ≡ promised (λ b. {
        told()
    }) }
{
    started();
    let text = "spelled()"; // noted()
    &text[..measured(text)].map(mapped);
    player.finish();
    Lent::write_at(bank)
}

fn asked() {}
fn promised() {}
fn told() {}
fn hidden() {}
fn spelled() {}
fn noted() {}
fn measured() {}
fn mapped() {}
'''


def check_of_gate(name):
    """A check of tools/develop/gate, as a module."""
    loader = machinery.SourceFileLoader(name, os.path.join(recorded.TOP, "tools", "develop", "gate", name))
    module = util.module_from_spec(util.spec_from_loader(loader.name, loader))
    loader.exec_module(module)
    return module


def believed():
    return check_of_gate("believed")


class Claims(unittest.TestCase):
    """Each fault is planted into rows that have none."""

    def setUp(self):
        self.claims = check_of_gate("claims")
        self.functions = {}
        for path, clauses in (("check_word::check16", ["ensures"]), ("tbl_top::run", ["outcome", "once"]), ("tbl_live::Board::at", ["receipt"])):
            self.functions[path] = self.claims.Function(None, path.split("::")[-1], True, ["It does."])
            self.functions[path].clauses = clauses
        self.promise = ["All is right", "`run` of `tbl_top`", "`outcome`", "`legal`, `whole` of `IsServed`", "`tbl_core/every_request_succeeds`"]

    def faults_of(self, cell, said):
        row = self.promise[:cell] + [said] + self.promise[cell + 1:]
        return "".join(self.claims.promise_faults([row], self.functions, {"IsServed": {"legal", "whole"}}))

    def test_promises(self):
        self.assertEqual(self.faults_of(0, "All is right"), "")
        self.assertEqual(self.faults_of(4, "`tbl_stream/wrong-bodies/bad_record_is_the_end`"), "")
        for cell, said, fault in ((1, "`walk` of `tbl_top`", "tbl_top::walk, outcome"), (1, "-", "outcome, function"), (2, "`income`", "income"), (2, "-", "clause"),
                                  (3, "`regal` of `IsServed`", "regal of IsServed"), (4, "`tbl_core/no_edit`", "tbl_core/no_edit"),
                                  (4, "`tbl_stream/bad_record_is_the_end`", "tbl_stream/bad_record_is_the_end"), (4, "-", "wrong body")):
            with self.subTest(said=said):
                self.assertTrue(self.faults_of(cell, said).endswith(f"All is right: there is no {fault}"), self.faults_of(cell, said))

    def test_clauses_of_claims(self):
        for carriers, clauses, fault in (("`run` of `tbl_top`", "`outcome`; `once`", ""), ("`run` of `tbl_top`", "`twice`", "twice"),
                                         ("`Board` of `tbl_live`", "`receipt`, and those of `Bank::read_at`", ""),
                                         ("`check16` of `check_word`", "its one clause", ""), ("`run` of `tbl_top`", "its one clause", "clause"),
                                         ("`run` of `tbl_top`", "-", "clause"),
                                         ("`run` of `tbl_top`", "`once`; `legal`, `whole` of `IsServed`", ""),
                                         ("`run` of `tbl_top`", "`once`; `regal` of `IsServed`", "regal of IsServed")):
            with self.subTest(carriers=carriers, clauses=clauses):
                found = "".join(self.claims.clause_faults([["It holds", carriers, clauses]], self.functions, {"IsServed": {"legal", "whole"}}))
                self.assertEqual(found, fault and f"docs/proof/README.md: It holds: there is no {fault}")

    def test_functions_that_the_program_calls(self):
        def faults(path, libraries):
            return [it.split(": ", 1)[1] for it in self.claims.carrier_faults([path], libraries, self.functions, {"tbl_top::run"})]

        self.assertEqual(faults("tbl_top::run", {}), [])
        self.assertEqual(faults("tbl_live::Board", {"tbl_live": set()}), [])
        self.assertEqual(faults("tbl_live::Board::at", {"tbl_live": {"Board::at"}}), [])
        self.assertEqual(faults("tbl_live::Board::on", {}), ["there is no tbl_live::Board::on"])
        not_called = ["the program doesn't call tbl_live::Board::at, and the table of libraries doesn't have it"]
        self.assertEqual(faults("tbl_live::Board::at", {}), not_called)
        self.assertEqual(faults("tbl_live::Board::at", {"tbl_live": {"Board::publish"}}), not_called)

    def test_libraries(self):
        def faults(crate, *names):
            return [it.split(": ", 1)[1] for it in self.claims.library_faults({crate: set(names)}, self.functions, {"tbl_top::run"})]

        self.assertEqual(faults("tbl_live"), [])
        self.assertEqual(faults("tbl_top"), ["the program stands on tbl_top, so the table of libraries has to name its functions"])
        self.assertEqual(faults("tbl_top", "run"), ["run of tbl_top isn't there, or the program calls it"])

    def test_a_page_without_its_tables(self):
        found = "\n".join(self.claims.page_faults("# What is proved\n", {}))
        self.assertEqual(found.count("has no table that begins with"), 3)

    def test_carriers_of_a_cell(self):
        said = "`Core::start`, `Core::step_read` of `tbl_core`, and `crew` of `tbl_crew`, which finds it"
        self.assertEqual(list(self.claims.carriers_in(said)), ["tbl_core::Core::start", "tbl_core::Core::step_read", "tbl_crew::crew"])


class Reached(unittest.TestCase):
    def test_names_that_may_be_called(self):
        functions = [*reached.functions_in("lower", reached.code_of(LOWER)), *reached.functions_in("upper", reached.code_of(UPPER))]
        calls = reached.Calls(functions)
        found = {it.path for it in calls.reached([it for it in functions if it.path == "upper::main"])}
        self.assertEqual(found, {
            "upper::main", "lower::begin", "upper::measured", "upper::mapped", "upper::Player::finish", "upper::Player::end_of",
            # a bank is a parameter, so each write may be its; files are dropped by the language
            "lower::Bank::write_at", "lower::File::write_at", "lower::narrowed", "lower::File::drop", "lower::closed",
        })

    def test_the_program(self):
        found = reached.reached_from("tbl_main")
        self.assertLess({"tbl_main::main", "tbl_top::run", "tbl_core::Core::step", "tbl_adapters::StoreFile::write_at"}, found)
        self.assertFalse({"tbl_top::run_again", "cds_store::recover"} & found)


class Tried(unittest.TestCase):
    def test_verdicts(self):
        said = "refused, as it must be (only because a proof file names what the edit took away, so this says little"
        self.assertEqual(tried.verdict_of(said), tried.NAME)
        self.assertEqual(tried.verdict_of("refused, as it must be (only by a limit of the prover"), tried.LIMIT)
        self.assertEqual(tried.verdict_of("refused, as it must be: src/lib.rt:3:1: error"), tried.CONTRACT)
        self.assertEqual(tried.verdict_of("NOT REFUSED: the crate is still proved"), tried.PROVED)
        self.assertEqual(tried.verdict_of("BAD EDIT: it doesn't apply"), tried.UNKNOWN)

    def test_a_row_goes_stale(self):
        with tempfile.NamedTemporaryFile("w+", suffix=".tsv") as file:
            file.write("# head\nno_crate/gone\tcontract\t0\n")
            file.flush()
            table, sums = tried.Tried(file.name), tried.sums_of("check_word")
            first, second, *others = sums
            table.note("check_word", {first: tried.CONTRACT, second: tried.NAME}, {**sums, second: "0"})
            again = tried.Tried(file.name)
            self.assertEqual(again.of("check_word"), {
                first: (tried.CONTRACT, True), second: (tried.NAME, False), **{it: (None, False) for it in others}})
            self.assertIn("no_crate/gone", again.rows)
            again.note("check_word", {first: tried.UNKNOWN}, sums)
            self.assertNotIn(f"check_word/{first}", tried.Tried(file.name).rows)

    def test_comments_do_not_count(self):
        said = tried.sources_of("check_word")
        self.assertIn("pub fn check16", said)
        self.assertFalse([it for it in said.splitlines() if it.startswith(("//", "--"))])


class Believed(unittest.TestCase):
    def test_lines_of_other_words_do_not_count(self):
        module = believed()
        imports = {it: (module.WORDS, it) for it in ("Play", "Crew")}
        it = module.Definition("Rattle.a.specs.B", "does", imports)
        it.lines = ["abbrev pub does : Word → Type 0", "does Play = Plays", "does Crew = Crews"]
        self.assertEqual(it.lines_for(["Play"]), it.lines[:2])
        self.assertEqual(it.lines_for(None), it.lines)

    def test_names_of_other_files(self):
        module = believed()
        imports = module.imports_of(["use Rattle.a.specs.B as b", "ghost use Rattle.a.specs.C.{one as two, three};"])
        every = {("Rattle.a.specs.B", "x"): 1, ("Rattle.a.specs.C", "one"): 2, ("Rattle.a.specs.C", "three"): 3, ("Rattle.a.specs.D", "own"): 4}
        said = 'b.x ∙ two ≡ (own r).three r.three "three" -- three'
        self.assertEqual(set(module.cited(said, "Rattle.a.specs.D", imports, every)), {1, 2, 4})

    def test_what_is_cited(self):
        module = believed()
        every = module.definitions()
        names = {it.name for it in module.believed(every, ["Play"])}
        self.assertLess({"Plays", "IsServed", "effect_of", "RecoversBoth", "Dump"}, names)
        self.assertFalse({"Watches", "Drills", "MakesFile", "ByActor"} & names)
        self.assertLess({"Watches", "Drills", "MakesFile", "ByActor"}, {it.name for it in module.believed(every, None)})


if __name__ == "__main__":
    unittest.main()
