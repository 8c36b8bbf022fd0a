"""check-numbers: it passes as things stand, and says where a crate, a header, a tool or the table of names has another number."""
import contextlib
import glob
import importlib.machinery
import importlib.util
import io
import os
import shutil
import subprocess
import sys
import tempfile
import unittest
from unittest import mock

from . import recorded

TOOL = os.path.join("tools", "develop", "gate", "check-numbers")

# A file, what stands there, what is put in its place, and what is said of that.
EDITS = (
    ("crates/tbl_kinds/specs/Records.antt", "record_limit = 32768", "record_limit = 32767", "`records of a session`, record_limit of tbl_kinds"),
    ("crates/tbl_top/src/collecting.rt", "RECORD_LIMIT: u32 = 32_768", "RECORD_LIMIT: u32 = 32_769", "RECORD_LIMIT of tbl_top"),
    ("crates/tbl_kinds/src/status.rt", "ERR_BAD_APP: Status = Status(32)", "ERR_BAD_APP: Status = Status(31)", "statuses of tbl_kinds"),
    ("crates/tbl_kinds/specs/Records.antt", "kind_of ask.Exit = 0x21", "kind_of ask.Exit = 0x22", "kinds of records of tbl_kinds"),
    ("crates/tbl_kinds/specs/Records.antt", "= two handle ++ four offset ++ four len", "= two handle ++ four offset ++ two len", "body of Read"),
    ("crates/tbl_kinds/specs/Heads.antt", "number = 0x1C; from_ground = false; least = 10", "number = 0x1C; from_ground = true; least = 10",
     "heads of records of tbl_kinds"),
    ("crates/tbl_kinds/specs/GroundCommands.antt", "validate (two_at 0 payload) (name_at 2 40 payload)",
     "validate (two_at 40 payload) (name_at 0 40 payload)", "payload of VALIDATE"),
    ("crates/tbl_kinds/specs/Telemetry.antt", "four h.seconds ++ two h.sub", "four h.seconds ++ four h.sub", "housekeeping, housekeeping_body of tbl_kinds"),
    ("crates/tbl_kinds/specs/Telemetry.antt", "two e.row ++ four e.detail", "four e.detail ++ two e.row", "event, event_body of tbl_kinds"),
    ("crates/tbl_kinds/specs/Transcript.antt", "four f.place ++ f.actor", "f.actor", "entry, entry_spelling of tbl_kinds"),
    ("crates/tbl_kinds/specs/Packets.antt", "event_id = 0x0808", "event_id = 0x0809", "message event, event_id of tbl_kinds"),
    ("crates/cds_layout/specs/Images.antt", "four length ++ two word", "two word ++ four length", "block head, block_head of cds_layout"),
    ("crates/cds_layout/specs/Turns.antt", "byte_of Two = 0xA2", "byte_of Two = 0xA4", "turn, byte_of of cds_layout"),
    ("crates/tbl_kinds/specs/GroundCommands.antt", "flaw_detail bad_check = 3", "flaw_detail bad_check = 4", "packet fault, flaw_detail of tbl_kinds"),
    ("crates/tbl_model/specs/Registry.antt", "bit_at 8 (is_double t) + bit_at 16 (is_critical t)", "bit_at 16 (is_double t) + bit_at 8 (is_critical t)",
     "registry, bits_of of tbl_model"),
    ("crates/tbl_model/specs/Management.antt", "bits = d.bits + 8", "bits = d.bits + 16", "work, bits of tbl_model"),
    ("c/include/cfetbl_status.h", "CFETBL_ERR_BAD_APP = 32", "CFETBL_ERR_BAD_APP = 33", "CFETBL_ERR_BAD_APP in C"),
    ("tools/command/names.tsv", "\tbytes of preserved memory\t262144\t", "\tbytes of preserved memory\t262145\t", "BANK_SIZE of command_line"),
    ("tools/command/names.tsv", "field\tregistry\t18\t1\tstate", "field\tregistry\t18\t2\tstate", "registry, registry_record of tbl_kinds"),
    ("tools/command/names.tsv", "field\tbank\t139280\t", "field\tbank\t139281\t", "places of the bank"),
    ("tools/command/tblkit/records.py", 'layouts.number("records of a session")', "32768", "tools/command/tblkit/records.py"),
    ("tools/command/cfetbl.lua", 'number_of(messages, "command")', "0x1804", "tools/command/cfetbl.lua"),
    ("docs/reference/tables-of-numbers.md", "| handles | 256,", "| handles | 255,", "docs/reference/tables-of-numbers.md, handles"))


class Numbers(unittest.TestCase):
    """The check over copies of what it reads."""

    @classmethod
    def setUpClass(cls):
        cls.folder = tempfile.TemporaryDirectory()
        cls.addClassCleanup(cls.folder.cleanup)
        for name in ("c", "docs", "tools"):
            shutil.copytree(os.path.join(recorded.TOP, name), os.path.join(cls.folder.name, name))
        for name in glob.glob(os.path.join(recorded.TOP, "crates", "*", "s[pr]*c*")):
            if os.path.isdir(name):
                shutil.copytree(name, os.path.join(cls.folder.name, os.path.relpath(name, recorded.TOP)))

        loader = importlib.machinery.SourceFileLoader("check_numbers", os.path.join(recorded.TOP, TOOL))
        cls.check = importlib.util.module_from_spec(importlib.util.spec_from_loader(loader.name, loader))
        loader.exec_module(cls.check)

    def outcome(self, is_of_tools=True):
        """What the check says of the copy, and its status. Where no tool is another, it runs in this process and doesn't look at them."""
        if is_of_tools:
            done = subprocess.run([sys.executable, os.path.join(self.folder.name, TOOL)], capture_output=True, check=False)
            return done.returncode, done.stderr.decode()
        self.check.faults.clear()
        self.check.text_of.cache_clear()
        with mock.patch.multiple(self.check, TOP=self.folder.name, check_tools=lambda: None), contextlib.redirect_stderr(io.StringIO()) as said:
            return self.check.main(), said.getvalue()

    def test_as_things_stand(self):
        self.assertEqual(self.outcome(), (0, ""))
        self.assertEqual(self.outcome(False), (0, ""))

    def test_each_edit(self):
        for name, wanted, put, said in EDITS:
            with self.subTest(name, wanted=wanted):
                path = os.path.join(self.folder.name, name)
                with open(path, encoding="utf-8") as file:
                    text = file.read()
                self.assertEqual(text.count(wanted), 1)
                with open(path, "w", encoding="utf-8") as file:
                    file.write(text.replace(wanted, put))
                status, words = self.outcome(name.startswith("tools"))
                with open(path, "w", encoding="utf-8") as file:
                    file.write(text)
                self.assertEqual(status, 1)
                self.assertIn(said, words)


if __name__ == "__main__":
    unittest.main()
