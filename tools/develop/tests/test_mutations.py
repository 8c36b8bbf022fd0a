"""tools/develop/check-mutations: what it takes for a fault, and that a seed decides its cases."""
import os
import pathlib
import tempfile
import unittest
from importlib import machinery, util

from .test_commands import DEVELOP


def check_mutations():
    loader = machinery.SourceFileLoader("check_mutations", os.path.join(DEVELOP, "check-mutations"))
    module = util.module_from_spec(util.spec_from_loader(loader.name, loader))
    loader.exec_module(module)
    return module


class Mutations(unittest.TestCase):
    @classmethod
    def setUpClass(cls):
        cls.check = check_mutations()
        with tempfile.TemporaryDirectory() as folder:
            cls.materials = cls.check.Materials(folder)

    def case(self, number, folder):
        return self.check.Case(1, number, self.materials, folder)

    def test_faults(self):
        with tempfile.TemporaryDirectory() as folder:
            case = self.case(0, folder)
            case.word, case.words = "map", []
            for status, written, said, raised, fault in ((0, b"", "", "", ""), (2, b"", "why", "", ""), (0, b"a\nb\t", "", "", ""), (1, b"", "", "KeyError", "traceback"),
                                                         (9, b"", "why", "", "ended with 9"), (2, b"", "", "", "didn't say why"),
                                                         (0, b"\x1b[31m", "", "", "don't print"), (1, b"", "a\rb", "", "don't print")):
                found = self.check.fault_of(case, self.check.Ended(status, written, said, raised))
                self.assertTrue(fault in found if fault else not found, (found, fault))

    def test_a_seed_decides(self):
        for number in (3, 40):
            shown = []
            for _ in range(2):
                with tempfile.TemporaryDirectory() as folder:
                    case = self.case(number, folder)
                    contents = [pathlib.Path(it).read_bytes() for it in case.words if os.path.isfile(it)]
                    shown.append((case.shown().replace(folder, ""), contents))
            self.assertEqual(shown[0], shown[1])


if __name__ == "__main__":
    unittest.main()
