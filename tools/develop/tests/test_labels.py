"""check-labels: it passes as the files are, and says what is wrong if a licence goes or a second version comes."""
import os
import shutil
import subprocess
import sys
import tempfile
import unittest

from . import recorded

COPIED = ("cfetbl", "crates.txt", "CHANGELOG.md", "CONTRIBUTING.md", "LICENSE", "README.md", "crates/tbl_main/src", "c", "docs",
          "man", "tools")
OTHER = "9.8.7"
# A file, a text in it, another one in its place, and what is said then; {} is the version.
EDITS = (("c/include/tbl.h", "/* SPDX-License-Identifier: Apache-2.0 */\n", "", "c/include/tbl.h doesn't begin with /* SPDX"),
         ("c/lib/cfetbl.c", "Apache-2.0 */", "MIT */", "c/lib/cfetbl.c doesn't begin with /* SPDX"),
         ("LICENSE", "SPDX-License-Identifier: ", "", "LICENSE has no line SPDX-License-Identifier"),
         ("README.md", "[Apache License 2.0](LICENSE)", "license", "README.md doesn't have `[Apache License 2.0](LICENSE)`"),
         ("README.md", "    cfetbl play --show /usr", "    cfetbl crew --show /usr", "README.md doesn't have `cfetbl play --show /usr"),
         ("CONTRIBUTING.md", "`./cfetbl test --quick`", "The quick test", "CONTRIBUTING.md doesn't name `./cfetbl test --quick`"),
         ("CHANGELOG.md", "## Unreleased\n", "", "CHANGELOG.md doesn't begin with the headings Unreleased and {}"),
         ("CHANGELOG.md", "\n## {}\n", f"\n## {OTHER}\n", f"but with Unreleased and {OTHER}"),
         ("man/cfetbl.1", "cfetbl {}", f"cfetbl {OTHER}", f"man/cfetbl.1 names the version {OTHER}"),
         ("c/include/cfetbl_version.h", '_VERSION "{}"', f'_VERSION "{OTHER}"', "c/include/cfetbl_version.h has another version"),
         ("c/lib/cfetbl.pc.in", "Version: @VERSION@", f"Version: {OTHER}", f"c/lib/cfetbl.pc.in names the version {OTHER}"),
         ("docs/use/tutorial.md", "# Tutorial", f"# Tutorial of cfetbl_{OTHER}", f"docs/use/tutorial.md names the version {OTHER}"),
         ("crates/tbl_main/src/main.rt", "tbl {}\\n", f"tbl {OTHER}\\n",
          f"man/cfetbl.1 names the version {{}}, and crates/tbl_main/src/main.rt has {OTHER}"),
         ("crates/tbl_main/src/main.rt", "tbl {}\\n", "tbl 2\\n", "the version is 2, which isn't three numbers"))


def copy_to(folder):
    for name in COPIED:
        source, target = os.path.join(recorded.TOP, name), os.path.join(folder, name)
        if os.path.isdir(source):
            shutil.copytree(source, target, ignore=shutil.ignore_patterns("__pycache__"))
        else:
            shutil.copy(source, target)


def outcome(folder):
    """What check-labels says of a copy: its status and its words."""
    check = [sys.executable, f"{folder}/tools/develop/gate/check-labels"]
    done = subprocess.run(check, stdin=subprocess.DEVNULL, capture_output=True, text=True, check=False)
    return done.returncode, done.stderr


class Labels(unittest.TestCase):
    @classmethod
    def setUpClass(cls):
        cls.folder = tempfile.mkdtemp()
        cls.addClassCleanup(shutil.rmtree, cls.folder)
        copy_to(cls.folder)
        cls.version = subprocess.check_output([f"{recorded.TOP}/cfetbl", "--version"], text=True).split()[1]

    def test_passes_as_it_is(self):
        self.assertEqual(outcome(self.folder), (0, ""))

    def test_says_what_is_wrong(self):
        for name, wanted, found, said in EDITS:
            path, wanted, said = f"{self.folder}/{name}", wanted.format(self.version), said.format(self.version)
            with self.subTest(name=name, said=said), open(path, encoding="utf-8") as file:
                text = file.read()
                self.assertIn(wanted, text)
                self.write(path, text.replace(wanted, found))
                status, words = outcome(self.folder)
                self.write(path, text)
                self.assertEqual(status, 1)
                self.assertIn(said, words)

    @staticmethod
    def write(path, text):
        with open(path, "w", encoding="utf-8") as file:
            file.write(text)


if __name__ == "__main__":
    unittest.main()
