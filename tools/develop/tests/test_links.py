"""check-links: it passes over pages whose links lead somewhere, and names each that doesn't, in Markdown and in a site."""
import contextlib
import importlib.machinery
import importlib.util
import io
import os
import shutil
import subprocess
import sys
import tempfile
import unittest
from unittest import mock

import markdown_links as markdown

from . import recorded

TOOL = os.path.join("tools", "develop", "gate", "check-links")
NUMBER = "9.8.7"
PAGE = """# A page

[a file](docs/other.md), [its heading](docs/other.md#two-words), [again](docs/other.md#two-words-1), [here](#a-page), [a folder](docs),
[named](docs/other.md#named), [outside](https://example.org/none#nothing), ![a picture](docs/picture.svg)
and [![a picture](docs/picture.svg)](docs/other.md#with-code-and-a-link).

`[not a link](none.md)` and <!-- [nor this](none.md) -->

    [nor this](none.md)

```
# no heading
[nor this](none.md)
```
"""
OTHER = """# Other

## Two words

## Two words

## With `code` and [a link](../README.md)

<a id="named"></a>text
"""
# What is put in the place of what, and what is said of that.
EDITS = (("docs/other.md)", "docs/none.md)", "README.md:3: docs/none.md: there is no such file"),
         ("#two-words)", "#three-words)", "README.md:3: docs/other.md#three-words: docs/other.md has no such anchor"),
         ("#two-words-1", "#two-words-2", "README.md:3: docs/other.md#two-words-2: docs/other.md has no such anchor"),
         ("(#a-page)", "(#no-heading)", "README.md:3: #no-heading: README.md has no such anchor"),
         ("[a folder](docs)", "[a folder](docks)", "README.md:3: docks: there is no such file"),
         ("![a picture](docs/picture.svg)\n", "![a picture](docs/none.svg)\n", "README.md:4: docs/none.svg: there is no such file"),
         ("[![a picture](docs/picture.svg)]", "[![a picture](docs/none.svg)]", "README.md:5: docs/none.svg: there is no such file"),
         ("[a file](docs/other.md)", "[a file](../other.md)", "README.md:3: ../other.md: leads out of the folder"),
         ("[a file](docs/other.md)", "[a file](/etc/passwd)", "README.md:3: /etc/passwd: leads out of the folder"),
         ("[a file](docs/other.md)", "[a file][1]\n\n[1]: docs/none.md\n", "README.md:5: docs/none.md: there is no such file"),
         ("[a file](docs/other.md)", '<a href="docs/none.md">a file</a>', "README.md:3: docs/none.md: there is no such file"))


class Links(unittest.TestCase):
    """The check over a folder of its own."""

    def setUp(self):
        self.folder = tempfile.mkdtemp()
        self.addCleanup(shutil.rmtree, self.folder)
        os.makedirs(os.path.join(self.folder, "docs"))
        for name in (os.path.join("develop", "gate"), "publish"):
            os.makedirs(os.path.join(self.folder, "tools", name))
        for name in (TOOL, os.path.join("tools", "publish", "markdown_links.py")):
            shutil.copy(os.path.join(recorded.TOP, name), os.path.join(self.folder, name))
        self.write("README.md", PAGE)
        self.write("docs/other.md", OTHER)
        self.write("docs/picture.svg", "<svg/>")

    def write(self, name, text):
        with open(os.path.join(self.folder, name), "w", encoding="utf-8") as file:
            file.write(text)

    def outcome(self, *words):
        done = subprocess.run([sys.executable, os.path.join(self.folder, TOOL), *words], capture_output=True, text=True, check=False)
        return done.returncode, done.stderr

    def test_links_that_lead_somewhere(self):
        self.assertEqual(self.outcome("--sources"), (0, ""))

    def test_each_broken_link(self):
        for wanted, put, said in EDITS:
            with self.subTest(put):
                self.assertIn(wanted, PAGE)
                self.write("README.md", PAGE.replace(wanted, put))
                self.assertEqual(self.outcome("--sources"), (1, f"check-links: {said}\n"))

    def test_words(self):
        self.assertEqual(self.outcome("--any")[0], 2)
        self.assertEqual(self.outcome("--site")[0], 2)

    def test_a_site(self):
        """The pages of a site, by their identifiers."""
        page = '<a href="docs/b.html#it">b</a> <img src="docs/p.png"> <a href="https://example.org">out</a> <a href="?q=a">self</a>'
        self.write("docs/b.html", '<h1 id="it">b</h1>')
        self.write("docs/p.png", "")
        for wanted, put, status, said in (("", "", 0, ""), ("#it", "#at", 1, "site/a.html: docs/b.html#at: docs/b.html has no such anchor"),
                                          ("p.png", "q.png", 1, "site/a.html: docs/q.png: there is no such file")):
            with self.subTest(put):
                self.write("a.html", page.replace(wanted, put))
                self.assertEqual(self.outcome("--site", self.folder), (status, f"check-links: {said}\n" if said else ""))

    def test_where_links_are(self):
        """A link is where it is in the page, code before it or not."""
        for link in markdown.links(PAGE):
            self.assertIn(link.target, PAGE[link.begin:link.end])
        self.assertEqual([it.target for it in markdown.links("``a ` b`` [c](d) `e` [f `g`](h(i)) [j]( k)")], ["d", "h(i)"])


class Site(unittest.TestCase):
    """The site of a small clone."""

    def test_it_is_made_and_warns(self):
        with tempfile.TemporaryDirectory() as top:
            for name in ("site", "markdown_links.py"):
                os.makedirs(os.path.join(top, "tools", "publish"), exist_ok=True)
                shutil.copy(os.path.join(recorded.TOP, "tools", "publish", name), os.path.join(top, "tools", "publish", name))
            tool = os.path.join(top, "tools", "publish", "site")
            if subprocess.run([sys.executable, tool, "--there"], check=False).returncode:
                self.skipTest("there is no Sphinx with MyST")
            with open(os.path.join(top, "cfetbl"), "w", encoding="utf-8") as file:
                file.write(f"#!/bin/sh\necho cfetbl {NUMBER}\n")
            os.chmod(os.path.join(top, "cfetbl"), 0o755)
            os.makedirs(os.path.join(top, "docs", "reference"))
            pages = {"README.md": "# First\n\n[b](docs/reference/b.md#two), [tools](tools)\n", "docs/README.md": "# Index\n\n[first](../README.md)\n",
                     "docs/reference/b.md": "# B\n\n## Two\n\nuncommonword\n"}
            for name, text in pages.items():
                with open(os.path.join(top, name), "w", encoding="utf-8") as file:
                    file.write(text)
            folder = os.path.join(top, "out", "html")
            self.assertEqual(self.made(tool), (0, ""))
            with open(os.path.join(folder, "index.html"), encoding="utf-8") as file:
                first = file.read()
            self.assertIn('href="docs/reference/b.html#two"', first)
            self.assertIn(f"cfetbl {NUMBER}", first)
            self.assertNotIn('href="tools"', first)
            with open(os.path.join(folder, "searchindex.js"), encoding="utf-8") as file:
                self.assertIn("uncommonword", file.read())
            with open(os.path.join(top, "README.md"), "a", encoding="utf-8") as file:
                file.write("\n[c](docs/reference/b.md#three)\n")
            status, said = self.made(tool)
            self.assertEqual(status, 1)
            self.assertIn("three", said)

    def test_without_a_generator(self):
        loader = importlib.machinery.SourceFileLoader("site_of_docs", os.path.join(recorded.TOP, "tools", "publish", "site"))
        tool = importlib.util.module_from_spec(importlib.util.spec_from_loader(loader.name, loader))
        loader.exec_module(tool)
        with mock.patch.object(tool, "PYTHONS", ("/bin/false", "/no/such/python")), contextlib.redirect_stderr(io.StringIO()) as said:
            self.assertEqual((tool.main(["--there"]), said.getvalue()), (3, ""))
            self.assertEqual(tool.main([]), 3)
            self.assertEqual(said.getvalue(), "site: there is no Sphinx with MyST (Debian's python3-sphinx and python3-myst-parser)\n")
            self.assertEqual(tool.main(["--any"]), 2)

    @staticmethod
    def made(tool):
        done = subprocess.run([sys.executable, tool], capture_output=True, text=True, check=False)
        return done.returncode, done.stderr


if __name__ == "__main__":
    unittest.main()
