"""The pictures of docs/pictures: they are made of their texts, can be read in both themes, and what a description may not be."""
import glob
import os
import re
import subprocess
import sys
import tempfile
import unittest
from xml.etree import ElementTree

import drawing

from . import recorded

FOLDER = os.path.join(recorded.TOP, "docs", "pictures")
SVG = "{http://www.w3.org/2000/svg}"
LEAST_TEXT, LEAST_CONTRAST, LEAST_OF_LINES = 12, 4.5, 3
WRONG = (("box a 0 0 90 40 green A", "a box has one of these looks"), ("box a 0 0 40 40 plain A long text", "doesn't fit"),
         ("box a 0 0 90 20 plain A | B", "doesn't fit"), ("arrow a left -> b right solid", "two boxes"), ("circle 1 2", "circle isn't known"),
         ("box a 0 0 90", "expected 7"), ("note 1 2 x", "a title, what it is about, and a size"))


def pictures():
    return sorted(glob.glob(os.path.join(FOLDER, "*.svg")))


def brightness(color):
    """The relative luminance of a color, by WCAG."""
    parts = [int(color[at:at + 2], 16) / 255 for at in (1, 3, 5)]
    red, green, blue = (it / 12.92 if it <= 0.04045 else ((it + 0.055) / 1.055) ** 2.4 for it in parts)
    return 0.2126 * red + 0.7152 * green + 0.0722 * blue


def contrast(one, other):
    dark, light = sorted((brightness(one), brightness(other)))
    return (light + 0.05) / (dark + 0.05)


class Pictures(unittest.TestCase):
    def test_are_made_of_their_texts(self):
        self.assertGreaterEqual(len(pictures()), 4)
        done = subprocess.run([os.path.join(recorded.TOP, "tools", "publish", "pictures"), "--check"], capture_output=True, text=True, check=False)
        self.assertEqual((done.returncode, done.stderr), (0, ""))

    def test_have_what_a_reader_needs(self):
        for name in pictures():
            with self.subTest(name):
                root = ElementTree.parse(name).getroot()
                self.assertEqual((root[0].tag, root[1].tag), (f"{SVG}title", f"{SVG}desc"))
                self.assertTrue(root[0].text and len(root[1].text) > 80)
                style = root.find(f"{SVG}style").text
                self.assertGreaterEqual(min(map(int, re.findall(r"font:(\d+)px", style))), LEAST_TEXT)
                self.assertIn("@media(prefers-color-scheme:dark)", style)
                self.assertIsNone(re.search(r'(fill|stroke|style|font-size)="', ElementTree.tostring(root, encoding="unicode")))

    def test_contrast(self):
        for theme, colors in drawing.THEMES.items():
            for look in ("back", *drawing.LOOKS):
                with self.subTest(theme, look=look):
                    self.assertGreaterEqual(contrast(colors["ink"], colors[look]), LEAST_CONTRAST)
                    self.assertGreaterEqual(contrast(colors["line"], colors[look]), LEAST_OF_LINES)

    def test_texts_are_inside(self):
        for name in pictures():
            root = ElementTree.parse(name).getroot()
            width, height = float(root.get("width")), float(root.get("height"))
            for it in root.iter(f"{SVG}text"):
                with self.subTest(name, text=it.text):
                    half = drawing.width_of(it.text, it.get("class") == "bold") / 2
                    middle = float(it.get("x")) + (0 if it.get("text-anchor") == "middle" else half)
                    self.assertTrue(half <= middle <= width - half and drawing.FONT <= float(it.get("y")) <= height - 4)

    def test_each_crate_is_there(self):
        with open(os.path.join(recorded.TOP, "crates.txt"), encoding="utf-8") as file:
            crates = {re.split("[: ]", line)[0] for line in file if re.match("[a-z]", line)}
        with open(os.path.join(FOLDER, "layers.svg"), encoding="utf-8") as file:
            self.assertEqual(crates - set(re.findall(r">([a-z_]+)</text>", file.read())), set())


class Descriptions(unittest.TestCase):
    def test_what_is_wrong(self):
        for line, said in WRONG:
            with self.subTest(line), tempfile.TemporaryDirectory() as folder:
                path = os.path.join(folder, "a.txt")
                with open(path, "w", encoding="utf-8") as file:
                    file.write(f"{line}\n")
                with self.assertRaisesRegex(drawing.Wrong, said):
                    drawing.read(path)

    def test_ways(self):
        self.assertEqual(drawing.way((0, 0), "right", (9, 0), "left"), [(0, 0), (9, 0)])
        self.assertEqual(drawing.way((0, 0), "right", (8, 6), "top"), [(0, 0), (8, 0), (8, 6)])
        self.assertEqual(drawing.way((0, 0), "right", (8, 6), "left"), [(0, 0), (4, 0), (4, 6), (8, 6)])
        self.assertEqual(drawing.way((0, 0), "bottom", (8, 6), "top"), [(0, 0), (0, 3), (8, 3), (8, 6)])

    def test_wrong_use(self):
        done = subprocess.run([sys.executable, os.path.join(recorded.TOP, "tools", "publish", "pictures"), "more"], capture_output=True, check=False)
        self.assertEqual(done.returncode, 2)


if __name__ == "__main__":
    unittest.main()
