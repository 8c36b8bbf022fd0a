"""The package cfetbl: its tree of parsers, the help of each word under its name, and how many processes a command takes."""
import contextlib
import io
import os
import re
import subprocess
import sys
import tempfile
import unittest

from cfetbl import command_line, overview
from tblkit import streams

from . import recorded
from .test_commands import TOOLS, call

FRONT = os.path.join(recorded.TOP, "cfetbl")
HELLO = os.path.join(recorded.TOP, "sessions", "hello")
# The words of which `cfetbl help` has all that their help says.
OF_THE_OVERVIEW = ("play", "crew", "watch", "drill", "resets", "test")
# What takes other options: those of completion and help are for people, and these for tests.
FOR_TESTS = {"--program", "--name"}
# What other programs ask `store`.
FOR_PROGRAMS = {"--begins", "--user"}
# Options that a word takes, since one of the words before it in a description has them, and of which its help tells nothing.
UNTOLD = {"play": {"--end", "--session-order"}, "crew": {"--end", "--session-order"}, "repl": {"--durable"}, "resets": {"--durable"}}


def printed(*words):
    """What the command line writes for words that end it, and its status."""
    output = io.StringIO()
    with contextlib.redirect_stdout(output):
        try:
            status = command_line.status_of(list(words))
        except SystemExit as early:
            status = early.code
    return status, output.getvalue()


def options_of(parser):
    """The options that a parser takes, with those of the parsers below it."""
    found = set()
    for action in parser._actions:
        found.update(it for it in action.option_strings if it.startswith("--"))
        for below in (action.choices or {}).values() if hasattr(action, "choices") and isinstance(action.choices, dict) else ():
            found |= options_of(below)
    return found


class Tree(unittest.TestCase):
    def test_it_has_the_words_of_the_help(self):
        self.assertEqual(sorted({*command_line.WORDS} - {"help"}), sorted({*overview.words()} - {"help"}))
        self.assertEqual(len(command_line.WORDS), 26)

    def test_each_word_has_its_own_help(self):
        for word in command_line.WORDS:
            with self.subTest(word):
                status, written = printed(word, "--help")
                self.assertEqual(status, 0)
                self.assertRegex(written, rf"(?m)^ +cfetbl {word}\b")
                self.assertNotIn("cfetbl-", written)
                self.assertEqual(printed("help", word), (0, written))
                self.assertEqual(printed(word, "-h"), (0, written))
                if word in OF_THE_OVERVIEW:
                    others = set(re.findall(r"(?m)^  cfetbl ([a-z][a-z-]*)", written)) - {word}
                    self.assertEqual(others, {"play"} if word == "crew" and "play" in others else set())

    def test_each_option_is_in_the_help_of_its_word(self):
        """And in the completion for bash, if it is for people."""
        for word, parser in command_line.Tree().words.items():
            with self.subTest(word):
                parser.command()
                taken = options_of(parser) - FOR_TESTS - UNTOLD.get(word, set())
                text = parser.format_help()
                self.assertEqual({it for it in taken - {"--help"} if it not in text}, set())
                if word == "help":
                    continue
                words = f"cfetbl {word} {'build ' if word == 'table' else ''}--"
                script = f'. "$0"; COMP_WORDS=({words}); COMP_CWORD={words.count(" ")}; _cfetbl; printf "%s\\n" "${{COMPREPLY[@]}}"'
                done = subprocess.run(["bash", "-c", script, os.path.join(TOOLS, "completion.bash")], capture_output=True, text=True, check=False)
                self.assertEqual({it for it in done.stdout.split() if it.startswith("--")} - {"--help"},
                                 taken - FOR_PROGRAMS - {"--help"})

    def test_the_completion_has_the_words(self):
        with open(os.path.join(TOOLS, "completion.bash"), encoding="ascii") as file:
            listed = re.search(r" all='([^']*)'", file.read())[1].split()
        self.assertEqual(sorted(listed), sorted({*command_line.WORDS} - {"help"}))

    def test_no_module_of_a_word_is_read_before_it_is_taken(self):
        run = "import sys; from cfetbl import command_line; command_line.Tree(); print(*(it for it in sys.modules if 'commands.' in it))"
        done = subprocess.run([sys.executable, "-c", run], cwd=TOOLS, capture_output=True, text=True, check=True)
        self.assertEqual(done.stdout, "\n")


class Called(unittest.TestCase):
    def test_as_a_module(self):
        done = subprocess.run([sys.executable, "-m", "cfetbl", "explain", "66"], cwd=TOOLS, capture_output=True, check=False)
        self.assertEqual((done.returncode, done.stdout), call("explain", "66")[:2])

    def test_words_that_are_not_right(self):
        for words, said in (([], "no words were given"), (["--help", "--version"], "--help takes no further word"),
                            (["help", "play", "show"], "help takes one word at most"), (["help", "--no"], "unrecognized arguments: --no")):
            with self.subTest(words):
                status, written, errors = call(*words)
                self.assertEqual((status, written), (streams.WRONG_USE, b""))
                self.assertIn(said, errors)

    def started(self, *words, given=b""):
        """How often Python is started for the front command with these words, and what it writes."""
        with tempfile.TemporaryDirectory() as folder:
            python, note = os.path.join(folder, "python3"), os.path.join(folder, "note")
            with open(python, "w", encoding="utf-8") as file:
                file.write(f'#!/bin/bash\necho >> "{note}"\nexec "{sys.executable}" "$@"\n')
            os.chmod(python, 0o755)
            done = subprocess.run([FRONT, *words], input=given, capture_output=True, cwd=folder, check=True,
                                  env=os.environ | {"PATH": f"{folder}:{os.environ['PATH']}"})
            if not os.path.exists(note):
                return 0, done.stdout
            with open(note, encoding="ascii") as file:
                return len(file.readlines()), done.stdout

    def test_one_process_a_command(self):
        with open(HELLO + ".session", "rb") as file:
            session = file.read()
        with open(HELLO + ".transcript", "rb") as file:
            transcript = file.read()
        self.assertEqual(self.started("play", given=session), (0, transcript))
        self.assertEqual(self.started("play", HELLO + ".txt"), (1, transcript))
        shown = call("show", HELLO + ".txt", HELLO + ".transcript")[1]
        for words in (("play", "--show", HELLO + ".txt"), ("crew", "--show", HELLO + ".session"), ("play", "--show", "--store", "none", HELLO + ".txt")):
            with self.subTest(words):
                self.assertEqual(self.started(*words), (1, shown))
        self.assertEqual(self.started("watch", HELLO + ".txt")[0], 1)
        self.assertEqual(self.started("help")[0], 0)


if __name__ == "__main__":
    unittest.main()
