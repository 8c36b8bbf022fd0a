"""A session that you type: each line is played at once, and its answer is printed below it.

    cfetbl repl [--store FILE] [--shape NAME=SHAPE] [--shape-of NAME=OBJ]

It reads lines from standard input. With the last two options it shows images of the table by field, as `cfetbl show` does.

A line is one of session text; `cfetbl text --help` has their forms. If standard input is a terminal, the tab key completes
words, tables, files and handles, and the arrow keys bring back what was typed before. Other lines are:

    :state              the applications, handles and tables, with their images, loads and addresses that are held
    :undo               the session again without its last request
    :reset processor    as the line `reset processor`; power-on too
    :save FILE          writes the requests so far as a session that is text; it asks before it writes over a file, and if there
                        is no terminal to ask at, the file stays
    :help, help         these lines
    :quit, quit         ends, as the end of the input does

The session is played in a folder of its own, over a copy of a store file as it is at the start: of cds.store in the working
folder, or of the FILE of --store; with --store none it begins with an empty store. That file stays as it is. `cfetbl play` of a
session that was saved gives the same over the same file.

Exit status: that of the run; 2 for wrong use, or if a line was wrong that wasn't typed at a terminal; 4 if a write fails;
125 without a program.
"""
import contextlib
import os
import re
import readline
import signal
import sys
from collections.abc import Iterator
from typing import Any

from tblkit import completion, live, programs, shapes, stores, terminal, text
from tblkit.near import meant
from tblkit.numbers import counted
from tblkit.programs import STORE
from tblkit.streams import WRONG_USE, WriteFailed, created, fail, say
from tblkit.words import TextError

TOOL, PROMPT = "cfetbl repl", "> "
# How many seconds go by between looks at whether the program runs, while a line is waited for.
LOOK = 0.2
COMMANDS = re.compile(r"(?::(\w*)\s*(.*)|(help|quit))")
LINES = (":state", ":undo", ":reset", ":save", ":help", ":quit", "help", "quit")


class Console:
    """The session so far: its lines, and the run that plays it."""

    def __init__(self, closing, store, by_field) -> None:
        self._folder, self._lines, self._files, self._shapes = live.Folder(closing, store), [], {}, by_field
        self._run, self._look = live.Running(self._folder.fresh()), terminal.look(is_in_columns=False)
        self.is_wrong = False

    @property
    def is_over(self) -> bool:
        return self._run.end is not None

    def look(self) -> bool:
        """Ends the session where its program has ended by itself. Answers whether it is over."""
        if not self.is_over and self._run.has_ended():
            self._run.finish()
        return self.is_over

    def take(self, line, number) -> bool:
        """Plays a line, or does what one says that begins with a colon. False ends the session."""
        command = COMMANDS.fullmatch(line.strip())
        if command:
            return self._do(command[1] or command[3] or "", command[2] or "")
        try:
            content = text.record_of(line)
        except TextError as error:
            self.is_wrong = True
            say(text.report(f"<stdin>:{number}", line, error))
            return True
        if content:
            self._play(line.strip(), content)
        return True

    def _play(self, line, content) -> None:
        self._lines.append((line, content))
        full_name = text.doubled_name(content, self._run.states.view.applications)
        if full_name:
            say(f"{TOOL}: {text.doubled_words(full_name)}")
        for answer in self._run.ask(content):
            self._files |= dict.fromkeys(live.file_names(answer))
            self._look.write(answer, shapes=self._shapes)
        sys.stdout.flush()

    def _do(self, name, words) -> bool:
        """A line that begins with a colon."""
        if name == "quit":
            return False
        if name == "reset":
            return self.take(f"reset {words}", 0)
        done = {"state": self._state, "undo": self._undo, "help": _help}.get(name)
        if done and not words:
            done()
        elif name == "save" and words:
            self._save(words)
        else:
            self.is_wrong = True
            say(f"{TOOL}: there is no line :{name}{meant(f':{name}', LINES)}; `help` lists them")
        sys.stdout.flush()
        return True

    def _state(self) -> None:
        print("\n".join(self._run.states.lines()) or "no application runs")

    def _undo(self) -> None:
        if not self._lines:
            say(f"{TOOL}: there is no request to undo")
            return
        gone, _ = self._lines.pop()
        self._run.finish()
        self._run = live.Running(self._folder.fresh())
        for _, content in self._lines:
            for _ in self._run.ask(content):
                pass
        print(f"undone: {gone}")

    def _save(self, name) -> None:
        if os.path.exists(name) and not _is_wanted(f"{name} is there already. Write over it? [y/N] "):
            self.is_wrong = True
            say(f"{TOOL}: {name} is there already, and stays as it is")
            return
        try:
            with created(name) as file:
                file.write("".join(f"{line}\n" for line, _ in self._lines).encode())
        except WriteFailed as failed:
            if not sys.stdin.isatty():
                raise
            say(f"{TOOL}: writing failed: {failed}")
            return
        print(f"{name} has {counted(len(self._lines), 'request')}")

    def finish(self) -> int:
        """Ends the run: its status, after the line of its end, or why there is none."""
        status = self._run.finish()
        if self._run.failure():
            say(f"{TOOL}: {self._run.failure()}")
        else:
            print(self._run.end_line())
        return status

    def complete(self, begun, number) -> str | None:
        """The completion of a word that was begun, as readline asks for them by their numbers."""
        front = readline.get_line_buffer()[:readline.get_begidx()]
        found = completion.candidates(front.rstrip(), self._run.states, self._files)
        if front.strip() == "":
            found += LINES
        return next((f"{it} " for at, it in enumerate(it for it in found if it.startswith(begun)) if at == number), None)


def _help() -> None:
    print(__doc__.partition("Other lines are:\n\n")[2].partition("\n\n")[0].replace("    ", "", 1).replace("\n    ", "\n"))


def _is_wanted(question) -> bool:
    """Whether a question is answered with yes at the terminal. Nobody is asked elsewhere."""
    if not sys.stdin.isatty():
        return False
    sys.stdout.flush()
    try:
        return input(question).strip().lower() in ("y", "yes")
    except (EOFError, KeyboardInterrupt):
        print()
        return False


def greet(store) -> None:
    """Says at a terminal what may be typed, and where the store is."""
    begins = stores.begins(TOOL, store, True) if store else "the store is a fresh one, and begins empty"
    if sys.stdin.isatty():
        print(f"{TOOL}: a line of a session is played at once; `help` has further lines, and `quit` ends; {begins}")


class ProgramEnded(Exception):
    """The program has ended by itself while a line was waited for."""


def next_line(console, read) -> Any:
    """The line that `read` waits for, none at the end of the input. An end of the program meanwhile is a ProgramEnded: it is
    looked for again and again, since a signal that comes just before the read wouldn't end it."""
    def look(*_) -> None:
        if console.look():
            raise ProgramEnded

    signal.signal(signal.SIGALRM, look)
    signal.setitimer(signal.ITIMER_REAL, LOOK, LOOK)
    try:
        return read()
    finally:
        signal.setitimer(signal.ITIMER_REAL, 0)


def typed(console) -> Iterator[str]:
    """The lines that are typed at a terminal, or come from elsewhere."""
    if not sys.stdin.isatty():
        while line := next_line(console, sys.stdin.buffer.readline):
            yield line.decode("utf-8", "replace")
        return
    readline.set_completer(console.complete)
    readline.set_completer_delims(" \t")
    readline.parse_and_bind("tab: complete")
    while True:
        sys.stdout.flush()
        try:
            yield next_line(console, lambda: input(PROMPT))
        except KeyboardInterrupt:
            print()
        except EOFError:
            print()
            return


def add_arguments(parser) -> None:
    parser.add_argument("--store", metavar="FILE", default=STORE)
    parser.add_argument("--durable", action="store_true")
    shapes.add_options(parser)


def main(chosen, parser) -> int:
    if chosen.durable:
        parser.error("the session is played over a copy of the store file, so --durable has nothing to keep")
    # The store file of which a copy is played over, or None for a fresh one.
    store = None if chosen.store == stores.NONE else chosen.store
    by_field = shapes.of_options(TOOL, parser, chosen)
    greet(store)
    with contextlib.ExitStack() as closing:
        try:
            console = Console(closing, store, by_field)
        except programs.NoProgram as none:
            fail(TOOL, str(none), programs.NO_PROGRAM)
        with contextlib.suppress(ProgramEnded):
            for number, line in enumerate(typed(console), 1):
                if not console.take(line.removeprefix("\ufeff") if number == 1 else line, number) or console.is_over:
                    break
        status = console.finish()
    return status or (WRONG_USE if console.is_wrong and not sys.stdin.isatty() else 0)
