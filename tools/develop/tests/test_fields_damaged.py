"""Object files that are damaged: each is read, or refused in one line. None ends a tool by a traceback, and none keeps it at work."""
import os
import random
import resource
import signal
import subprocess
import sys

from tblkit.fields import definitions, ground, loads, shown
from tblkit.fields.wrong import Wrong

from . import compiled
from .amounts import amount
from .test_commands import DEVELOP, call
from .test_fields_targets import MEMBERS, text_of

OBJECTS, SECONDS, MEMORY = amount(5_000, 800), 10, 1 << 30
TARGETS = (None, compiled.POWERPC, "riscv64-unknown-elf", "sparc-linux-gnu")


def damaged(content, chance):
    """An object with damage of some kind: cut, changed in some bytes, mostly in its headers or at any place, or made up."""
    kind, made = chance.randrange(6), bytearray(content)
    if kind == 0:
        return content[:chance.randrange(len(content))]
    if kind == 1:
        return content[:4] + chance.randbytes(chance.randrange(2000))
    if kind == 2:
        at = chance.randrange(len(made))
        made[at:at + chance.randrange(1, 200)] = chance.randbytes(chance.randrange(200))
        return bytes(made)
    # The headers of sections are at the end, and the ELF header is at the front.
    begin, end = {3: (4, 64), 4: (len(made) - 2000, len(made)), 5: (0, len(made))}[kind]
    for _ in range(chance.randrange(1, 8)):
        made[chance.randrange(max(begin, 0), end)] = chance.choice((0, 0xFF, 0x7F, 0x80, chance.randrange(256)))
    return bytes(made)


class StillAtWork(BaseException):
    """A damaged object keeps its reader at work."""


def _at_work(*_):
    raise StillAtWork


def try_all(first, step, count, names):
    """In a process of its own, with so much memory: reads damaged objects, and shows what is read in each form."""
    resource.setrlimit(resource.RLIMIT_AS, (MEMORY, MEMORY))
    signal.signal(signal.SIGALRM, _at_work)
    whole = []
    for name in names:
        with open(name, "rb") as file:
            whole.append(file.read())
    refused = 0
    for number in range(first, count, step):
        content = damaged(whole[number % len(whole)], random.Random(number))
        signal.alarm(SECONDS)
        try:
            definition = definitions.of_content("damaged.o", content, MEMBERS if number % 2 else ())
        except Wrong as wrong:
            assert str(wrong) and "\n" not in str(wrong), (number, str(wrong))
            refused += 1
            continue
        for form in (shown.shape, shown.as_json, ground.xtce, ground.openc3):
            form(definition)
        "\n".join(loads.dump(definition, loads.whole(definition)))
    signal.alarm(0)
    print(refused)


@compiled.needs_reader
class Damaged(compiled.InFolder):
    def objects(self):
        targets = [it for it in TARGETS if it is None or compiled.CLANG and it in compiled.targets()]
        return [compiled.made(text_of("fields.c"), self.folder, f"object{at}", target=it) for at, it in enumerate(targets)]

    def test_many(self):
        step, objects, refused = len(os.sched_getaffinity(0)), self.objects(), 0
        running = [self.started(first, step, objects) for first in range(step)]
        for one in running:
            written, said = one.communicate()
            self.assertEqual((one.returncode, said), (0, ""))
            refused += int(written)
        self.assertGreater(refused, OBJECTS // 4)

    @staticmethod
    def started(first, step, objects):
        words = [sys.executable, "-m", "tests.test_fields_damaged", *map(str, (first, step, OBJECTS)), *objects]
        return subprocess.Popen(words, cwd=DEVELOP, stdout=subprocess.PIPE, stderr=subprocess.PIPE, text=True)

    def test_by_the_command(self):
        content = self.read(os.path.basename(self.objects()[0]))
        for number in range(amount(20, 6)):
            with self.subTest(number):
                path = self.write("damaged.o", damaged(content, random.Random(number)))
                status, written, said = call("table", "build", path, "-o", self.path("made.tbl"))
                self.assertIn(status, (0, 1))
                if status:
                    self.assertRegex(said, r"\Acfetbl table: \S+damaged.o: .+\n\Z")
                    self.assertEqual((written, os.path.exists(self.path("made.tbl"))), (b"", False))
                else:
                    os.remove(self.path("made.tbl"))


if __name__ == "__main__":
    try_all(*map(int, sys.argv[1:4]), sys.argv[4:])
