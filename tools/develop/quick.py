"""`cfetbl test --quick`: compiles the programs without any proof and tries them, in a few jobs at a time. What takes long without a proof is
tried with less, or left for the whole gate."""
import compileall
import os
import runpy
import shutil
import subprocess
import tempfile
import threading
import time
from collections.abc import Callable
from concurrent.futures import FIRST_COMPLETED, Future, ThreadPoolExecutor, wait
from dataclasses import dataclass, field
from glob import glob

import unproved
from crates import TOP
from tblkit.progress import Ticker, span
from tblkit.streams import say

FRONT = f"{TOP}/cfetbl"
# The words that find or build a program. What is compiled over the library for C takes longest, and few jobs need it.
OVER_C = ("serve-app",) if shutil.which(os.environ.get("CC", "cc")) else ()
COMMON = ("play", "serve", "resets")
# The parts of tools/develop/gate/check-cfetbl that are tried at once, the longest first, and the programs that each needs.
OF_THE_COMMAND = (("resets", COMMON), ("places", COMMON), ("whole evidence kinds", COMMON), ("words lists sessions crews", ("play",)),
                  ("tools ends terminals stores made_files", ("play",)), ("looks watches drills builds gate slow manual", ("play",)))
# The checks of what doesn't need a program.
OF_SOURCES = (["tools/develop/gate/check-links"], ["tools/develop/gate/check-types"], ["tools/develop/gate/check-numbers"], ["tools/develop/gate/claims", "--check"],
              ["tools/develop/gate/measures"], ["tools/develop/gate/believed", "--check"], ["tools/develop/gate/check-labels"], ["tools/develop/gate/check-formats"],
              ["tools/publish/pictures", "--check"])
# How many parts the tests of the tools, the pages of docs/use and the recorded sessions have.
TESTS, PAGES, SESSIONS = 11, 2, 4
NEEDS_C = "test_serve_app.py"
RECORDED = "../shared/conformance/run"
# A recorded session of more bytes, and a drill of more rounds, take some seconds each without a proof.
MOST_BYTES, MOST_ROUNDS = 180_000, 5_000
# The checks try less where that shows the same (tools/develop/tests/amounts.py). Python's files are compiled before them: one that is compiled under a
# limit for files may be cut off.
ENVIRONMENT = {"CFETBL_UNPROVED": "quiet", "CFETBL_TEST": "quick", "PYTHONDONTWRITEBYTECODE": "1"}
# The programs for tests whose rows take less than a minute without a proof.
WITH_ROWS = ("test_maker", "test_codecs")


@dataclass(eq=False)
class Job:
    """A piece of work: its name, what does it and answers why it failed, the programs without which it can't begin, and the one that it
    makes."""
    name: str
    work: Callable[[], str]
    needs: tuple[str, ...] = COMMON
    makes: str = ""
    fault: str | None = None


@dataclass
class Jobs:
    """All jobs, and when those that are at work began."""
    all: list[Job]
    begun: dict[str, float] = field(default_factory=dict)
    lock: threading.Lock = field(default_factory=threading.Lock)

    def do(self, job: Job) -> None:
        with self.lock:
            self.begun[job.name] = time.monotonic()
        fault = job.work()
        with self.lock:
            del self.begun[job.name]
            job.fault = fault
        if fault:
            say(f"test: {job.name}: {fault}")

    def tell(self, seconds: float) -> str:
        with self.lock:
            done, now = sum(it.fault is not None for it in self.all), time.monotonic()
            work = ", ".join(f"{name} {span(now - begun)}" for name, begun in self.begun.items())
        return f"test: {done} of {len(self.all)} are done, without any proof; {span(seconds)} so far; at work: {work or 'nothing'}"


def ran(words: list[str]) -> str:
    """Runs a check, and answers why it failed, with its last lines."""
    done = subprocess.run(words, cwd=TOP, stdin=subprocess.DEVNULL, stdout=subprocess.PIPE, stderr=subprocess.STDOUT, check=False,
                          env=os.environ | ENVIRONMENT)
    last = done.stdout.decode(errors="replace").splitlines()[-20:]
    return "\n".join([f"it ended with {done.returncode}", *last]) if done.returncode else ""


def rows(crate: str) -> str:
    """Has a program for tests read its rows, and answers what it writes otherwise than it should."""
    given, wanted = (f"{TOP}/crates/{crate}/{name}" for name in ("stdin", "stdout"))
    with tempfile.TemporaryDirectory() as folder, open(wanted, "rb") as file:
        said = f"{folder}/said"
        with unproved.at_work(unproved.command(crate, TOP, session=given), crate, TOP, folder, said, subprocess.PIPE) as tool:
            written, _ = tool.communicate()
        if tool.returncode:
            return f"the kit's compiler ended with {tool.returncode}\n{unproved.complaint(said)}"
        return "" if written == file.read() else f"it writes other than crates/{crate}/stdout"


def program(word: str) -> str:
    """The path of the program of a word, which is there."""
    return subprocess.run([FRONT, "--program", word], capture_output=True, text=True, check=True).stdout.strip()


def tests(part: int) -> Job:
    """A part of the tests of the tools."""
    has_app = any(it.endswith(NEEDS_C) for it in sorted(glob(f"{TOP}/tools/develop/tests/test_*.py"))[part::TESTS])
    words = ["tools/develop/gate/check-tools", "--part", f"{part + 1}/{TESTS}"]
    return Job(f"the tests of tools, part {part + 1}", lambda: ran(words), COMMON + OVER_C if has_app else COMMON)


def pages(part: int) -> Job:
    """A part of the pages whose commands are played."""
    found = [f"{TOP}/README.md", *sorted(glob(f"{TOP}/docs/use/*.md"))][part::PAGES]
    return Job(f"the pages of docs/use, part {part + 1}", lambda: ran(["tools/develop/gate/check-use", *found]), COMMON + OVER_C)


class Recorded:
    """The recorded sessions that lie beside the repository, without those that take long."""

    def __init__(self) -> None:
        self.runner = runpy.run_path(f"{TOP}/{RECORDED}") if os.path.exists(f"{TOP}/{RECORDED}") else {}
        self.left_out: dict[int, int] = {}

    def is_long(self, case: dict) -> bool:
        if case["args"][:1] == ["drill"]:
            return case["args"][-1].isdecimal() and int(case["args"][-1]) > MOST_ROUNDS
        return len(self.runner["unpack"](case["in"])) > MOST_BYTES

    def cases(self, part: int) -> tuple[int, list[dict]]:
        """The number of the last request, and the cases of a part that hold from then on."""
        packs = self.runner["packs"]()
        last = list(packs.values())[-1]
        found = [it for pack in packs for number, it in enumerate(self.runner["cases"](pack)) if number % SESSIONS == part]
        return last, [it for it in found if not it.get("until_out", it["until"]) or it.get("until_out", it["until"]) > last]

    def play(self, part: int) -> str:
        """Plays a part of them, and answers which came otherwise than they should."""
        (last, cases), place = self.cases(part), program("play")
        short = [it for it in cases if not self.is_long(it)]
        self.left_out[part] = len(cases) - len(short)
        faults = [f"{it['name']}: {fault}" for it in short if (fault := self.runner["run_case"](place, it, last))]
        return "\n".join([f"{len(faults)} of {len(short)} failed", *faults[:5]]) if faults else ""

    def jobs(self) -> list[Job]:
        parts = range(SESSIONS if self.runner else 0)
        return [Job(f"recorded sessions, part {part + 1}", lambda part=part: self.play(part), ("play",)) for part in parts]


def jobs(recorded: Recorded) -> list[Job]:
    """What is done, the longest first, and what few programs are needed for before the rest."""
    found = [Job(f"the program of {word}", lambda word=word: ran([FRONT, "--program", word]), (), word) for word in ("play", *OVER_C, "resets", "serve")]
    found += [Job(f"the rows of {crate}", lambda crate=crate: rows(crate), ()) for crate in WITH_ROWS]
    found += [tests(part) for part in range(TESTS)]
    found += [Job(f"check-cfetbl {part}", lambda part=part: ran(["tools/develop/gate/check-cfetbl", *part.split()]), needs) for part, needs in OF_THE_COMMAND]
    found += recorded.jobs()
    found += [pages(part) for part in range(PAGES)]
    found += [Job(" ".join(words), lambda words=words: ran(words), ()) for words in OF_SOURCES]
    return found + [Job("the examples", lambda: ran(["tools/develop/gate/check-examples", program("play")]), ("play",))]


def do_all(work: Jobs, pool: ThreadPoolExecutor, most: int) -> None:
    """Does at most so many jobs at a time, each once what it needs is there, the first of them first. If a program can't be made, no
    further job begins."""
    left, running, made = list(work.all), dict[Future[None], Job](), set[str]()
    while left or running:
        for job in [it for it in left if made.issuperset(it.needs)][:most - len(running)]:
            left.remove(job)
            running[pool.submit(work.do, job)] = job
        for future in wait(running, return_when=FIRST_COMPLETED).done:
            future.result()
            job = running.pop(future)
            if job.makes and job.fault:
                return
            made.add(job.makes)


def main() -> int:
    """Does all, and says what failed."""
    begun, recorded = time.monotonic(), Recorded()
    work = Jobs(jobs(recorded))
    # (some jobs mostly wait)
    most = len(os.sched_getaffinity(0)) + 1
    compileall.compile_dir(f"{TOP}/tools", quiet=2)
    with Ticker(work.tell), ThreadPoolExecutor(most) as pool:
        do_all(work, pool, most)
    failed = [job.name for job in work.all if job.fault]
    count = sum(recorded.left_out.values())
    left_out = f", and {count} long recorded sessions are left for it" if count else ""
    end = f"nothing was proved (`cfetbl test` proves and tests everything{left_out})"
    if failed:
        say(f"test: {len(failed)} of {len(work.all)} failed, after {span(time.monotonic() - begun)}: {', '.join(failed)}; {end}")
        return 1
    say(f"test: all passed, in {span(time.monotonic() - begun)}; {end}")
    return 0
