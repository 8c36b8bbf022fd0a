"""An image judged by the application's own validation function, in a process of its own: what it returns, and which events it sends."""
import json
import os
import shlex
import shutil
import signal
import subprocess
import sys
import tempfile
from dataclasses import dataclass

from .. import programs
from .wrong import Wrong

STAND_INS = os.path.join(programs.IN_C, "stand-ins", "cfe.c")
CALLER = os.path.join(os.path.dirname(os.path.realpath(__file__)), "caller.py")
# How long a function may be at work, and how long nothing may be heard of it, in seconds.
LONGEST, LONGEST_WAIT = 2, 300


@dataclass(frozen=True)
class Verdict:
    """The return code of a validation function, and its events as lines."""
    code: int
    lines: tuple[str, ...]


def _stand_ins(folder: str) -> str:
    """A library with stand-ins for what the function calls of cFE."""
    words = shlex.split(os.environ.get("CC", "cc"))
    if not words or shutil.which(words[0]) is None:
        raise Wrong(f"{words[0] if words else 'cc'}: a C compiler is needed for stand-ins of cFE's events, "
                    "and there is none ($CC names one)")
    path = os.path.join(folder, "stand-ins.so")
    done = subprocess.run([*words, "-shared", "-fPIC", "-o", path, STAND_INS], stdin=subprocess.DEVNULL, capture_output=True, text=True,
                          check=False)
    if done.returncode:
        raise Wrong(f"{STAND_INS}: {words[0]} can't build it: {(done.stderr.splitlines() or ['no word why'])[0]}")
    return path


def judge(library: str, function: str, image: bytes) -> Verdict:
    """What the function of a shared library says of an image in the host's layout."""
    if not os.path.isfile(library):
        raise Wrong(f"{library}: there is no such library")
    with tempfile.TemporaryDirectory() as folder:
        words = [sys.executable, "-I", CALLER, _stand_ins(folder), os.path.abspath(library), function, str(LONGEST)]
        try:
            done = subprocess.run(words, input=image, capture_output=True, timeout=LONGEST_WAIT, check=False)
        except subprocess.TimeoutExpired:
            raise Wrong(f"{function}: it hasn't returned after {LONGEST_WAIT} seconds") from None
    if done.returncode:
        raise Wrong(_why(library, function, done))
    told = [json.loads(line) for line in done.stdout.splitlines()]
    return Verdict(told[-1]["code"], tuple(it["line"] for it in told[:-1]))


def _why(library: str, function: str, done) -> str:
    """Why there is no verdict."""
    said = done.stderr.decode("utf-8", "replace").strip().splitlines()
    if done.returncode == -signal.SIGXCPU:
        return f"{function}: it hasn't returned after {LONGEST} seconds of work"
    if done.returncode < 0:
        return f"{function}: it ended by the signal {signal.Signals(-done.returncode).name}"
    reason = said[-1] if said else f"it ended the process with {done.returncode}"
    undefined = "undefined symbol: "
    if undefined in reason and not reason.endswith(undefined + function):
        return f"{library}: it uses {reason.rpartition(undefined)[2]}, which isn't in it: link what defines that into it"
    if reason.endswith(undefined + function):
        return f"{library}: it has no function {function}"
    return f"{library}: {reason.removeprefix(library + ': ')}"
