"""Calls a service that is running: plays lines of session text at it, and prints their answers.

    cfetbl call SOCKET [LINE..]

SOCKET is the path that `cfetbl serve --socket` was given. Each LINE is one of session text, in quotes; without a LINE, the lines of
standard input are sent, one after the other. `cfetbl text --help` has their forms.

Exit status: 0 if each line was answered, whatever the service said of it; 1 if a line can't be played; 2 for wrong use, or if
nobody serves at the path; 4 if a write fails; 5 if the service ended before it had answered.
"""
import re
import socket
import sys

from tblkit.streams import WRONG_USE, fail

TOOL = "cfetbl call"
WRONG_LINE, GONE = 1, 5
# What the answer to a record begins with: its place in the session.
ANSWER = re.compile(r"\d+ (app|ground|file|time|reset) ?")


def add_arguments(parser) -> None:
    parser.add_argument("socket", metavar="SOCKET")
    parser.add_argument("lines", nargs="*", metavar="LINE")


def connected(path) -> socket.socket:
    caller = socket.socket(socket.AF_UNIX, socket.SOCK_STREAM)
    try:
        caller.connect(path)
    except (OSError, ValueError) as error:
        fail(TOOL, f"nobody serves at {path}: {getattr(error, 'strerror', None) or error}", WRONG_USE)
    return caller


def answer_to(caller, answers, line) -> list[str]:
    """The lines of the answer to a line."""
    try:
        caller.sendall(line.rstrip("\n").encode("utf-8", "surrogateescape") + b"\n")
        told = []
        while (answer := answers.readline()) != "\n":
            if not answer:
                raise ConnectionError
            told.append(answer)
    except ConnectionError:
        fail(TOOL, f"the service ended before it answered {line.strip()}", GONE)
    return told


def main(chosen, _parser) -> int:
    status = 0
    with connected(chosen.socket) as caller, caller.makefile("r", encoding="utf-8") as answers:
        for line in chosen.lines or sys.stdin or ():
            for part in line.splitlines():
                told = answer_to(caller, answers, part)
                print("".join(told), end="", flush=True)
                if told and not ANSWER.match(told[0]):
                    status = WRONG_LINE
    return status
