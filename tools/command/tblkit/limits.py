"""The stack that the programs and the library for C have to have, as README.md says it."""
import os
import re

from .programs import TOP

STACK = re.compile(r"a stack of (\d+) kB is enough")


def stack() -> int:
    """How many kilobytes that are."""
    with open(os.path.join(TOP, "README.md"), encoding="utf-8") as file:
        return int(STACK.search(file.read())[1])


def with_stack(kilobytes) -> tuple[str, str, str, str]:
    """The words before those of a program that has so much stack."""
    return "bash", "-c", 'ulimit -s "$0" && exec "$@"', str(kilobytes)
