"""What valgrind's callgrind counts of one run: the instructions of each function, and how often which function calls which.

The format is that of the "Callgrind Format Specification" of valgrind's manual: a name stands once with its number, and then by
the number alone.
"""
import re
from collections import Counter

TOTAL = re.compile(r"^(?:summary|totals): (\d+)", re.M)
NAMED = re.compile(r"(fn|cfn)=\((\d+)\)(?: (.*))?")
# How often a function was called. The next line has what it cost.
CALLS = re.compile(r"calls=(\d+) ")
# A place in the function, and its own cost there.
COST = re.compile(r"[\d*+-]\S* (\d+)")


def instructions(said) -> int:
    """How many instructions the run took."""
    return int(TOTAL.search(said)[1])


def read(said) -> tuple[Counter[str], Counter[tuple[str, str]]]:
    """How many instructions each function took itself, and how often each called each other one, by their names."""
    own, calls, names = Counter(), Counter(), {}
    caller = callee = ""
    lines = iter(said.splitlines())
    for line in lines:
        if row := NAMED.match(line):
            kind, number, name = row.groups()
            name = names.setdefault(number, name)
            caller, callee = (name, "") if kind == "fn" else (caller, name)
        elif row := CALLS.match(line):
            calls[caller, callee] += int(row[1])
            next(lines)
        elif row := COST.match(line):
            own[caller] += int(row[1])
    return own, calls
