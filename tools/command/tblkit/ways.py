"""The way of a request through the program: which functions it calls, how often that changes the crate, and where they stand.

The symbol of a function of Rattle begins with its crate and its modules, as `tbl_core::parts::Parts::play::<#c4cd>`.
"""
import os

from .programs import TOP

# The function that plays a request.
STEP = "tbl_core::service::Core::step"


def crate_of(symbol) -> str:
    """The crate of a function; empty where it isn't one of Rattle."""
    front, joint, _ = symbol.partition("::")
    return front if joint else ""


def is_written(symbol) -> bool:
    """Whether somebody wrote the function. What drops a value is named after its type, as `a::core++option++Option+Destruct::drop`."""
    return "+" not in symbol.split("::")[1]


def file_of(symbol, top=TOP) -> str:
    """The file in which a function of a crate of the repository stands, as a path from `top`; empty where there is none."""
    crate, *names = symbol.split("::<")[0].split("::")
    source = os.path.join("crates", crate, "src")
    modules = [os.path.join(source, *names[:depth]) + ".rt" for depth in range(len(names) - 1, 0, -1)]
    roots = [os.path.join(source, it) for it in ("lib.rt", "main.rt")]
    return next((it for it in modules + roots if os.path.isfile(os.path.join(top, it))), "")


def below(calls, root) -> set[str]:
    """The functions that are reached from those whose symbol begins with `root`, and these."""
    callees = {}
    for caller, callee in calls:
        callees.setdefault(caller, set()).add(callee)
    found, new = set(), {it for it in callees if it.split("::<")[0] == root}
    while new:
        found |= new
        new = {it for function in new for it in callees.get(function, ())} - found
    return found


class Way:
    """The way of a request from the function `root` on, by how often each function calls each other one: the calls between
    functions that are written in `crates`, which are those of the repository."""

    def __init__(self, calls, crates, root=STEP, top=TOP) -> None:
        reached = below(calls, root)
        self.pairs = {pair: count for pair, count in calls.items() if pair[0] in reached
                      and all(crate_of(it) in crates and is_written(it) for it in pair)}
        self.changing = {pair: count for pair, count in self.pairs.items() if crate_of(pair[0]) != crate_of(pair[1])}
        self.files = {file_of(callee, top) for _, callee in self.pairs} - {""}

    def figures(self) -> list[int]:
        """How many calls there are, in how many the crate changes, the same of different calls, and in how many files they are."""
        return [round(it) for it in (sum(self.pairs.values()), sum(self.changing.values()), len(self.pairs), len(self.changing),
                                     len(self.files))]
