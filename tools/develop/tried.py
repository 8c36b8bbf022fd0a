"""What the prover said of the wrong bodies outside the gate: the table tools/develop/tried.tsv, a row for each that tools/develop/wrong-bodies tried.

A row has the wrong body as CRATE/NAME, a verdict, and the sum of what it was said of: the edit, and the crate's src/ and specs/ but
for comments. Where these have changed since, the row is stale. What changed in proofs/ or in the crates below isn't told.
"""
import hashlib
import os
from glob import glob

from crates import TOP

# How the prover may judge an edit, with its words for it. The last is any other word.
CONTRACT, NAME, LIMIT, PROVED, UNKNOWN = "contract", "name", "limit", "proved", "unknown"
WORDS = [
    ("refused, as it must be (only because a proof file names", NAME),
    ("refused, as it must be (only by a limit", LIMIT),
    ("refused, as it must be", CONTRACT),
    ("NOT REFUSED", PROVED),
]


def verdict_of(said):
    """The verdict that the prover's words about an edit give."""
    return next((verdict for words, verdict in WORDS if said.startswith(words)), UNKNOWN)


def edits_of(crate):
    """The names of a crate's wrong bodies, in order."""
    return sorted(os.path.basename(it)[:-5] for it in glob(f"{TOP}/crates/{crate}/wrong-bodies/*.edit"))


def crates_with_edits():
    """The crates that have wrong bodies outside the gate, in order."""
    return [it for it in sorted(os.listdir(f"{TOP}/crates")) if edits_of(it)]


def sources_of(crate):
    """What contracts and bodies of a crate say: the lines of its sources and definitions, but for comments and blank ones."""
    said = []
    for path in sorted(glob(f"{TOP}/crates/{crate}/src/**/*.rt", recursive=True) + glob(f"{TOP}/crates/{crate}/specs/**/*.antt", recursive=True)):
        with open(path, encoding="utf-8") as lines:
            said += [path[len(TOP):], *(it for it in map(str.strip, lines) if it and not it.startswith(("//", "--")))]
    return "\n".join(said)


def sum_of(crate, edit, sources):
    """The sum of a wrong body and of its crate's sources."""
    with open(f"{TOP}/crates/{crate}/wrong-bodies/{edit}.edit", encoding="utf-8") as text:
        changes = [line for line in text if not line.startswith("#")]
    return hashlib.sha256("\n".join([*changes, sources]).encode()).hexdigest()[:12]


def sums_of(crate):
    """The sums of a crate's wrong bodies as they stand, by name."""
    sources = sources_of(crate)
    return {it: sum_of(crate, it, sources) for it in edits_of(crate)}


class Tried:
    """The table."""

    def __init__(self, path=f"{TOP}/tools/develop/tried.tsv"):
        self.path = path
        self.read()

    def read(self):
        """Takes the rows from the file."""
        with open(self.path, encoding="utf-8") as lines:
            self.head, *rows = lines.read().splitlines()
        self.rows = {edit: (verdict, sum) for edit, verdict, sum in (it.split("\t") for it in rows)}

    def of(self, crate):
        """For each of a crate's wrong bodies its verdict, or None if it has no row; and whether that was of the sources as they stand."""
        found = {it: (sum, self.rows.get(f"{crate}/{it}", (None, ""))) for it, sum in sums_of(crate).items()}
        return {it: (verdict, sum == was) for it, (sum, (verdict, was)) in found.items()}

    def note(self, crate, verdicts, sums):
        """Notes what was said of a crate's wrong bodies, by name, and writes the table. What can't be judged loses its row. What
        another run has written meanwhile stays."""
        self.read()
        there = set(edits_of(crate))
        rows = {it: row for it, row in self.rows.items() if it.split("/")[0] != crate or it.split("/")[1] in there}
        for edit, verdict in verdicts.items():
            rows[f"{crate}/{edit}"] = (verdict, sums[edit])
        self.rows = {it: rows[it] for it in sorted(rows) if rows[it][0] != UNKNOWN}
        with open(self.path, "w", encoding="utf-8") as table:
            table.write("".join("\t".join(row) + "\n" for row in [(self.head,), *((it, *row) for it, row in self.rows.items())]))
