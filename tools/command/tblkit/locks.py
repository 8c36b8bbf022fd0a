"""Which process has a lock on a file, as Linux tells it."""
import os
from dataclasses import dataclass

TABLE = "/proc/locks"


@dataclass(frozen=True)
class Holder:
    """A process that has a lock on a file. Its command is empty where it can't be read."""
    process: int
    command: str

    def words(self) -> str:
        return f"process {self.process}" + (f" ({self.command})" if self.command else "")


def holders(path) -> list[Holder]:
    """The processes that have the file at a path locked, by its device and inode. None of them is known where the system
    doesn't tell."""
    try:
        found = os.stat(path)
        with open(TABLE, encoding="ascii") as lines:
            rows = [line.split() for line in lines]
    except (OSError, ValueError):
        return []
    own = f"{os.major(found.st_dev):02x}:{os.minor(found.st_dev):02x}:{found.st_ino}"
    # (a process that waits for a lock has an arrow after its number)
    numbers = {int(row[4]) for row in rows if len(row) >= 6 and row[1] != "->" and row[5] == own}
    return [Holder(it, _command_of(it)) for it in sorted(numbers) if it > 0]


def _command_of(process) -> str:
    """The words of a process, the program's without its folder."""
    try:
        with open(f"/proc/{process}/cmdline", "rb") as file:
            program, *words = file.read().rstrip(b"\0").split(b"\0")
    except OSError:
        return ""
    return " ".join(map(os.fsdecode, (os.path.basename(program), *words)))


def in_use(path) -> str:
    """That a file is in use, and by whom; empty where no lock on it is known."""
    found = holders(path)
    return f"{path} is in use by {', '.join(it.words() for it in found)}" if found else ""
