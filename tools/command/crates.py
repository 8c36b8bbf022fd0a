"""The crates of the repository and what they stand on, by crates.txt, and where the kit is."""
import os
import subprocess

TOP = os.path.dirname(os.path.dirname(os.path.dirname(os.path.realpath(__file__))))


def kit():
    """The folder of the Rattle kit."""
    return os.path.dirname(subprocess.run(["rt", "doc"], stdout=subprocess.PIPE, text=True, check=True).stdout.strip())


def uses():
    """For each crate the libraries that it names, also those of the kit."""
    with open(f"{TOP}/crates.txt", encoding="utf-8") as lines:
        parts = (line.partition("#")[0].partition(":") for line in lines)
        return {name.split()[0]: libraries.split() for name, colon, libraries in parts if colon}


def below(crate):
    """The crates of the repository that a crate stands on, however far below, and itself."""
    libraries = uses()
    found, new = set(), {crate}
    while new:
        found |= new
        new = {it for name in new for it in libraries.get(name, ()) if it in libraries} - found
    return found
