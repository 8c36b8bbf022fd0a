"""Objects that C compilers make for the tests of tables by field. What isn't there is said once, and what needs it isn't tried."""
import functools
import os
import shutil
import subprocess
import sys
import tempfile
import unittest

from tblkit.fields import reader
from tblkit.fields.wrong import NoReader

from . import installed, recorded

INCLUDE = os.path.join(recorded.TOP, "c", "include")
# The targets of clang by the names of --print-targets, where a triple needs more than this name or has to be of ELF. Those without
# a triple make no ELF objects of C, or need what clang doesn't have itself.
TRIPLES = {
    "aarch64": "aarch64-linux-gnu", "aarch64_be": "aarch64_be-linux-gnu", "arm": "arm-none-eabi", "armeb": "armeb-none-eabi",
    "bpfeb": "bpfeb", "bpfel": "bpfel", "hexagon": "hexagon", "lanai": "lanai", "loongarch32": "loongarch32-linux-gnu",
    "loongarch64": "loongarch64-linux-gnu", "m68k": "m68k-linux-gnu", "mips": "mips-linux-gnu", "mips64": "mips64-linux-gnuabi64",
    "mips64el": "mips64el-linux-gnuabi64", "mipsel": "mipsel-linux-gnu", "ppc32": "powerpc-linux-gnu", "ppc32le": "powerpcle-linux-gnu",
    "ppc64": "powerpc64-linux-gnu", "ppc64le": "powerpc64le-linux-gnu", "r600": "r600", "riscv32": "riscv32-unknown-elf",
    "riscv64": "riscv64-unknown-elf", "sparc": "sparc-linux-gnu", "sparcel": "sparcel-linux-gnu", "sparcv9": "sparcv9-linux-gnu",
    "systemz": "s390x-linux-gnu", "thumb": "thumb-none-eabi", "thumbeb": "thumbeb-none-eabi", "ve": "ve-linux-gnu",
    "x86": "i386-linux-gnu", "x86-64": "x86_64-linux-gnu"}
# A big-endian one, whose objects have relocations in their debugging information.
POWERPC = "powerpc-linux-gnu"


def _has_reader():
    try:
        reader.library()
    except NoReader:
        return False
    return True


HAS_READER, CLANG, HOST = _has_reader(), shutil.which("clang"), shutil.which("cc") or shutil.which("clang")
# What isn't there, by its package.
MISSING = [package for package, is_there in (("python3-pyelftools", HAS_READER), ("clang", CLANG), ("gcc", HOST)) if not is_there]
needs_reader = unittest.skipUnless(HAS_READER and HOST, "no pyelftools or no C compiler")


@functools.cache
def targets():
    """The triples of the targets that this clang has and that make ELF objects."""
    said = subprocess.run([CLANG, "--print-targets"], capture_output=True, text=True, check=True).stdout
    known = {line.split()[0] for line in said.splitlines()[1:] if line.split()}
    return tuple(triple for name, triple in TRIPLES.items() if name in known)


# What compares targets needs a big-endian one at least.
needs_clang = unittest.skipUnless(HAS_READER and HOST and CLANG and POWERPC in targets(), "no pyelftools or no clang for PowerPC")


def made(source, folder, name, *words, target=None, compiler=None):
    """The path of an object that a compiler makes of C source: of clang's target where one is named, and else of this machine."""
    path, text = os.path.join(folder, f"{name}.o"), os.path.join(folder, f"{name}.c")
    with open(text, "w", encoding="ascii") as file:
        file.write(source)
    front = [CLANG, f"--target={target}", "-ffreestanding", "-fintegrated-as"] if target else [compiler or HOST]
    done = subprocess.run([*front, "-g", f"-I{INCLUDE}", *words, "-c", text, "-o", path], capture_output=True, text=True, check=False)
    if done.returncode:
        raise AssertionError(f"{' '.join(front)} compiles no {name}.c: {done.stderr}")
    return path


def cross_compilers():
    """The compilers of GCC for other machines that are there."""
    names = (f"{triple}-gcc" for triple in (
        "arm-none-eabi", "m68k-linux-gnu", "mips-linux-gnu", "powerpc-linux-gnu", "powerpc-rtems6", "riscv64-unknown-elf", "sh4-linux-gnu",
        "sparc64-linux-gnu", "sparc-rtems6", "arm-rtems6"))
    return [name for name in names if shutil.which(name)]


class InFolder(unittest.TestCase):
    """Tests with a folder of their own, and objects in it."""

    @classmethod
    def setUpClass(cls):
        cls._temporary = tempfile.TemporaryDirectory()
        cls.folder = cls._temporary.name

    @classmethod
    def tearDownClass(cls):
        cls._temporary.cleanup()

    @classmethod
    def path(cls, name):
        return os.path.join(cls.folder, name)

    @classmethod
    def write(cls, name, content):
        with open(cls.path(name), "wb") as file:
            file.write(content)
        return cls.path(name)

    @classmethod
    def read(cls, name):
        with open(cls.path(name), "rb") as file:
            return file.read()


def main():
    """Installs what isn't there, for the check that calls the tests, where that may be done; else it says what isn't tried."""
    for package in MISSING:
        installed.install("check-tools", package)
    wanted = (("pyelftools", _has_reader()), ("clang", shutil.which("clang")), ("C compiler", shutil.which("cc")))
    left = [it for it, is_there in wanted if not is_there]
    if left:
        print(f"check-tools: there is no {', no '.join(left)}, so tables by field aren't tried with it", file=sys.stderr)


if __name__ == "__main__":
    main()
