"""pyelftools, which reads object files and their debugging information (Debian's python3-pyelftools)."""
import functools
import importlib
import importlib.util
import os
import sys
from typing import Any

from .wrong import NoReader

# Debian's package is for Debian's Python. It is Python alone, so another one takes it too.
DEBIAN = "/usr/lib/python3/dist-packages/elftools"
MISSING = ("tables by field need pyelftools, which isn't here: `apt-get install python3-pyelftools` (or, for a Python that isn't "
           "Debian's, `python3 -m pip install pyelftools`)")


@functools.cache
def library() -> Any:
    """The module elftools, with what is used of it."""
    try:
        importlib.import_module("elftools")
    except ImportError:
        _take_debians()
    for name in ("elf.elffile", "dwarf.dwarfinfo", "dwarf.die"):
        importlib.import_module(f"elftools.{name}")
    return sys.modules["elftools"]


def _take_debians() -> None:
    path = os.path.join(DEBIAN, "__init__.py")
    if not os.path.isfile(path):
        raise NoReader(MISSING)
    spec = importlib.util.spec_from_file_location("elftools", path, submodule_search_locations=[DEBIAN])
    sys.modules["elftools"] = importlib.util.module_from_spec(spec)
    spec.loader.exec_module(sys.modules["elftools"])
