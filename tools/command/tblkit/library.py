"""Calls of the library for C, so many in a row: the processor time of one, and the memory of the process (tools/develop/calls.c)."""
import os
import subprocess
from collections.abc import Iterator
from typing import NamedTuple

from . import works
from .programs import TOP

# How many calls are made in a row.
COUNTS = (100, 10_000, 1_000_000)
# How often each is timed. The least counts.
RUNS = 7


class Row(NamedTuple):
    """What is called: its name, the work of the same requests, and the word of tools/develop/calls.c for it; none if it plays records."""

    name: str
    work: works.Work
    word: str = ""


class Took(NamedTuple):
    """How many nanoseconds of processor time a request took, and how many kilobytes the process had at most."""

    nanoseconds: float
    kilobytes: int


def rows() -> Iterator[Row]:
    """All that is timed: records by tbl.h, and calls by cfetbl.h."""
    loaded = works.loaded(64)
    noop, load = ("ground NOOP",), ("app 1 load 0 fill 5A 64",)
    yield Row("`tbl_step` of a NOOP", works.Work("NOOP", (), noop, 16_000))
    yield Row("`tbl_step` of Get, Read, Release of 64 bytes", works.Work("Get, Read, Release", loaded, works.CYCLE, 5_200))
    yield Row("`tbl_step` of a LoadImage of 64 bytes", works.Work("LoadImage", loaded, load, 16_000))
    yield Row("`CFETBL_NoopCmd`", works.Work("NOOP", (), noop, 16_000), "noop")
    yield Row("`CFE_TBL_GetStatus`", works.Work("GetStatus", loaded, ("app 1 get-status 0",), 16_000), "get-status")
    yield Row("`CFE_TBL_Load` of 64 bytes", works.Work("LoadImage", loaded, load, 16_000), "load")
    yield Row("`CFE_TBL_GetAddress` and `CFE_TBL_ReleaseAddress`", works.Work("Get, Release", loaded, ("app 1 get 0", "app 1 release 0"), 8_000),
              "get-and-release")


def built(folder: str, library: str) -> str:
    """tools/develop/calls.c, compiled and linked with a libcfetbl.a."""
    program = os.path.join(folder, "calls")
    source = os.path.join(TOP, "tools", "develop", "calls.c")
    subprocess.run(["cc", "-std=c99", "-O2", f"-I{TOP}/c/include", source, library, "-pthread", "-o", program], check=True)
    return program


def took_once(program: str, row: Row, count: int) -> Took:
    """What so many requests of a row took in one process."""
    if row.word:
        each = len(row.work.round)
        words, session = [str(count // each), row.word], b""
    else:
        each = 1
        words, session = [str(count), str(len(row.work.opening))], row.work.session(1)
    said = subprocess.run([program, *words], input=session, stdout=subprocess.PIPE, check=True).stdout.split()
    return Took(float(said[0]) / each, int(said[1]))


def took(program: str, row: Row, count: int) -> Took:
    """The least time of a few runs, and the most memory."""
    runs = [took_once(program, row, count) for _ in range(RUNS)]
    return Took(min(run.nanoseconds for run in runs), max(run.kilobytes for run in runs))
