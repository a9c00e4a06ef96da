"""What the scripts share: the repository's folders and queries, arguments, measured runs, and the command `rt`."""

import argparse
import os
import re
import runpy
import shlex
import shutil
import subprocess
import sys
import tempfile
import time
from pathlib import Path
from types import SimpleNamespace
from typing import Callable, Iterable, NamedTuple

BENCH = Path(__file__).resolve().parent
TOP = BENCH.parent
CRATES = TOP / "crates"
STAR = str(TOP / "star")
TABLES = ("date", "customer", "supplier", "part", "lineorder")
COUNTER = ["valgrind", "--tool=callgrind", "--callgrind-out-file=/dev/null"]


def arguments(doc: str, *names: str, **options) -> argparse.Namespace:
    """Reads a script's arguments; its docstring is their help.

    A name that ends in `?` or `*` may be absent, one in `*` or `+` is a list. Options have their defaults: False for a
    flag, a tuple for a list, else a number or a text.
    """
    parser = argparse.ArgumentParser(description=doc, formatter_class=argparse.RawDescriptionHelpFormatter)
    for name in names:
        parser.add_argument(name.rstrip("?*+"), nargs=name[-1] if name[-1] in "?*+" else None)
    for name, default in options.items():
        kind = type(default)
        how = {"action": "store_true"} if kind is bool else {"nargs": "+"} if kind is tuple else {"type": kind}
        parser.add_argument(f"--{name}", default=default, **how)
    return parser.parse_intermixed_args()


def queries_in(folder: str) -> dict[str, str]:
    """Returns the texts of the queries in a folder by their names, without the semicolon."""
    return {it.stem.replace("-", " "): it.read_text().strip().rstrip(";") for it in sorted((TOP / folder).glob("*.sql"))}


# The benchmark's queries, and reports with other filters, groups and shapes.
THIRTEEN, OTHERS = queries_in("docs/queries"), queries_in("docs/queries/others")


def names_of(script: str) -> SimpleNamespace:
    """Returns the names that a Python script defines."""
    return SimpleNamespace(**runpy.run_path(script))


def toolchain() -> SimpleNamespace:
    """Returns the names of the command `rt`."""
    return names_of(os.path.realpath(shutil.which("rt")))


def reachable(starts: Iterable, nexts: Callable) -> set:
    """Returns some items and all items that they lead to."""
    found, todo = set(), list(starts)
    while todo:
        if (item := todo.pop()) not in found:
            found.add(item)
            todo += nexts(item)
    return found


class Run(NamedTuple):
    """A run of a command: its wall time, its processor time or instructions, its peak in bytes, its output."""

    wall: float
    spent: float
    peak: int
    out: bytes


def run(words: list[str], counts: bool = False) -> Run:
    """Runs a command to its end. Its output goes to a file, so that it never waits for a reader."""
    with tempfile.TemporaryFile() as out, tempfile.TemporaryFile() as err:
        start = time.perf_counter()
        child = subprocess.Popen([*COUNTER * counts, *words], stdin=subprocess.DEVNULL, stdout=out, stderr=err)
        _, status, used = os.wait4(child.pid, 0)
        wall = time.perf_counter() - start
        child.returncode = os.waitstatus_to_exitcode(status)
        out.seek(0)
        err.seek(0)
        errors = err.read()
        if child.returncode:
            sys.exit(f"{shlex.join(words)} ended with status {child.returncode}: {errors[-300:].decode(errors='replace')}")
        counted = re.search(rb"refs:\s+([\d,]+)", errors)
        spent = float(counted[1].replace(b",", b"")) if counted else used.ru_utime + used.ru_stime
        return Run(wall, spent, used.ru_maxrss * 1024, out.read())
