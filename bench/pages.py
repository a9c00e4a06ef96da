"""Reads pages of cases (docs/CASES.md) as commands for bash, each with its expected streams and status."""

import os
import re
import shutil
import tempfile
from contextlib import contextmanager
from itertools import groupby
from pathlib import Path
from typing import Iterator, NamedTuple

from repository import CRATES, TOP

# A heading; or a command, its here document, and its output, with blank lines between other lines.
PIECE = re.compile(r"^(#.*)|^    \$ (.*)\n((?:    >.*\n)*)((?:    (?!\$ ).*\n|\n(?=\n*    (?!\$ )))*)", re.M)


class Step(NamedTuple):
    """A command of a case: its heading, place and text for bash, and its expected streams and status."""

    case: str
    place: str
    text: str
    out: bytes
    err: bytes
    status: int


def decoded(line: str) -> bytes:
    """Returns the bytes of a line of output."""
    line, is_escaped = (line[:-6], True) if line.endswith(" (esc)") else (line, False)
    line, end = (line[:-9], b"") if line.endswith(" (no-eol)") else (line, b"\n")
    return (line.encode().decode("unicode_escape").encode("latin-1") if is_escaped else line.encode()) + end


def steps_of(page: Path) -> Iterator[Step]:
    """Yields the commands of a page."""
    case = ""
    for piece in PIECE.finditer(page.read_text()):
        heading, command, here, printed = piece.groups()
        place = f"{page}:{piece.string.count(chr(10), 0, piece.start()) + 1}"
        if heading:
            case = f"{place}: {heading}"
            continue
        text = "\n".join([re.sub(r"<< (\w+)$", r"<< '\1'", command), *(it[6:] for it in here.splitlines())])
        lines = [it[4:] for it in printed.splitlines()]
        status = int(lines.pop()[1:-1]) if lines and re.fullmatch(r"\[\d+\]", lines[-1]) else 0
        streams = [b"".join(decoded(it[3 * n :]) for it in lines if (it + " ").startswith("2> ") == n) for n in (False, True)]
        yield Step(case, f"{place}: $ {command}", text, *streams, status)


def cases_of(pages: list[str]) -> Iterator[list[Step]]:
    """Yields the cases of pages, by default of all: the commands below a heading."""
    steps = (step for page in sorted(pages or CRATES.glob("star_cases/data/*/*.md")) for step in steps_of(Path(page)))
    return (list(of_case) for _, of_case in groupby(steps, lambda step: step.case))


@contextmanager
def folder_of_case(program: str) -> Iterator[str]:
    """Makes a folder for a case, with the examples, the program and the parts of `./star`, and removes it afterwards."""
    with tempfile.TemporaryDirectory(prefix="star-cases-") as folder:
        shutil.copytree(TOP / "examples", f"{folder}/examples")
        os.symlink(os.path.abspath(program), f"{folder}/star")
        os.symlink(TOP / "terminal", f"{folder}/terminal")
        yield folder
