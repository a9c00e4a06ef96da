"""Copies of the modules above a changed definition, checked together in a crate of their own.

A wrong definition is tried in a copy of its file. The modules between the file and some theorems are copied too, and
cite the copies; all else is read in place, as sources. Therefore one check tries many wrong definitions, and no crate has
to be proved before.
"""

import copy
import re
import shutil
import subprocess
from collections import defaultdict
from functools import cache
from pathlib import Path
from typing import Iterable

from definitions import paths_in
from repository import CRATES, TOP, reachable, toolchain

NAME = re.compile(r"\bRattle\.(star_\w+\.(?:specs|proofs)(?:\.[\w'+-]+)*)")
ERROR = re.compile(r"^\./proofs/(\w+?)\.antt:(\d+):\d+: error(.*)$", re.M)
GROUPED = re.compile(r"^((?:pub )?use )(Rattle\.star_\w+(?:\.\w+)*)\.\{(.*\w\.[\w{].*)\}$", re.M)
# The crates of copies and of worked rows, and the function whose proof cites the copies.
CRATE, ROWS, ANCHOR = "star_planted", "star_examples", "planted"


def one_by_one(text: str) -> str:
    """Returns a file with an import for each name where one import names several modules."""
    one = lambda path: re.sub(r"\.([^.]+)$", r".{\1}", path)
    return GROUPED.sub(lambda found: "\n".join(found[1] + one(it) for it in paths_in(found[2], found[3])), text)


def module_in(name: str, known: Iterable[str]) -> str | None:
    """Returns the module that a dotted name is in: its longest beginning that is one."""
    parts = name.split(".")
    return next((it for end in range(len(parts), 2, -1) if (it := ".".join(parts[:end])) in known), None)


@cache
def is_exported(name: str) -> bool:
    """Returns whether other crates may use a module: it and all around it are declared by `pub mod`."""
    crate, part, *parts = name.split(".")
    folder = CRATES / crate / part
    files = [folder / "Lib.antt", *(folder.joinpath(*parts[:at]).with_suffix(".antt") for at in range(1, len(parts)))]
    return all(file.is_file() and f"pub mod {it}" in file.read_text().splitlines() for file, it in zip(files, parts))


class Room:
    """A folder with a crate in which copies of modules are checked over the repository's sources."""

    def __init__(self, folder: Path):
        self.folder, self.rt = folder, toolchain()
        self.crates = {it.name: it for it in self.rt.rtlib.crates_below(str(TOP))}
        # By the names of modules: their texts, the modules that they cite, and those that cite them.
        self.texts: dict[str, str] = {}
        for path in (it for part in ("specs", "proofs") for it in CRATES.glob(f"*/{part}/**/*.antt") if it.stem != "Lib"):
            self.texts[".".join(path.relative_to(CRATES).with_suffix("").parts)] = one_by_one(path.read_text())
        self.cites = {name: {module_in(it, self.texts) for it in NAME.findall(text)} - {None, name} for name, text in self.texts.items()}
        self.citing: dict[str, list[str]] = defaultdict(list)
        for name, cited in self.cites.items():
            for it in cited:
                self.citing[it].append(name)

    def above(self, name: str) -> set[str]:
        """Returns a module and all that cite it, directly or not."""
        return reachable([name], self.citing.__getitem__)

    def between(self, name: str, theorems: Iterable[str]) -> set[str]:
        """Returns a module and those between it and some theorems."""
        return {name} | (self.above(name) & reachable(theorems, self.cites.__getitem__))

    def hidden(self, names: set[str]) -> set[str]:
        """Returns the modules that some cite and no other crate may use. They are copied once."""
        hidden = lambda it: [name for name in self.cites[it] if not is_exported(name)]
        return reachable((it for name in names for it in hidden(name)), hidden)

    def check(self, texts: dict[str, str], between: set[str], changed: str) -> dict[str, dict[str, str]] | None:
        """Checks copies of some modules, one for each text of the changed one, by the prefixes of their names.

        Returns the errors by prefix and module, or None if there is neither an error nor a proof.
        """
        hidden, copies, crates = self.hidden(between), {}, set()
        for prefix, some, text in [("Shared", hidden, ""), *((prefix, between, text) for prefix, text in texts.items())]:
            file = lambda it: f"{prefix if it in some else 'Shared'}_{it.replace('.', '_')}"
            def cite(found: re.Match) -> str:
                module = module_in(found[1], self.texts)
                return f"Rattle.{CRATE}.proofs.{file(module)}{found[1][len(module) :]}" if module in some | hidden else found[0]
            for name in some:
                crates |= {name.split(".")[0], *re.findall(r"\bRattle\.(star_\w+)\.", self.texts[name])} - {ROWS}
                copies[file(name)] = prefix, name, NAME.sub(cite, one_by_one(text) if name == changed else self.texts[name])
        self.write({file: text for file, (_, _, text) in copies.items()})
        words = [self.rt.rtlib.RATTLE, "check", *self.words(crates)]
        ran = subprocess.run(words, cwd=self.folder, text=True, stdin=subprocess.DEVNULL, stdout=subprocess.PIPE, stderr=subprocess.STDOUT)
        (self.folder / "last.log").write_text(ran.stdout)
        errors: dict[str, dict[str, str]] = defaultdict(dict)
        for file, line, error in ERROR.findall(ran.stdout):
            if file in copies:
                errors[copies[file][0]].setdefault(copies[file][1], f"{line}{error}"[:120])
        return errors if errors or "\nonly=1 proved=1" in ran.stdout else None

    def words(self, crates: set[str]) -> list[str]:
        """Returns the prover's arguments. The crates that copies cite are read from their sources."""
        crate = copy.copy(self.crates[ROWS])
        crate.name, crate.deps = CRATE, [self.crates[it] for it in sorted(crates)]
        return crate.words(["--incremental", "incremental", "--jobs", "1", "--only", f"{CRATE}::{ANCHOR}"], as_source=True)

    def write(self, texts: dict[str, str]) -> None:
        """Writes copies into the proofs of the crate."""
        shutil.rmtree(self.folder / "proofs", ignore_errors=True)
        for made in ("src", f"proofs/{ANCHOR}", "incremental"):
            (self.folder / made).mkdir(parents=True, exist_ok=True)
        cites = (f"use Rattle.{CRATE}.proofs.{it} as copy{at}\n" for at, it in enumerate(sorted(texts)))
        parts = {
            "src/lib.rt": f"//! Copies of definitions.\n#![tactic(auto)]\n/// Reads the copies.\npub fn {ANCHOR}() {{}}\n",
            "proofs/Lib.antt": "".join(f"mod {it}\n" for it in sorted(texts)),
            f"proofs/{ANCHOR}/Answers.antt": "".join(cites),
            **{f"proofs/{file}.antt": text for file, text in texts.items()},
        }
        for file, text in parts.items():
            (self.folder / file).write_text(text)
