"""Reads the crates' sources as text: their definitions, what each cites, and what the clauses of functions cite."""

import re
from collections import defaultdict
from pathlib import Path
from typing import Iterator, NamedTuple

from repository import CRATES, reachable

NAME = re.compile(r"[A-Za-zℕℤ_][\w'\-]*(?:\.[A-Za-z_0-9][\w'\-]*)*")
USE = re.compile(r"(?:pub )?(?:ghost )?use (?:Rattle\.)?(?P<path>[\w.'\-]+?)(?:\.\{(?P<names>.*)\}| as (?P<alias>\w+))?;?\s*$")
CASE = re.compile(r"([A-Za-z][\w' ]*) : ")
FUNCTION = re.compile(r"\s*(?:pub(?:\(\w+\))?\s+)?fn (\w+)")
CLAUSE = re.compile(r"\s*(?:requires|ensures)\*?\s*(\w+)?\s*\{")
# Definitions begin at the left margin, or indented within `mutual` and `module _` blocks.
BLOCK = re.compile(r"(?:(?:abbrev |unfoldable )?mutual|(?:private )?module _ .*)$")
HEAD = re.compile(
    r"(?:(?:abbrev |unfoldable )?(?:pub )?(?P<type>record|data) (?P<type_name>[^\s:]+)"
    r"|(?:abbrev pub|unfoldable pub|abbrev|unfoldable|pub)\s+(?P<name>[A-Za-z_][\w'\-]*) :)"
)


class Line(NamedTuple):
    """A line of a file: its offset, its code, its indentation, and that of the definitions around it."""

    offset: int
    code: str
    indent: int
    margin: int

    def is_at_margin(self) -> bool:
        """Returns whether the line begins a definition, an equation, a comment or a block."""
        return self.indent == self.margin


def lines_of(text: str) -> Iterator[Line]:
    """Yields the lines of a file but blank ones. A block's margin is the indentation of its first definition."""
    margin, opened, offset = 0, False, 0
    for raw in text.splitlines(keepends=True):
        code, indent = raw.strip(), len(raw) - len(raw.lstrip())
        if code and not code.startswith("--"):
            if indent < margin or opened and (HEAD.match(code) or BLOCK.match(code)):
                margin, opened = indent, False
            opened = opened or indent == margin and bool(BLOCK.match(code))
        if code:
            yield Line(offset, code, indent, margin)
        offset += len(raw)


class Key(NamedTuple):
    """A crate, a module of its `specs/`, and a name in it."""

    crate: str
    module: str
    name: str

    def declaration(self) -> "Key | None":
        """Returns the file of a name of the Rust code, and the type or the constant that declares it."""
        area, *parts = self.module.split(".")
        if area not in ("declared", "contracts"):
            return None
        last = parts.pop()
        if last == "TheConstants":
            last = self.name
        elif last == "TheVariants":
            last = parts.pop()
        return Key(self.crate, ".".join(parts), last)

    def place(self) -> str:
        return f"{self.crate}/specs/{self.module.replace('.', '/')}.antt"


def paths_in(path: str, names: str) -> Iterator[str]:
    """Yields the whole path of each name of an import, whose braces may be nested."""
    depth, item = 0, ""
    for sign in f"{names},":
        if sign == "," and not depth:
            head, _, inner = item.strip().partition(".{")
            yield from paths_in(f"{path}.{head}", inner[:-1]) if inner else [f"{path}.{head}"] if head else []
            item = ""
        else:
            depth += (sign == "{") - (sign == "}")
            item += sign


class Imports:
    """The names that a file imports."""

    def __init__(self, here: tuple[str, str] | None):
        self.here = here
        self.names: dict[str, Key] = {}
        self.modules: dict[str, tuple[str, str]] = {}

    def add(self, line: str) -> None:
        """Adds the imports of a line, if it is a `use` of definitions."""
        found = USE.match(line.strip())
        if found and found["names"] is None:
            crate, area, *parts = f"{found['path']}.".split(".")
            if area != "proofs":
                module = ".".join(filter(None, parts if area == "specs" else [area, *parts]))
                self.modules[found["alias"] or module.split(".")[-1]] = (crate, module)
        for path in paths_in(found["path"], found["names"]) if found and found["names"] else ():
            path, _, alias = path.partition(" as ")
            crate, area, *parts = path.split(".")
            if area != "proofs":
                *module, name = parts if area == "specs" else [area, *parts]
                self.names[alias or name] = Key(crate, ".".join(module), name)

    def keys_in(self, text: str) -> set[Key]:
        """Returns the keys of the names in a text."""
        found = set()
        for first, _, rest in (it.partition(".") for it in NAME.findall(text)):
            if first in self.modules and rest:
                found.add(Key(*self.modules[first], rest.split(".")[0]))
            elif first in self.names or self.here:
                found.add(self.names.get(first) or Key(*self.here, first))
        return found


class Definitions:
    """The definitions of all crates: the lines of each, and what it cites."""

    def __init__(self) -> None:
        self.lines: dict[Key, int] = {}
        self.cites: dict[Key, set[Key]] = defaultdict(set)
        for file in sorted(CRATES.glob("*/specs/**/*.antt")):
            crate, _, *module = file.relative_to(CRATES).with_suffix("").parts
            self.read(crate, ".".join(module), file.read_text())

    def read(self, crate: str, module: str, text: str) -> None:
        """Reads a file."""
        imports, here, is_data = Imports((crate, module)), None, False
        for line in lines_of(text):
            code = line.code
            if code.startswith(("use ", "pub use ", "--")):
                imports.add(code)
                continue
            if line.is_at_margin() and BLOCK.match(code):
                here = None
            if line.is_at_margin() and (head := HEAD.match(code)):
                here, is_data = Key(crate, module, head["type_name"] or head["name"]), head["type"] == "data"
                self.lines.setdefault(here, 0)
            if here:
                self.lines[here] += 1
                self.cites[here] |= imports.keys_in(code)
                case = CASE.match(code) if is_data and line.indent == line.margin + 2 else None
                # A definition that cites a case cites its `data`.
                for key in (Key(crate, module, name) for name in (case[1].split() if case else ())):
                    self.cites[key].add(here)
                    self.lines.setdefault(key, 0)

    def reached(self, keys: set[Key]) -> set[Key]:
        """Returns the definitions among some keys, and all that these cite, directly or not."""
        return reachable(keys & self.lines.keys(), lambda it: self.cites[it] & self.lines.keys())

    def outside(self, keys: set[Key]) -> tuple[dict[Key, int], set[Key]]:
        """Returns the Rust declarations that some definitions cite, with their lines, and those of the toolchain."""
        cited, ours = {it for key in keys for it in self.cites[key]} - self.lines.keys(), set(CRATES.iterdir())
        found = {it.declaration() or it for it in cited if it.declaration() or CRATES / it.crate not in ours}
        declared = {it for it in found if CRATES / it.crate in ours}
        return {it: declaration_lines(it) for it in declared}, found - declared


def declaration_lines(key: Key) -> int:
    """Returns how many lines a declaration of the Rust code has, without blank lines and comments."""
    file = (CRATES / key.crate / "src").joinpath(*key.module.split(".")).with_suffix(".rt")
    pattern = rf"^(?:pub(?:\(\w+\))? )?(?:enum|struct|const|static) {key.name}\b(?:.*[;}}]$|(?:.|\n)*?^(?:\S.*)?[;}}]$)"
    lines = re.search(pattern, file.read_text(), re.M)[0].splitlines()
    return sum(1 for it in lines if it.strip() and not it.lstrip().startswith("//"))


def clauses_in(file: Path) -> Iterator[tuple[str, str, set[Key]]]:
    """Yields the clauses of public functions and traits: the function, the clause's name, and what it cites."""
    imports, function, is_trait = Imports(None), "", False
    lines = iter(file.read_text().splitlines())
    for line in lines:
        imports.add(line)
        is_trait = line.startswith("pub trait ") or (is_trait and not line.startswith("}"))
        if found := FUNCTION.match(line):
            function = found[1] if is_trait or line.lstrip().startswith("pub fn") else ""
        if head := CLAUSE.match(line):
            text = line
            while text.count("{") > text.count("}"):
                text += "\n" + next(lines)
            if function:
                yield function, head[1] or "", imports.keys_in(text)


def keys_of(promise: str) -> set[Key]:
    """Returns what a public function's clauses cite, or those of one name: CRATE.FUNCTION[.CLAUSE]."""
    crate, *wanted = promise.split(".")
    clauses = (it for file in (CRATES / crate / "src").rglob("*.rt") for it in clauses_in(file))
    cited = [keys for function, name, keys in clauses if wanted in ([function], [function, name])]
    if not cited:
        raise ValueError(f"{promise} is no clause of a public function")
    return set().union(*cited)


def private_citations(definitions: Definitions) -> Iterator[str]:
    """Yields each definition outside `specs/Private` and each public clause that cites one in it."""
    is_private = lambda it: it.module.split(".")[0] == "Private" and it in definitions.lines
    cited = [(f"{it.place()}: {it.name}", keys) for it, keys in sorted(definitions.cites.items()) if not is_private(it)]
    for file in sorted(CRATES.glob("*/src/**/*.rt")):
        cited += [(f"{file.relative_to(CRATES)}: {function} {name}", keys) for function, name, keys in clauses_in(file)]
    for place, keys in cited:
        yield from (f"{place} cites {it.name} of {it.place()}" for it in sorted(filter(is_private, keys)))
