"""The small wrong definitions of a file of `specs/`: one edit of one clause each."""

import re
from collections import Counter
from typing import Iterator, NamedTuple

from definitions import lines_of

# Tokens that replace each other.
PAIRS = ("nat_lt nat_le", "is_lt is_le", "< ≤", "true false", "&& ||", "× ⊎", "+ℤ -ℤ", "int_min int_max", "Less Greater")
OTHERS = {"*ℤ": "+ℤ"} | {one: two for it in PAIRS for one, two in (it.split(), it.split()[::-1])}
# What a wrong definition may import from the toolchain's Prelude.
OPERATORS = {"<", "≤", "&&", "||", "⊎", "+ℤ", "-ℤ"}
PRELUDE = OPERATORS | {"true", "false", "nat_lt", "nat_le"}
# Functions of two exchangeable arguments.
SYMMETRIC = {"nat_eq", "int_eq", "bool_eq", "int_min", "int_max", "nat_min", "nat_max", "min", "max"}
# `not` of a condition and of a truth value.
NEGATIONS = ("not", "negated")
JOINTS = (" && ", " || ", " × ")
TOKEN = re.compile(r"\"(?:[^\"\\]|\\.)*\"|[^\s(){},;]+|[(){},;]")
EQUATION = re.compile(r"(?!use |pub |abbrev |unfoldable |module |--)([A-Za-z_][\w'-]*)\b[^=:]*? =(?: |\n)")
NEIGHBOURS = {"low": "high", "from": "to", "keys": "values", "below": "above", "size": "number"}
NEIGHBOURS |= {new: old for old, new in NEIGHBOURS.items()}
ENDS = re.compile(rf"\.({'|'.join(NEIGHBOURS)})\b")
FIELD = re.compile(r"pub ([\w'-]+) : ")
CASE = re.compile(r"([A-Za-z_][\w'-]*) : ")
DATA = re.compile(r"pub data (\S+)(.*)Type 0 where$")


class Clause(NamedTuple):
    """An equation, a field of a record or a case of a relation: the offsets of its right side."""

    name: str
    start: int
    end: int
    margin: int
    is_case: bool


class Edit(NamedTuple):
    """A wrong definition: the name of the right one, the change, and the changed file."""

    name: str
    change: str
    text: str


def is_relation(head: re.Match | None) -> bool:
    """Returns whether a `data` relates values: it has an index, or a parameter that isn't a type."""
    return bool(head and re.sub(r"[({][\w ]+ : Type 0[)}]", "", head[2]).strip(" :"))


def clauses(text: str) -> list[Clause]:
    """Returns the clauses of a file, in order."""
    # Each part's start, its block's margin, the pattern of its left side, and the relation that it is a case of.
    parts, relation, cases = [], "", None
    for line in lines_of(text):
        code, part = line.code, (line.offset + line.indent, line.margin)
        if line.is_at_margin():
            data = DATA.match(code)
            if not code.startswith("--"):
                relation, cases = data[1] if is_relation(data) else "", None
            parts.append((*part, EQUATION, ""))
        elif relation and CASE.match(code) and line.indent == (cases or line.indent):
            cases = line.indent
            parts.append((*part, CASE, relation))
        elif FIELD.match(code):
            parts.append((*part, FIELD, ""))
    found = []
    for (start, margin, pattern, relation), end in zip(parts, [*(it[0] for it in parts[1:]), len(text)]):
        body = re.split(r"\n *--", text[start:end].rstrip())[0].rstrip()
        if head := pattern.match(body):
            found.append(Clause(relation or head[1], start + head.end(), start + len(body), margin, bool(relation)))
    return found


def split_outside(body: str, joint: str) -> list[str]:
    """Splits a text at each joint outside all brackets."""
    cuts, depth = [-len(joint)], 0
    for at, letter in enumerate(body):
        depth += (letter in "([{") - (letter in ")]}")
        if depth == 0 and body.startswith(joint, at):
            cuts.append(at)
    return [body[begin + len(joint) : end] for begin, end in zip(cuts, [*cuts[1:], len(body)])]


def other_tokens(body: str) -> Iterator[tuple[str, str]]:
    """Yields a body with a token replaced by its opposite, a number by the next, or a `not` left out."""
    for token in TOKEN.finditer(body):
        word, before, after = token[0], body[: token.start()], body[token.end() :]
        is_number = word.isdecimal() and not before.endswith("{")
        if new := OTHERS.get(word) or (str(int(word) + 1) if is_number else None):
            yield f"{word} -> {new}", before + new + after
        for end in ENDS.finditer(word):
            other = word[: end.start()] + "." + NEIGHBOURS[end[1]] + word[end.end() :]
            yield f"{word} is {other}", before + other + after
        if word in NEGATIONS:
            yield f"{word} left out", before + after.lstrip()


def left_out(body: str) -> Iterator[tuple[str, str]]:
    """Yields a body without one of its joined parts, with the sides of an append or of a test exchanged."""
    for joint in JOINTS:
        parts = split_outside(body, joint)
        if len(parts) > 1 and len(body.split(joint)) == len(parts) and "λ" not in body and " in\n" not in body:
            for at, part in enumerate(parts):
                yield f"left out: {part.strip()[:50]}", joint.join(parts[:at] + parts[at + 1 :])
    sides = split_outside(body, " ++ ")
    if len(sides) == 2 and "λ" not in body:
        yield "append exchanged", f"{sides[1]} ++ {sides[0]}"
    test = re.match(r"(\s*if .+? then )(.+?)( else )(.+)$", body, re.S)
    if test and " if " not in test[2] + test[4]:
        yield "branches exchanged", test[1] + test[4] + test[3] + test[2]


def arguments(body: str) -> Iterator[tuple[str, str]]:
    """Yields a body with two adjacent arguments exchanged, but those of a binder or a symmetric function."""
    name = r"[a-z][\w.'-]*"
    for found in re.finditer(rf"(?<=[\w)] )({name}) ({name})(?=$|[\s)])", body):
        before = re.search(r"([\w'-]*) $", body[: found.start()])[1]
        binds = re.match(r"[^()]* : ", body[found.end() :])
        is_keyword = {"then", "else", "if", "in", "let", "λ"} & {found[1], found[2]}
        if not (found[1] == found[2] or is_keyword or binds or before in SYMMETRIC):
            yield f"exchanged: {found[1]} {found[2]}", f"{body[: found.start()]}{found[2]} {found[1]}{body[found.end() :]}"


def of_a_case(body: str, other: str | None) -> Iterator[tuple[str, str]]:
    """Yields a case without a premise, with two variables exchanged in its result, and with another's result."""
    *premises, result = split_outside(body, "→ ")
    for at, premise in enumerate(premises):
        if not re.match(r"\s*(?:\{|\([^()]* : )", premise):
            yield f"left out: {premise.strip()[:50]}", "→ ".join([*premises[:at], *premises[at + 1 :], result])
    front = "→ ".join([*premises, ""])
    for names in re.findall(r"[{(]([\w ]+) : ", front):
        for one, two in zip(names.split(), names.split()[1:]):
            swap = {one: two, two: one}
            new = re.sub(r"[\w.'-]+", lambda it: swap.get(it[0], it[0]), result)
            yield f"exchanged in the result: {one} {two}", front + new
    if other is not None:
        parts, others = split_outside(result, " "), split_outside(split_outside(other, "→ ")[-1], " ")
        for at in range(1, min(len(parts), len(others))):
            yield f"another case's {others[at].strip()[:50]}", front + " ".join([*parts[:at], others[at], *parts[at + 1 :]])
        yield "another case's result", front + " ".join(others)


def imported(text: str, change: str) -> str:
    """Returns a file with an import of the token that a wrong definition introduces, if it lacks one."""
    new = change.split(" -> ")[1] if " -> " in change else ""
    name = f"◌{new}◌" if new in OPERATORS else new
    names = re.findall(r"[^\s,{}]+", "\n".join(it for it in text.split("\n") if it.startswith("use ")))
    known = new not in PRELUDE or name in (it.rpartition(".")[2] for it in names)
    return text if known else re.sub("^use ", f"use Rattle.std.specs.Prelude.{{{name}}}\nuse ", text, count=1, flags=re.M)


def changes(text: str, found: list[Clause], at: int) -> Iterator[tuple[str, str]]:
    """Yields the wrong right sides of a clause, each with its description."""
    clause = found[at]
    body = text[clause.start : clause.end]
    yield from (*other_tokens(body), *left_out(body), *arguments(body))
    near = [it for it in [*found[at + 1 : at + 2], *found[max(at - 1, 0) : at]] if it.name == clause.name]
    other = text[near[0].start : near[0].end] if near else None
    if clause.is_case:
        yield from of_a_case(body, other)
    elif near and near[0].start > clause.start:
        yield "the next clause's answer", other


def edits(text: str) -> Iterator[Edit]:
    """Yields the wrong definitions of a file, each text once and each description once."""
    found, seen, made = clauses(text), set(), Counter()
    for at, clause in enumerate(found):
        before, body, after = text[: clause.start], text[clause.start : clause.end], text[clause.end :]
        for change, new in changes(text, found, at):
            indent = " " * (clause.margin + 4) if before.endswith("\n") and not new.startswith(" ") else ""
            whole = before + indent + new + after
            if new != body and whole not in seen:
                seen.add(whole)
                line = text.count("\n", 0, clause.start) + 1
                made[line, change] += 1
                number = f" ({made[line, change]})" if made[line, change] > 1 else ""
                yield Edit(clause.name, f"line {line}: {change}{number}", imported(whole, change))
