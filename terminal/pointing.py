"""Shows the place of an error in a text, with a caret, and the names that may mend it."""

import difflib
import re
import subprocess

TABLES = ["date", "customer", "supplier", "part", "lineorder"]
# The errors of a name that is no column or table, and of a sort key that is no column of the report.
UNKNOWN_NAME, UNKNOWN_ORDER_KEY = "30", "40"


def nearest(program: str, number: str, word: str, text: str) -> list[str]:
    """Returns the names that are nearly a word: columns and tables, or for a sort key other names of the query."""
    if number == UNKNOWN_NAME:
        listed = subprocess.run([program, "help", "tables"], capture_output=True, text=True).stdout
        names = [*re.findall(r"^  \d+ (\w+)", listed, re.M), *TABLES]
    else:
        names = {it.lower() for it in re.findall(r"[A-Za-z_]\w*", text)} - {word.lower()}
    return difflib.get_close_matches(word.lower(), names, 3, 0.7)


def show(name: str, text: str, line: int, column: int) -> None:
    """Prints a line of a text, with a caret below a column of it; both count from 1. Other bytes than ASCII are `?`."""
    shown = re.sub(r"[^\t -~]", "?", (text.split("\n") + [""])[line - 1].rstrip("\r"))
    before = re.sub(r"[^\t]", " ", shown[: column - 1]).ljust(column - 1)
    print(f"{name}:{line}:{column}\n  {shown}\n  {before}^")


def show_query_error(program: str, name: str, text: str, error: str) -> bool:
    """Prints the place of a query's error, if it has one, and returns whether the line is a query's error."""
    found = re.fullmatch(r"query (\d+) \w+(?: at (\d+))?", error)
    if found and found[2]:
        at = int(found[2])
        show(name, text, text.count("\n", 0, at) + 1, at - text.rfind("\n", 0, at))
        word = re.match(r"\w+", text[at:])
        if found[1] in (UNKNOWN_NAME, UNKNOWN_ORDER_KEY) and word and (near := nearest(program, found[1], word[0], text)):
            print(f"  did you mean {' or '.join(near)}?")
    return bool(found)
