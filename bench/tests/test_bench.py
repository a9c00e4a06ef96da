"""Tests of the scripts: which wrong definitions a text has, and how endings of runs are classified."""

import sys
import unittest
from collections import defaultdict
from pathlib import Path

BENCH = Path(__file__).resolve().parent.parent
sys.path.insert(0, str(BENCH))

from repository import names_of
from wrong_definitions import edits

TEXT = """use Rattle.std.specs.Prelude.{ℕ, ◌||◌, Bool}

mutual
  pub data Either : Type 0 where
    both : Either → Single → Either

abbrev mutual
  -- from the left
  pub either_text : Either → List ℕ
  either_text (both a b) = either_text a ++ 124 ∷ single_text b
  either_text (single a) = single_text a

abbrev pub is_true : (Single → Bool) → Either → Bool
is_true at (both a b) = is_true at a || at b

pub data IsText : List ℕ → Either → Type 0 where
  -- a bar between
  bar : {ms ns : List ℕ} {a : Either} {b : Single} → IsText ms a → ns ≡ single_text b
      → IsText (ms ++ 124 ∷ ns) (both a b)
  lone : {b : Single} → IsText (single_text b) (single b)
"""


class Definitions(unittest.TestCase):
    def test_wrong_definitions_change_each_clause(self) -> None:
        made = defaultdict(list)
        for edit in edits(TEXT):
            made[edit.name].append(edit.change.partition(": ")[2])
        self.assertEqual(made["either_text"].count("the next clause's answer"), 1)
        self.assertLessEqual({"|| -> &&", "left out: is_true at a"}, set(made["is_true"]))
        cases = {"left out: IsText ms a", "exchanged in the result: ms ns", "another case's (single b)", "another case's result"}
        self.assertLessEqual(cases, set(made["IsText"]))
        self.assertNotIn("Either", made)
        self.assertIn("line 1: 0 -> 1 (2)", [it.change for it in edits("ends xs = 0 ∷ xs ++ 0 ∷ []\n")])


class Endings(unittest.TestCase):
    def test_endings_of_commands_and_tests(self) -> None:
        memory = names_of(f"{BENCH}/refuse-memory")
        usual, good, due = memory.End(b"n\n2\n", b"quote 5\nvisits 5\n", 0), b"quote 5\nmemory\n", memory.OUT_OF_MEMORY
        accepted = [(b"", good, 7, "query"), (b"", b"memory\n", 7, "query"), (b"n\n", good, 7, "reports"), (b"2\n", good, 0, "session")]
        refused = [(b"n\n", good, 7, "query"), (b"", b"visits 5\nmemory\n", 7, "query"), (b"", good, 1, "query")]
        refused.append((b"3\n", good, 0, "session"))
        for out, err, status, command in accepted + refused:
            ending = memory.end_of_command(memory.End(out, err, status), usual, f"./star {command}")
            self.assertEqual(ending == due, (out, err, status, command) in accepted, (out, err, status, command))
        for error, expected in ((b"error: AllocError\n", due), (b"error: 3 is not 4\n", memory.OTHERWISE)):
            self.assertEqual(memory.end_of_test(memory.End(b"", error, 101), memory.End(b"ok\n", b"", 0)), expected)
