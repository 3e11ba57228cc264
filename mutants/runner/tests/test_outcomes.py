"""What the toolchain's words tell, and what is kept of it."""

from __future__ import annotations

import tempfile
import unittest
from pathlib import Path

from runner.outcomes import Kept, Outcome, Said, outcomes_in

OUTPUT = """== low
rt: low proved
rt: must-fail low/one.edit: refused, as it must be: src/lib.rt:2:5: error: no
rt: must-fail low/two.edit: refused, as it must be (only because a proof file names what the edit took away): x
rt: must-fail low/three.edit: refused, as it must be (only by a limit of the prover): x
rt: must-fail high/one.edit: NOT REFUSED: the crate is still proved with this edit
rt: must-fail high/two.edit: BAD EDIT: it did not reach the prover; the first lines of what it said:
error[no-field]
rt: must-fail high/three.edit: NOT TRIED: its check was killed
1 passed, 2 failed
"""


class Outcomes(unittest.TestCase):
    def test_each_edit_has_the_outcome_that_is_said(self) -> None:
        found = {f"{crate}/{edit}": said.outcome for (crate, edit), said in outcomes_in(OUTPUT).items()}
        self.assertEqual(
            found,
            {
                "low/one.edit": Outcome.REFUSED,
                "low/two.edit": Outcome.WEAKLY,
                "low/three.edit": Outcome.WEAKLY,
                "high/one.edit": Outcome.LET_THROUGH,
                "high/two.edit": Outcome.BAD,
                "high/three.edit": Outcome.UNTRIED,
            },
        )

    def test_why_an_edit_is_bad_is_told_with_it(self) -> None:
        self.assertTrue(outcomes_in(OUTPUT)["high", "two.edit"].words.endswith("of what it said: error[no-field]"))


class KeptOutcomes(unittest.TestCase):
    def setUp(self) -> None:
        room = tempfile.TemporaryDirectory()
        self.addCleanup(room.cleanup)
        self.file = Path(room.name) / "cache" / "mutants.jsonl"

    def test_what_is_kept_is_known_to_a_later_run(self) -> None:
        Kept(self.file).keep("a", Said(Outcome.REFUSED, "no"))
        Kept(self.file).keep("b", Said(Outcome.LET_THROUGH, "yes"))
        known = Kept(self.file).known
        self.assertEqual(known, {"a": Said(Outcome.REFUSED, "no"), "b": Said(Outcome.LET_THROUGH, "yes")})

    def test_what_may_change_is_not_kept(self) -> None:
        kept = Kept(self.file)
        kept.keep("a", Said(Outcome.UNTRIED, "killed"))
        kept.keep("b", Said(Outcome.BAD, "no"))
        self.assertEqual(Kept(self.file).known, {})

    def test_a_line_that_was_cut_off_is_left_out(self) -> None:
        Kept(self.file).keep("a", Said(Outcome.REFUSED, "no"))
        with self.file.open("a", encoding="utf-8") as out:
            out.write('{"sum": "b", "outc')
        self.assertEqual(list(Kept(self.file).known), ["a"])

    def test_a_run_anew_knows_nothing(self) -> None:
        Kept(self.file).keep("a", Said(Outcome.REFUSED, "no"))
        self.assertEqual(Kept(self.file, anew=True).known, {})
