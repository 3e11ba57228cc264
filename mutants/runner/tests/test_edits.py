"""Which edits can be applied, and what they make of a file."""

from __future__ import annotations

from pathlib import Path

from runner.edits import BadEdit, Change, Mutant, applied, changes_of, why_not
from runner.tests.stand_in import EDIT, RepositoryCase


class Edits(RepositoryCase):
    def test_a_pair_is_read_with_its_spaces(self) -> None:
        self.assertEqual(changes_of(EDIT), [Change("src/lib.rt", "    42", "    41")])

    def test_an_empty_new_text_removes_the_old_one(self) -> None:
        self.assertEqual(changes_of("file: src/lib.rt\nold: 42\nnew:\n")[0].new, "")

    def test_a_line_that_begins_otherwise_is_not_read(self) -> None:
        self.assertEqual(len(changes_of("# why\n" + EDIT)), 1)

    def test_a_later_pair_changes_what_an_earlier_one_made(self) -> None:
        changes = changes_of(EDIT + "old:     41\nnew:     40\n")
        self.assertIn("    40\n", applied(changes, self.top / "crates/low")["src/lib.rt"])

    def test_a_file_outside_of_the_bodies_is_refused(self) -> None:
        for path in ("specs/Low.antt", "proofs/Lib.antt", "src/../specs/Low.rt", "lib.rt", "src/notes.md"):
            with self.assertRaises(BadEdit):
                changes_of(EDIT.replace("src/lib.rt", path))

    def test_a_new_line_without_an_old_one_is_refused(self) -> None:
        for text in ("new: 41\n", "file: src/lib.rt\nnew: 41\n", EDIT + "new: 40\n", "file: src/lib.rt\n"):
            with self.assertRaises(BadEdit):
                changes_of(text)

    def test_an_edit_tells_why_it_cannot_be_applied(self) -> None:
        reasons = {
            "0 times": EDIT.replace("42", "43"),
            "2 times": EDIT.replace("    42", "u64").replace("u64", "n"),
            "changes nothing": EDIT.replace("41", "42"),
            "cannot be read": EDIT.replace("lib.rt", "no.rt"),
        }
        for reason, text in reasons.items():
            with self.subTest(reason):
                self.add_mutant("low", "one", text)
                self.assertIn(reason, why_not(self.mutants()[0], self.top / "crates") or "")

    def test_an_edit_that_fits_has_no_reason(self) -> None:
        self.add_mutant("low", "answers_one_less")
        self.assertIsNone(why_not(self.mutants()[0], self.top / "crates"))

    def test_a_name_with_a_space_is_refused(self) -> None:
        edit = self.write("mutants/low/one less.edit", EDIT)
        self.assertIn("name", why_not(Mutant("low", Path(edit), False), self.top / "crates") or "")
