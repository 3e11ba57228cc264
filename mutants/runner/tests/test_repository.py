"""Which mutants there are, what their sums count, and what is copied."""

from __future__ import annotations

from runner.repository import Sums, copy_for
from runner.tests.stand_in import BODY, EDIT, RepositoryCase


class Repositories(RepositoryCase):
    def test_crates_are_those_of_the_list_with_what_they_use(self) -> None:
        self.assertEqual(list(self.repository().lines), ["low", "high"])
        self.assertEqual(self.repository().below("high"), ["low"])
        self.assertEqual(self.repository().below("low"), [])

    def test_mutants_are_told_by_crate_and_name(self) -> None:
        self.add_mutant("low", "b")
        self.add_mutant("high", "a", is_told=True)
        self.assertEqual([(m.name, m.is_told) for m in self.mutants()], [("high/a", True), ("low/b", False)])
        self.add_mutant("low", "c")
        self.assertEqual([m.name for m in self.mutants("low")], ["low/b", "low/c"])
        self.assertEqual([m.name for m in self.mutants("low/c", "high")], ["high/a", "low/c"])

    def test_a_copy_has_the_mutants_and_no_other_edits(self) -> None:
        self.add_mutant("low", "b")
        self.add_mutant("low", "b", is_told=True)
        copy = self.room / "copy"
        copy_for(self.repository(), self.mutants(), copy)
        edits = sorted(str(file.relative_to(copy)) for file in copy.rglob("*.edit"))
        self.assertEqual(edits, ["crates/low/must-fail/b.edit", "crates/low/must-fail/told-b.edit"])
        self.assertTrue((copy / "HANDLES").is_file())
        self.assertFalse((copy / "crates/low/out").exists())


class SumsOfMutants(RepositoryCase):
    def setUp(self) -> None:
        super().setUp()
        self.add_mutant("high", "a")
        self.before = self.sum()

    def sum(self, kit: str = "kit-1") -> str:
        return Sums(self.repository(), kit).of_mutant(self.mutants()[0])

    def test_the_same_files_have_the_same_sum(self) -> None:
        self.write("crates/high/must-fail/other.edit", EDIT)
        self.write("crates/low/out/kept", "more")
        self.assertEqual(self.sum(), self.before)

    def test_each_file_that_a_check_reads_counts(self) -> None:
        for path, text in (
            ("crates/high/src/lib.rt", BODY + "\n"),
            ("crates/low/src/lib.rt", BODY + "\n"),
            ("crates/low/specs/Low.antt", "pub mod Low\n"),
            ("crates/high/proofs/Lib.antt", "mod Lemma\n"),
            ("crates.txt", "low: sqlite_items itoa\nhigh: low\n"),
            ("mutants/high/a.edit", EDIT.replace("41", "40")),
        ):
            with self.subTest(path):
                before = self.sum()
                self.write(path, text)
                self.assertNotEqual(self.sum(), before)

    def test_the_toolchain_counts(self) -> None:
        self.assertNotEqual(self.sum("kit-2"), self.before)
