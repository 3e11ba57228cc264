"""Theories in files: headers, imports, lines, edits between texts."""

import os
import random
import tempfile
import unittest
from pathlib import Path

from pide import Change, Close, Insert, Remove, opened
from pide import changes as module
from pide.changes import edits_between, portions
from pide.headers import header_of
from pide.theories import Lines, load


def edited(text, edits):
    for edit in edits:
        if isinstance(edit, Insert):
            text = text[: edit.start] + edit.text + text[edit.start :]
        else:
            assert text[edit.start :].startswith(edit.text)
            text = text[: edit.start] + text[edit.start + len(edit.text) :]
    return text


class Headers(unittest.TestCase):
    def test_names_and_imports_with_their_places(self):
        header = header_of('(* (* x *) *) theory A\n imports B C keywords a = "by" b="x\\"" begin lemma')
        self.assertEqual((header.name, header.imports), ("A", (("B", 32), ("C", 34))))

    def test_texts_without_a_header(self):
        for text in (
            "",
            "theory",
            "theory A",
            "theory A imports begin",
            "theory A imports B",
            "theory A.B begin",
            "theory begin",
            "theory lemma begin",
            "theory A keywords begin",
            "theory A keywords a = begin",
            'theory A keywords a = "b begin',
            "(*) theory A begin",
            "x theory A begin",
        ):
            with self.subTest(text):
                self.assertIsNone(header_of(text))


class Places(unittest.TestCase):
    def test_lines_and_columns_count_characters_from_1(self):
        lines = Lines("aβ\r\n\U0001d54f c")
        self.assertEqual([lines.place(at) for at in (0, 1, 3, 4, 6)], [(1, 1), (1, 2), (1, 4), (2, 1), (2, 3)])
        self.assertEqual([lines.line(number) for number in (1, 2)], ["aβ", "\U0001d54f c"])


class Edits(unittest.TestCase):
    def test_random_texts_become_the_others(self):
        chance = random.Random(1)
        for _ in range(2000):
            old, new = ("".join(chance.choices("ab", k=chance.randrange(9))) for _ in range(2))
            self.assertEqual(edited(old, edits_between(old, new)), new)

    def test_only_what_differs_is_exchanged(self):
        self.assertEqual(edits_between("abXcd", "abYcd"), (Remove(2, "X"), Insert(2, "Y")))
        self.assertEqual(edits_between("aa", "aaa"), (Insert(2, "a"),))
        self.assertEqual(edits_between("ab", "ab"), ())

    def test_long_changes_are_sent_in_portions_that_come_to_the_same(self):
        changes = {"A": opened("abcdefghij"), "B": opened("x"), "C": Change((Remove(1, "12345678"),)), "D": Close()}
        limit, module.LARGEST_UPDATE = module.LARGEST_UPDATE, 12
        try:
            sent = list(portions(changes))
        finally:
            module.LARGEST_UPDATE = limit
        texts = {"A": "", "B": "", "C": "0123456789", "D": ""}
        for portion in sent:
            for name, item in portion.items():
                if isinstance(item, Change):
                    texts[name] = edited(texts[name], item.edits)
        self.assertEqual(texts, {"A": "abcdefghij", "B": "x", "C": "09", "D": ""})
        self.assertGreater(len(sent), 3)
        self.assertEqual(list(portions({"A": opened("x"), "B": Close()})), [{"A": opened("x"), "B": Close()}])


class Files(unittest.TestCase):
    def setUp(self):
        folder = tempfile.TemporaryDirectory()
        self.addCleanup(folder.cleanup)
        self.folder = Path(folder.name)

    def write(self, name, text):
        path = self.folder / name
        path.parent.mkdir(exist_ok=True)
        path.write_bytes(text.encode() if isinstance(text, str) else text)
        return path

    def test_imports_are_found_beside_the_file_and_in_the_folders(self):
        top = self.write("A.thy", "theory A imports B C begin end")
        self.write("B.thy", "theory B imports C begin end")
        self.write("lib/C.thy", "theory C begin end")
        theories = load([top], [self.folder / "lib"])
        self.assertEqual((sorted(theories.nodes), theories.problems), (["A", "B", "C"], []))

    def test_a_node_is_named_by_the_header_else_by_the_file(self):
        paths = [self.write("a-b.thy", "theory X begin"), self.write("Y.thy", "lemma"), self.write("9.thy", "")]
        self.assertEqual(sorted(load(paths).nodes), ["Scratch", "X", "Y"])

    def test_a_circle_of_imports_ends(self):
        top = self.write("A.thy", "theory A imports B begin end")
        self.write("B.thy", "theory B imports A B begin end")
        self.assertEqual(sorted(load([top]).nodes), ["A", "B"])

    def test_what_is_missing_or_is_no_text_is_told(self):
        paths = [self.write("A.thy", "theory A\nimports B begin"), self.folder / "C.thy", self.write("D.thy", b"\xff")]
        problems = load(paths).problems
        self.assertIn("C.thy: No such file", str(problems[0]))
        self.assertIn("no UTF-8 at byte 0", str(problems[1]))
        self.assertIn("A.thy:2:9: import B: there is no file B.thy", str(problems[2]))
        self.assertEqual([problem.fails for problem in problems], [True, True, False])

    def test_two_files_of_one_theory_are_told(self):
        paths = [self.write("A.thy", "theory A begin"), self.write("x/A.thy", "theory A begin")]
        self.assertEqual(len(load(paths).problems), 1)
        self.assertEqual(load([paths[0], self.folder / "x" / ".." / "A.thy"]).problems, [])

    def test_a_file_named_as_its_theory_wins_over_another(self):
        paths = [self.write("0.thy", "theory A begin"), self.write("A.thy", "theory A begin end")]
        theories = load(paths)
        self.assertEqual(theories.nodes["A"].path, paths[1])
        self.assertEqual([str(problem) for problem in theories.problems],
                         [f"{paths[0]}: it is left out, since {paths[1]} is the theory A too"])

    def test_a_folder_stands_for_the_theories_below_it(self):
        self.write("A.thy", "theory A begin end")
        self.write("x/B.thy", "theory B begin end")
        self.write("x/.C.thy", "theory C begin end")
        self.write(".y/D.thy", "theory D begin end")
        self.write("x/E.txt", "theory E begin end")
        (self.folder / "z").mkdir()
        self.assertEqual(sorted(load([self.folder]).nodes), ["A", "B"])
        self.assertIn("no file NAME.thy below", str(load([self.folder / "z"]).problems[0]))

    def test_what_is_no_regular_file_or_too_long_is_not_read(self):
        os.mkfifo(self.folder / "F.thy")
        long = self.write("L.thy", "")
        os.truncate(long, (1 << 24) + 1)
        paths = [self.folder / "F.thy", Path("/dev/zero"), long, self.write("A.thy", "theory A imports F begin end")]
        problems = [str(problem) for problem in load(paths).problems]
        self.assertIn("F.thy: it is a FIFO, which isn't read", problems[0])
        self.assertEqual("/dev/zero: it is a device, which isn't read", problems[1])
        self.assertIn("L.thy: it has 16,777,217 bytes, and at most 16,777,216 are checked", problems[2])
        self.assertIn("A.thy:1:18: import F: it is a FIFO, which isn't read", problems[3])

    def test_a_byte_order_mark_is_left_out_with_a_note(self):
        path = self.write("A.thy", "\ufefftheory A begin end")
        theories = load([path])
        self.assertEqual(theories.nodes["A"].text, "theory A begin end")
        self.assertEqual([(str(problem), problem.fails) for problem in theories.problems],
                         [(f"{path}: the byte order mark at its beginning is left out", False)])

    def test_a_folder_for_imports_that_can_not_be_read_is_told(self):
        path = self.write("A.thy", "theory A imports B begin end")
        for folder in (self.folder / ("x" * 1000), path, self.folder / "nothing"):
            problems = load([path], [folder]).problems
            self.assertTrue(str(problems[0]).startswith(str(folder)))
            self.assertEqual([problem.fails for problem in problems], [True, False])

    def test_aliases_of_imports_are_in_force(self):
        self.write("A.thy", 'theory A keywords claim = "lemma" begin end')
        self.write("B.thy", 'theory B imports A keywords done = "qed" begin end')
        path = self.write("C.thy", "theory C imports B begin end")
        self.assertEqual(load([path]).aliases["C"], {"claim": "lemma", "done": "qed"})

    def test_an_import_that_two_folders_give_is_told(self):
        paths = [
            self.write("x/A.thy", "theory A imports C begin"),
            self.write("y/B.thy", "theory B imports C begin"),
        ]
        self.write("x/C.thy", "theory C begin")
        self.write("y/C.thy", "theory C begin")
        self.assertEqual(len(load(paths).problems), 1)


if __name__ == "__main__":
    unittest.main()
