"""Lines and marks as a terminal shows them."""

import unittest

from pide.display import column_behind, marked, shown, shown_path


def shown_marks(line, start, stop, room=80, encoding="utf-8"):
    return marked(line, range(len(line)), range(start, stop), room, encoding)


class Marks(unittest.TestCase):
    def test_they_stand_below_what_is_meant_behind_any_characters(self):
        for line, marks in (
            ("lemma by x", "      ^^^^"),
            ("\t by x", "\t ^^^^"),
            ("証明 by x", "     ^^^^"),
            ("e\u0301e\u0301 by x", "   ^^^^"),
            ("a\x1b[31m by x", "          ^^^^"),
            ("a\u202e by x", "        ^^^^"),
            ("\U0001f600 by x", "   ^^^^"),
        ):
            with self.subTest(line):
                start = line.index("by")
                self.assertEqual(shown_marks(line, start, start + 4)[1], marks)

    def test_they_are_as_wide_as_what_is_meant(self):
        for line, count in (("証明", 4), ("e\u0301", 1), ("\x1b", 4), ("a\tb", 9), ("", 1)):
            self.assertEqual(shown_marks(line, 0, len(line))[1], "^" * count)

    def test_what_an_encoding_has_not_is_told_by_its_escape(self):
        self.assertEqual(shown_marks("∀x by x", 3, 7, encoding="ascii"), ("\\u2200x by x", "        ^^^^"))

    def test_a_long_line_is_cut_around_the_place(self):
        line = "x" * 500_000 + "HERE" + "y" * 500_000
        shown_line, marks = shown_marks(line, 500_000, 500_004)
        self.assertLessEqual(column_behind(shown_line), 80)
        self.assertEqual((shown_line[0], shown_line[-1]), ("…", "…"))
        self.assertEqual(shown_line[len(marks) - 4 : len(marks)], "HERE")
        for start, stop in ((0, 3), (10, 900_000), (1_000_000, 1_000_004)):
            shown_line, marks = shown_marks(line, start, stop)
            self.assertLessEqual(max(column_behind(shown_line), column_behind(marks)), 80)

    def test_a_line_of_marks_without_a_width_is_cut_too(self):
        self.assertLess(len(shown_marks("\u0301" * 1_000_000, 500, 600)[0]), 1000)


class Texts(unittest.TestCase):
    def test_what_would_steer_a_terminal_is_shown_as_text(self):
        self.assertEqual(shown("a\x1b]0;x\x07\nb\x9b1m\u202e\u2028"), "a\\x1b]0;x\\x07 b\\x9b1m\\u202e")
        self.assertEqual(shown("λ∀", "ascii"), "\\u03bb\\u2200")

    def test_paths_that_are_no_utf8_are_shown(self):
        self.assertEqual(shown_path("a\udcff\x1b.thy"), "a\\xff\\x1b.thy")


if __name__ == "__main__":
    unittest.main()
