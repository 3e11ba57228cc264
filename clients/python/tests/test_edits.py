"""A session under random edits shows what a fresh one does."""

import re
import unittest

from pide import Change, Session, opened
from pide.changes import edits_between

from .program import PROGRAM, checked_lines, needs_program
from .random_edits import TEXTS, walk


@needs_program
class RandomEdits(unittest.TestCase):
    def test_each_look_shows_what_a_fresh_session_shows(self):
        looks, reports, _ = walk(60, seed=2)
        self.assertEqual(looks, 20)
        self.assertGreater(reports, 400)

    def test_a_snapshot_has_the_lines_of_a_check(self):
        text = ""
        with Session(PROGRAM) as session:
            session.update({"A": opened("")})
            for word in re.findall(r"\s*\S+", TEXTS["A"]):
                session.update({"A": Change(edits_between(text, text + word))})
                session.remove_versions([session.version - 1])
                text += word
                session.settle()
                lines = [report.line() for report in session.snapshot("A").reports]
                self.assertEqual(lines, checked_lines(text))


if __name__ == "__main__":
    unittest.main()
