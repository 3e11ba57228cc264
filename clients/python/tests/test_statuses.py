"""The program's exit statuses, which one file lists: README and the client tell the same."""

import re
import unittest

from pide.errors import ended, statuses

from .program import TOP


def rows_of_readme():
    """The numbers and names of README's table of statuses."""
    text = (TOP / "README.md").read_text()
    table = text[text.index("| Exit | Status |") :].split("\n\n")[0]
    return [(int(number), name) for number, name in re.findall(r"^\| ([0-9]+) \| ([A-Za-z]+) \|", table, re.MULTILINE)]


class Statuses(unittest.TestCase):
    def test_readme_has_the_same_numbers_and_names(self):
        self.assertEqual(rows_of_readme(), [(status.number, status.name) for status in statuses().values()])

    def test_an_ended_program_is_told_by_what_its_status_means(self):
        self.assertEqual(str(ended(10)), "the program has ended with status 10: " + statuses()[10].meaning)
        self.assertEqual(str(ended(1)), "the program has ended with status 1")
        self.assertEqual(str(ended(-9)), "the program was ended by signal 9")


if __name__ == "__main__":
    unittest.main()
