"""Which errors follow from others, in one theory and over imports."""

import unittest
from pathlib import Path
from unittest import mock

from pide.findings import causes_of, checked_of, counted
from pide.following import grouped
from pide.headers import header_of
from pide.replies import Built
from pide.reports import REPORTS, Report, plain_reports
from pide.theories import Theories, Theory
from pide.unread import Unread
from pide.yxml import yxml_text


def command(start, word, error=None):
    """The reports of a command of ten characters at this place."""
    reports = [Report(start, start + len(word), "command", (("name", word),))]
    return ([Report(start, start + 10, "error", (), error)] if error else []) + reports


def markup(*commands):
    """The reports of commands one behind the other, each a word and its error."""
    return tuple(report for number, (word, error) in enumerate(commands)
                 for report in command(10 * number, word, error))


REFUSED = "not allowed here"


class InATheory(unittest.TestCase):
    def groups(self, *commands, aliases=None):
        return [(group.first.text, len(group.behind)) for group in grouped(markup(*commands), aliases)]

    def test_all_follow_from_the_header(self):
        found = self.groups(("theory", "bad import B"), ("lemma", REFUSED), ("by", REFUSED), ("end", REFUSED))
        self.assertEqual(found, [("bad import B", 3)])

    def test_none_follow_where_a_command_between_was_accepted(self):
        found = self.groups(("lemma", "bad formula at 1"), ("by", REFUSED), ("lemma", None), ("by", None),
                            ("by", REFUSED), ("qed", REFUSED))
        self.assertEqual(found, [("bad formula at 1", 1), (REFUSED, 1)])

    def test_a_wrong_proof_is_accepted(self):
        self.assertEqual(self.groups(("by", "unknown name x"), ("by", REFUSED)), [("unknown name x", 0), (REFUSED, 0)])
        self.assertEqual(self.groups(("thus", "unknown name x"), ("by", REFUSED), aliases={"thus": "by"}),
                         [("unknown name x", 0), (REFUSED, 0)])

    def test_other_errors_stand_by_themselves_and_the_run_goes_on(self):
        found = self.groups(("theory", "bad import B"), ("lemma", "malformed command"), ("by", REFUSED))
        self.assertEqual(found, [("bad import B", 1), ("malformed command", 0)])


class WhatNobodyAsksFor(unittest.TestCase):
    def test_reports_that_are_no_errors_are_not_read(self):
        commands = markup(*[("axiom", None)] * 50_000, ("by", "unknown name x"), ("end", None))
        reports = Unread(yxml_text(REPORTS.put((Report(0, 1, "theory"), *commands))), plain_reports)
        loaded = Theories({"A": Theory(Path("A.thy"), "theory A begin end", None)})
        with mock.patch("pide.reports.Report", wraps=Report) as made:
            checked = checked_of("A", loaded, Built("A", reports))
        self.assertEqual([cause.first.text for cause in checked.causes], ["unknown name x"])
        self.assertLess(made.call_count, 10)


class OverImports(unittest.TestCase):
    def causes(self, **theories):
        """The causes over theories, each with its header and what is reported of it."""
        loaded = Theories({name: Theory(f"{name}.thy", text, header_of(text)) for name, (text, _) in theories.items()})
        return causes_of({
            name: checked_of(name, loaded, Built(name, reports)) for name, (_, reports) in theories.items()
        })

    def told(self, causes):
        return [(cause.first.path, cause.first.text, len(cause.behind)) for cause in causes]

    def bad(self, name, imported):
        text = f"theory {name} imports {imported} begin lemma end"
        return text, markup(("theory", f"bad import {imported}"), ("lemma", REFUSED), ("end", REFUSED))

    def test_errors_of_importers_follow_from_the_first_error_of_what_never_began(self):
        causes = self.causes(A=self.bad("A", "Gone"), B=self.bad("B", "A"), C=self.bad("C", "B"))
        self.assertEqual(self.told(causes), [("A.thy", "bad import Gone", 8)])

    def test_a_circle_is_told_once_by_its_names(self):
        causes = self.causes(A=self.bad("A", "C"), B=self.bad("B", "A"), C=self.bad("C", "B"), D=self.bad("D", "B"))
        self.assertEqual(self.told(causes), [("A.thy", "bad import C: import cycle: A -> C -> B -> A", 11)])

    def test_a_name_that_differs_is_told_with_both(self):
        text = "theory B begin end"
        causes = self.causes(A=(text, markup(("theory", "theory name differs"), ("end", REFUSED))))
        self.assertEqual(self.told(causes),
                         [("A.thy", "theory name differs: the header says B, and it is checked as A", 1)])

    def test_long_chains_take_no_depth(self):
        chain = {"T0": self.bad("T0", "Gone")}
        chain.update((f"T{number}", self.bad(f"T{number}", f"T{number - 1}")) for number in range(1, 3000))
        self.assertEqual(len(self.causes(**chain)[0].behind), 3 * 3000 - 1)

    def test_counts_are_words(self):
        self.assertEqual([counted(1, "error"), counted(2001, "error"), counted(0, "theory")],
                         ["1 error", "2,001 errors", "0 theories"])


if __name__ == "__main__":
    unittest.main()
