"""What is missing at a theory's end, of markup by hand and by the program."""

import subprocess
import unittest

from pide.endings import NOT_ENDED, Ending, ending_problem
from pide.framing import Frames, message_bytes
from pide.replies import Snapshot
from pide.reports import REPORTS, Report, last_of_kind, plain_reports
from pide.unread import Unread
from pide.wire import reply_of
from pide.yxml import yxml_text

from .program import PROGRAM, needs_program

LEMMA = 'lemma l: "P --> P"'
MISSING = "the proof of l is missing"
CASES = [
    ("theory A begin end", None),
    ("theory A begin end (* and a word *)\n", None),
    (f"theory A begin {LEMMA} by (impI h h) end", None),
    ("", NOT_ENDED),
    ("  (* words alone *)\n", NOT_ENDED),
    ("theory A begin", NOT_ENDED),
    ("theory A begin\n\n", NOT_ENDED),
    ('theory A begin axiom a: "P"', NOT_ENDED),
    (f"theory A begin {LEMMA}", MISSING),
    (f"theory A begin {LEMMA} end", MISSING),
    (f"theory A begin {LEMMA} by (impI h h)", NOT_ENDED),
    (f"theory A begin {LEMMA} by none", NOT_ENDED),
    (f"theory A begin {LEMMA} proof", MISSING),
    (f'theory A begin {LEMMA} proof assume h: "P" show "P" by h', MISSING),
    (f'theory A begin {LEMMA} proof assume h: "P" show "P"', MISSING),
    (f'theory A begin {LEMMA} proof assume h: "P" show "P" by h qed', NOT_ENDED),
    (f'theory A begin {LEMMA} proof assume h: "P" show "P" by h qed end', None),
    (f"theory A begin {LEMMA} by (impI h h) by (impI h h)", NOT_ENDED),
    (f'theory A begin {LEMMA} by (impI h h) lemma m: "Q" proof -', "the proof of m is missing"),
    ("theory A begin end end", None),
    ("theory A begin end x", NOT_ENDED),
    ("theory B begin", None),
    ("theory A imports C begin end", None),
    ('theory A keywords claim = "lemma" begin claim l: "P"', MISSING),
    ('theory A keywords done = "qed" begin lemma l: "P --> P" proof assume h: "P" show "P" by h done', NOT_ENDED),
]


def built(text):
    """What the program tells of a theory A of this text."""
    sent = message_bytes([b"Build.theory", b"A", text.encode()])
    ran = subprocess.run([PROGRAM, "build"], input=sent, stdout=subprocess.PIPE, check=True)
    return reply_of(Frames(None).feed(ran.stdout)[0])


def command(start, word):
    return Report(start, start + len(word), "command", (("name", word),))


class ByHand(unittest.TestCase):
    def test_an_end_that_is_refused_is_none(self):
        reports = (command(0, "theory"), Report(15, 18, "error", (), "not allowed here"), command(15, "end"))
        for reports in (reports, reports[:1]):
            snapshot = Snapshot(1, "A", reports, (), False)
            self.assertEqual(ending_problem("theory A begin end \n", snapshot), Ending(18, NOT_ENDED))

    def test_aliases_of_imports_are_given(self):
        reports = (command(0, "theory"), command(25, "claim"), Report(31, 32, "def", (("theory", "A"), ("name", "l"))))
        snapshot = Snapshot(1, "A", reports, (), False)
        text = 'theory A imports B begin claim l: "P"'
        self.assertEqual(ending_problem(text, snapshot), Ending(len(text), NOT_ENDED))
        self.assertEqual(ending_problem(text, snapshot, {"claim": "lemma"}), Ending(len(text), MISSING))

    def test_the_last_report_of_a_kind_is_found_in_what_is_unread(self):
        reports = (command(0, "theory"), command(25, "claim"), Report(31, 32, "def"))
        unread = Unread(yxml_text(REPORTS.put(reports)), plain_reports)
        for given in (reports, unread):
            self.assertEqual(last_of_kind(given, "command"), reports[1])
            self.assertIsNone(last_of_kind(given, "error"))


@needs_program
class ByTheProgram(unittest.TestCase):
    def test_a_theory_is_right_where_its_last_command_is_an_end_alone(self):
        for text, problem in CASES:
            with self.subTest(text):
                wanted = Ending(len(text.rstrip()), problem) if problem else None
                self.assertEqual(ending_problem(text, built(text)), wanted)


if __name__ == "__main__":
    unittest.main()
