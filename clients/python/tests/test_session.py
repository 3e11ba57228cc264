"""Sessions with a stand-in for the program, and with the program where it is built."""

import os
import sys
import threading
import time
import unittest
from pathlib import Path
from unittest import mock

from pide import (
    Change,
    Insert,
    Perspective,
    PideError,
    ProgramError,
    ProtocolFault,
    Refusal,
    RefusedError,
    Remove,
    Session,
    UsageError,
    opened,
)
from pide.messages import AskSnapshot

from .program import PROGRAM, PYTHON, needs_program

STAND_IN = ["-m", "tests.stand_in"]


def session_with(kind, **options):
    """A session with the stand-in of this kind."""
    with mock.patch.dict(os.environ, {"PYTHONPATH": str(PYTHON)}):
        return Session(sys.executable, words=(*STAND_IN, kind), **options)


class WithAStandIn(unittest.TestCase):
    def test_calls_give_their_answers_and_reports_come_before_the_answer(self):
        reports = []
        with session_with("replies", on_report=reports.append) as session:
            session.update({"A": opened("end")})
            self.assertEqual(session.settle().stuck, ())
            self.assertEqual([reported.part for reported in reports], ["eval"])
            self.assertEqual(session.snapshot("A").errors[0].kind, "error")
            self.assertEqual(session.remove_versions([1, 1]), (1,))

    def test_a_refusal_is_an_error_with_its_name_and_the_session_goes_on(self):
        with session_with("replies") as session:
            with self.assertRaises(RefusedError) as raised:
                session.snapshot("no name", version=1)
            self.assertEqual(raised.exception.refusal, Refusal.BadData)
            self.assertIn("BadData", str(raised.exception))
            session.update({})

    def test_full_pipes_in_both_directions_stop_nothing(self):
        with session_with("replies") as session:
            session.update({"A": opened("end")})
            text = "x" * (1 << 20)
            answers = [session.ask(AskSnapshot(1, "A", (Insert(0, text),))) for _ in range(40)]
            for answer in answers:
                self.assertEqual(len(answer.result(60).reports[0].text), 1 << 20)

    def test_who_is_handed_reports_may_ask_while_the_pipes_are_full(self):
        answers = []
        text = "x" * (1 << 20)
        handed = threading.Event()

        def ask(_):
            if len(answers) < 12:
                answers.append(session.ask(AskSnapshot(1, "A", (Insert(0, text),))))
            else:
                handed.set()

        with session_with("reports", on_report=ask) as session:
            session.update({})
            self.assertTrue(handed.wait(60))
            for answer in answers:
                self.assertEqual(answer.result(60).node, "A")

    def test_a_program_that_stays_is_killed_when_the_patience_is_over(self):
        for end in (Session.close, Session.kill):
            session = session_with("stays", patience=0.3)
            session.update({})
            begin = time.monotonic()
            try:
                end(session)
            except ProgramError as error:
                self.assertIn("end", str(error))
            self.assertLess(time.monotonic() - begin, 10)
            self.assertIsNotNone(session._process.poll())
            self.assertRaises(ProgramError, session.update, {})

    def test_what_makes_no_sense_is_an_error_of_the_library_and_the_session_goes_on(self):
        with session_with("replies") as session:
            self.wrong("no version yet", session.snapshot, "A")
            self.wrong("no version yet", session.settle)
            self.wrong(r"surrogate U\+D800", session.update, {"A": opened("\ud800")})
            self.wrong(r"surrogate U\+DC05", session.update, {"\udc05": opened("")})
            self.wrong("character 5 or 6", session.update, {"A\x06": opened("")})
            self.wrong("starts at -1", session.update, {"A": Change((Insert(-1, "x"),))})
            self.wrong("range is 3 to 2", session.update, {"A": Change((), Perspective(True, ((3, 2),)))})
            self.wrong("at most 16777216 bytes", session.update, {"A": opened("x" * (1 << 24))})
            session.update({})
            session.snapshot("A")

    def wrong(self, text, call, *arguments):
        for kind in (UsageError, PideError, ValueError):
            self.assertRaisesRegex(kind, text, call, *arguments)

    def test_many_threads_may_ask(self):
        with session_with("replies") as session:
            session.update({})
            nodes = [f"A{number}" for number in range(8)]
            answered = {}

            def ask(node):
                answered[node] = {session.snapshot(node).node for _ in range(5)}

            threads = [threading.Thread(target=ask, args=(node,)) for node in nodes]
            for thread in threads:
                thread.start()
            for thread in threads:
                thread.join()
            self.assertEqual(answered, {node: {node} for node in nodes})

    def test_a_program_that_ends_is_an_error_that_tells_its_status(self):
        session = session_with("stops")
        session.update({})
        with self.assertRaises(ProgramError) as raised:
            session.settle()
        self.assertEqual(raised.exception.status, 8)
        self.assertRaises(ProgramError, session.update, {})
        self.assertRaises(ProgramError, session.close)

    def test_what_is_no_reply_is_a_fault_and_ends_the_session(self):
        for kind in ("babbles", "other"):
            session = session_with(kind)
            session.update({})
            self.assertRaises(ProtocolFault, session.settle)
            self.assertRaises(ProtocolFault, session.close)

    def test_what_a_call_for_reports_raises_ends_the_session(self):
        def fail(_):
            raise KeyError("mine")

        session = session_with("replies", on_report=fail)
        session.update({})
        self.assertRaises(KeyError, session.settle)
        self.assertRaises(KeyError, session.close)

    def test_a_call_for_reports_may_not_wait_for_an_answer(self):
        session = session_with("replies", on_report=lambda _: session.settle())
        session.update({})
        self.assertRaises(RuntimeError, session.settle)

    def test_a_closed_session_answers_nothing(self):
        session = session_with("replies")
        session.close()
        session.close()
        self.assertRaises(ProgramError, session.update, {})

    def test_an_error_in_a_with_block_ends_the_program_at_once(self):
        with self.assertRaises(ZeroDivisionError):
            with session_with("replies") as session:
                session.update({})
                raise ZeroDivisionError
        self.assertIsNotNone(session._process.poll())

    def test_a_program_that_is_not_there_is_an_error(self):
        self.assertRaises(ProgramError, Session, str(Path(__file__).parent / "nothing"))

    def test_a_text_that_can_not_be_sent_is_an_error_and_the_session_goes_on(self):
        with session_with("replies") as session:
            self.assertRaises(ValueError, session.update, {"A": opened("\x05")})
            session.update({})


@needs_program
class WithTheProgram(unittest.TestCase):
    TEXT = 'theory A begin lemma l: "P --> P" by (impI h h) end'

    def test_a_text_is_checked_edited_and_looked_at(self):
        reports = []
        with Session(PROGRAM, on_report=reports.append) as session:
            assigned = session.update({"A": opened(self.TEXT)})
            self.assertEqual(assigned.nodes, (("A", ((1, (1,)), (2, (2,)), (3, (3,)), (4, (4,)))),))
            self.assertFalse(session.snapshot("A").is_whole)
            session.settle()
            self.assertEqual(len(reports), 5)
            snapshot = session.snapshot("A")
            self.assertTrue(snapshot.is_whole)
            self.assertEqual(snapshot.of_kind("proved")[0].line(), "34-47 proved")
            session.update({"A": Change((Remove(45, "h"), Insert(45, "k")))})
            session.remove_versions([1])
            session.settle()
            self.assertEqual([error.text for error in session.snapshot("A").errors], ["unknown name k"])
            self.assertTrue(session.snapshot("A", (Insert(0, " "),)).outdated)

    def test_refusals_are_named(self):
        with Session(PROGRAM) as session:
            session.update({"A": opened(self.TEXT)})
            with self.assertRaises(RefusedError) as raised:
                session.update({"A": Change((Remove(0, "x"),))})
            self.assertEqual(raised.exception.refusal, Refusal.RemoveDiffers)
            self.assertFalse(session.cancel(1) and session.cancel(1))
            session.update({"B": opened("end")})
            self.assertEqual(session.version, 3)

    def test_symbols_are_counted_where_that_is_asked_for_first(self):
        with Session(PROGRAM) as session:
            session.count_symbols()
            session.update({"A": opened("theory A begin (* \\<alpha> *) end")})
            session.settle()
            self.assertEqual(session.snapshot("A").reports[-1].line(), "24-27 command name=end")


if __name__ == "__main__":
    unittest.main()
