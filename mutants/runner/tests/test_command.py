"""Whole runs, with a script in place of the toolchain."""

from __future__ import annotations

import io
import os
import signal
import threading
import time
from contextlib import redirect_stdout
from unittest import mock

from runner.command import Run
from runner.outcomes import Kept
from runner.tests.stand_in import EDIT, RepositoryCase
from runner.trials import Toolchain


class Runs(RepositoryCase):
    def run_once(self, *names: str) -> tuple[Run, str]:
        """Runs once, and returns the run with what it wrote, its end included."""
        run = Run(self.repository(), Kept(self.room / "kept"), Toolchain(self.toolchain()))
        out = io.StringIO()
        with redirect_stdout(out):
            self.is_interrupted = run.go(self.mutants(*names), 2)
        return run, "\n".join([out.getvalue(), *run.tally.lines()])

    def test_refused_mutants_are_counted_last(self) -> None:
        self.add_mutant("low", "one")
        self.add_mutant("high", "two")
        run, said = self.run_once()
        self.assertTrue(run.tally.is_as_told())
        self.assertEqual(said.split("\n")[-1], "2 refused, 0 let through")

    def test_each_crate_is_tried_with_its_own_mutants_alone(self) -> None:
        self.add_mutant("low", "one")
        self.add_mutant("high", "two")
        self.run_once()
        self.assertEqual(sorted(self.calls()), ["high", "low", "one.edit", "two.edit"])

    def test_a_second_run_tries_only_what_changed(self) -> None:
        self.add_mutant("low", "one")
        self.add_mutant("high", "two")
        self.run_once()
        before = len(self.calls())
        self.add_mutant("low", "one", EDIT.replace("41", "40"))
        _, said = self.run_once()
        self.assertEqual(self.calls()[before:], ["low", "one.edit"])
        self.assertTrue(said.endswith("2 refused, 0 let through"))

    def test_a_mutant_that_passes_is_named_and_fails_the_run(self) -> None:
        self.add_mutant("low", "passes")
        run, said = self.run_once()
        self.assertFalse(run.tally.is_as_told())
        self.assertTrue(said.endswith("0 refused, 1 let through: low/passes"))

    def test_one_that_is_told_may_pass(self) -> None:
        self.add_mutant("low", "passes", is_told=True)
        run, said = self.run_once()
        self.assertTrue(run.tally.is_as_told())
        self.assertTrue(said.endswith("0 refused, 1 let through: low/passes"))

    def test_one_that_is_told_and_refused_fails_the_run(self) -> None:
        self.add_mutant("low", "one", is_told=True)
        run, said = self.run_once()
        self.assertFalse(run.tally.is_as_told())
        self.assertIn("move low/one out of let-through/", said)

    def test_edits_without_a_verdict_are_listed_and_fail_the_run(self) -> None:
        self.add_mutant("low", "broken")
        self.add_mutant("low", "killed")
        self.add_mutant("high", "lost", EDIT.replace("42", "43"))
        run, said = self.run_once()
        self.assertFalse(run.tally.is_as_told())
        self.assertIn("bad: high/lost: it cannot be applied", said)
        self.assertIn("\n2 bad, 1 not tried\n", said)

    def test_an_interrupt_ends_the_run_and_what_was_tried_is_kept(self) -> None:
        self.add_mutant("low", "one")
        self.run_once("low")
        self.add_mutant("high", "two")
        threading.Timer(0.5, os.kill, (os.getpid(), signal.SIGINT)).start()
        begin = time.monotonic()
        with mock.patch.dict(os.environ, {"SLEEP": "20"}):
            _, said = self.run_once()
        self.assertTrue(self.is_interrupted)
        self.assertLess(time.monotonic() - begin, 10)
        self.assertIn("0 bad, 1 not tried\n1 refused, 0 let through", said)
