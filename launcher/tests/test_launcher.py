"""`./pide`, with a toolchain that stands in for the real one."""

import re
import signal
import time
import unittest
from pathlib import Path

from launcher.progress import Estimate
from launcher.sources import Layout, proved_text, read_layout

from .checkout import TOP, Checkout

CRATES = ["low", "high", "pide_main"]


class Launched(unittest.TestCase):
    def setUp(self):
        self.checkout = Checkout()
        self.addCleanup(self.checkout.close)

    def run_check(self):
        return self.checkout.run("check", "x")

    def test_the_first_run_proves_the_programs_crates_and_the_second_none(self):
        status, output, errors = self.run_check()
        self.assertEqual((status, output), (0, "ran check x\n"))
        self.assertEqual(self.checkout.proved(), CRATES)
        self.assertIn("3 crates", errors)
        self.assertRegex(errors, r"pide: high is proved \(\d+ s\), 1 of 3 left, about \d+ (s|min)")
        self.assertEqual(self.run_check(), (0, "ran check x\n", ""))
        self.assertEqual(self.checkout.proved(), [])

    def test_a_change_of_a_comment_proves_nothing(self):
        self.run_check()
        self.checkout.proved()
        self.checkout.write("crates/low/src/lib.rt", "//! other words\n\n// more\nfn f() {}\n")
        self.assertEqual(self.run_check(), (0, "ran check x\n", ""))
        self.assertEqual(self.checkout.proved(), [])

    def test_there_and_back_proves_nothing_again(self):
        self.run_check()
        self.checkout.proved()
        before = (self.checkout.top / "crates/low/src/lib.rt").read_text()
        self.checkout.write("crates/low/src/lib.rt", "fn g() {}\n")
        self.run_check()
        self.assertEqual(self.checkout.proved(), CRATES)
        self.checkout.write("crates/low/src/lib.rt", before)
        self.assertEqual(self.run_check(), (0, "ran check x\n", ""))
        self.assertEqual(self.checkout.proved(), [])

    def test_a_crate_that_the_program_does_not_use_does_not_count(self):
        self.run_check()
        self.checkout.proved()
        self.checkout.write("crates/other/src/lib.rt", "fn g() {}\n")
        self.run_check()
        self.assertEqual(self.checkout.proved(), [])

    def test_prove_builds_and_runs_nothing(self):
        status, output, _ = self.checkout.run("--prove")
        self.assertEqual((status, output), (0, ""))
        self.assertEqual(self.checkout.proved(), CRATES)

    def test_built_runs_what_is_there_and_says_what_has_changed(self):
        self.assertEqual(self.checkout.run("--built", "check")[0], 1)
        self.run_check()
        self.assertEqual(self.checkout.run("--built", "check"), (0, "ran check\n", ""))
        self.checkout.write("crates/low/src/lib.rt", "fn g() {}\n")
        status, output, errors = self.checkout.run("--built", "check")
        self.assertEqual((status, output), (0, "ran check\n"))
        self.assertIn("1 source has changed since the program was built: crates/low/src/lib.rt", errors)

    def test_which_prints_the_programs_path(self):
        self.assertEqual(self.checkout.run("--which"), (1, "", ""))
        self.run_check()
        status, output, _ = self.checkout.run("--which")
        self.assertEqual((status, Path(output.strip()).name), (0, "pide"))

    def test_what_the_gate_built_is_kept(self):
        self.assertEqual(self.checkout.run("--keep-built")[0], 1)
        program = "crates/pide_main/out/pide_main"
        self.checkout.write(program, "#!/bin/sh\necho gate\n")
        (self.checkout.top / program).chmod(0o755)
        self.assertEqual(self.checkout.run("--keep-built"), (0, "", ""))
        self.assertEqual(self.checkout.run("check"), (0, "gate\n", ""))
        self.assertEqual(self.checkout.proved(), [])

    def test_where_a_proof_fails_the_copy_stays(self):
        self.checkout.write("crates/high/src/lib.rt", "WRONG\n")
        status, output, errors = self.run_check()
        self.assertEqual((status, output), (1, ""))
        self.assertIn("== high\nthe reason\nrt: high NOT PROVED\n", errors)
        self.assertNotIn("== low", errors)
        copy = Path(re.search(r"its copy stays in (\S+)", errors)[1])
        self.assertTrue((copy / "crates" / "high" / "src" / "lib.rt").is_file())

    def test_an_interrupt_ends_the_proof(self):
        self.checkout.write("crates/high/src/lib.rt", "SLOW\n")
        running = self.checkout.start("check")
        while "high" not in self.checkout.proved():
            time.sleep(0.1)
        running.send_signal(signal.SIGINT)
        _, errors = running.communicate(timeout=20)
        self.assertEqual(running.returncode, 130)
        self.assertIn("the next run goes on from there", errors)
        self.assertEqual(list(self.checkout.top.parent.glob("pide-prove-*")), [])

    def test_a_trial_runs_unproved_and_reads_its_input_first(self):
        status, output, errors = self.checkout.run("--try", "serve", given="12345")
        self.assertEqual((status, output), (4, "tried serve 5\n"))
        self.assertIn("nothing is proved", errors)
        self.assertIn("input is read to its end before the program starts", errors)
        self.assertIn("status 4: writing failed", errors)
        self.assertEqual(self.checkout.proved(), [])

    def test_a_trial_without_an_answer_says_so(self):
        status, _, errors = self.checkout.run("--try", "check", "--bad")
        self.assertEqual(status, 1)
        self.assertIn("a fault", errors)
        self.assertIn("the trial gave no answer", errors)

    def test_no_toolchain_is_said(self):
        self.checkout.environment["PATH"] = "/usr/bin:/bin"
        status, _, errors = self.run_check()
        self.assertEqual(status, 1)
        self.assertIn("no command rt is on the PATH", errors)

    def test_help_tells_each_word(self):
        status, output, _ = self.checkout.run("--help")
        self.assertEqual(status, 0)
        for word in ("check", "serve", "replay", "mirror", "build", "gen", "--try", "--prove", "--built"):
            self.assertIn(f"./pide {word}", output)


class OverAToolchainThatKeepsNothing(unittest.TestCase):
    def test_an_interrupted_run_goes_on_where_it_was(self):
        checkout = Checkout(is_keeping=False)
        self.addCleanup(checkout.close)
        checkout.write("crates/pide_main/src/main.rt", "WRONG\n")
        self.assertEqual(checkout.run("--prove")[0], 1)
        self.assertEqual(checkout.proved(), CRATES)
        checkout.write("crates/pide_main/src/main.rt", "fn main() {}\n")
        self.assertEqual(checkout.run("--prove")[0], 0)
        self.assertEqual(checkout.proved(), ["pide_main"])
        checkout.write("crates/high/src/lib.rt", "fn g() {}\n")
        self.assertEqual(checkout.run("--prove")[0], 0)
        self.assertEqual(checkout.proved(), ["high", "pide_main"])


class Texts(unittest.TestCase):
    def test_lines_that_are_comments_do_not_count(self):
        self.assertEqual(proved_text("a.rt", "//! a\n\nfn f() {\n    // b\n    g()  \n}\n"), "fn f() {\n    g()\n}")
        self.assertEqual(proved_text("a.antt", "-- a\nf : ℕ\n--\nf = 0\n"), "f : ℕ\nf = 0")

    def test_layout_counts(self):
        self.assertNotEqual(proved_text("a.antt", "f = g\n"), proved_text("a.antt", "f =\n  g\n"))

    def test_an_operator_is_no_comment(self):
        self.assertIn("-->", proved_text("a.antt", "f = p\n  --> q\n"))

    def test_where_a_comment_could_be_text_all_counts(self):
        for text in ('f("\n// no comment\n")\n', "/*\n// a\n*/\n", 'f(r#"\n// a\n"#)\n'):
            self.assertEqual(proved_text("a.rt", text), text)
        self.assertEqual(proved_text("a.rt", "f('\"')\n// a\ng('\"')\n"), "f('\"')\ng('\"')")


class Estimates(unittest.TestCase):
    LAYOUT = Layout({"a": frozenset(), "b": frozenset("a"), "c": frozenset("a"), "d": frozenset("bc")}, {})
    WORK = {"a": 10.0, "b": 20.0, "c": 20.0, "d": 10.0}

    def test_the_longest_chain_bounds_the_time(self):
        for lanes, seconds in ((1, 60), (2, 40), (4, 40)):
            with self.subTest(lanes):
                self.assertEqual(Estimate(self.LAYOUT, list("abcd"), self.WORK, lanes).seconds(0.0), seconds)

    def test_the_pace_of_what_is_proved_counts(self):
        estimate = Estimate(self.LAYOUT, list("abcd"), self.WORK, 4)
        for name, begun, ended in (("a", 0, 20), ("b", 20, 60), ("c", 20, 60)):
            estimate.begin(name, begun)
            estimate.end(name, ended)
        self.assertEqual(estimate.seconds(60.0), 20)
        self.assertEqual(estimate.left, 1)

    def test_the_work_file_knows_the_programs_crates(self):
        rows = [line.split("\t")[0] for line in (TOP / "launcher/work.tsv").read_text().splitlines()[1:]]
        self.assertEqual(sorted(rows), sorted(read_layout(TOP).needed()))


if __name__ == "__main__":
    unittest.main()
