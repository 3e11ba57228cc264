"""`watch`: what a saved file changes is checked again, and nothing else."""

import os
import signal
import subprocess
import sys
import tempfile
import threading
import time
import unittest
from pathlib import Path

from pide import Session
from pide.check import check
from pide.file_changes import Inotify, Looks
from pide.findings import causes_of
from pide.theories import load
from pide.watch import Watcher

from .program import PROGRAM, environment, needs_program

COUNT = 100


def text_of(number):
    """A theory of the hundred: each imports the one of half its number."""
    imports = f" imports T{number // 2}" if number > 1 else ""
    return f'theory T{number}{imports} begin\nlemma l{number}: "P --> P" by (impI h h)\nend\n'


def importers(number):
    """The theories that depend on this one, and itself."""
    found = {number}
    for other in range(number + 1, COUNT + 1):
        if other // 2 in found:
            found.add(other)
    return found


class InAFolder(unittest.TestCase):
    def setUp(self):
        folder = tempfile.TemporaryDirectory()
        self.addCleanup(folder.cleanup)
        self.folder = Path(folder.name)

    def write(self, number, text):
        (self.folder / f"T{number}.thy").write_text(text)


@needs_program
class Watching(InAFolder):
    def setUp(self):
        super().setUp()
        self.reports = []
        self.sessions = []
        for number in range(1, COUNT + 1):
            self.write(number, text_of(number))

    def watcher(self):
        watcher = Watcher(self.start, self.folder)
        self.addCleanup(watcher.stop)
        return watcher

    def start(self):
        self.sessions.append(Session(PROGRAM, on_report=self.reports.append))
        return self.sessions[-1]

    def evaluations(self):
        """How many commands were evaluated since the last time."""
        count = sum(report.part == "eval" for report in self.reports)
        self.reports.clear()
        return count

    def test_one_changed_letter_checks_again_what_depends_on_it_alone(self):
        watcher = self.watcher()
        self.assertEqual(len(watcher.look().checked), COUNT)
        self.assertEqual(self.evaluations(), 4 * COUNT)
        self.assertIsNone(watcher.look())
        self.write(13, text_of(13).replace("h h", "h g"))
        found = watcher.look()
        behind = importers(13)
        self.assertEqual(found.checked, tuple(sorted(f"T{number}" for number in behind)))
        self.assertEqual([cause.first.text for cause in found.causes], ["unknown name g"])
        # of the changed theory its proof and the end behind it, of the others all four commands
        self.assertEqual(self.evaluations(), 2 + 4 * (len(behind) - 1))

    def test_a_round_has_the_total_of_all_theories(self):
        watcher = self.watcher()
        watcher.look()
        self.write(99, text_of(99).replace("h h", "h g"))
        self.assertEqual(len(watcher.look().all_causes), 1)
        self.write(98, text_of(98).replace("end", ""))
        found = watcher.look()
        self.assertEqual([cause.first.text for cause in found.causes], ["the theory isn't ended"])
        self.assertEqual((len(found.all_causes), found.theories), (2, COUNT))

    def test_files_that_come_and_go(self):
        watcher = self.watcher()
        watcher.look()
        (self.folder / "T3.thy").unlink()
        found = watcher.look()
        self.assertIn("import T3: there is no file T3.thy", str(found.problems[0]))
        self.assertEqual({cause.first.text for cause in found.causes}, {"bad import T3"})
        self.write(3, text_of(3))
        found = watcher.look()
        self.assertEqual((found.causes, found.all_causes), ((), ()))

    def test_after_many_changes_all_is_as_a_fresh_check_finds(self):
        watcher = self.watcher()
        watcher.look()
        for number in (1, 99, 50, 7, 1, 25):
            path = self.folder / f"T{number}.thy"
            path.write_text(path.read_text().replace("P --> P", f"P{number} --> P{number}") + f"(* {number} *)")
            found = watcher.look()
        fresh = causes_of(check(load([self.folder]), PROGRAM))
        self.assertEqual([cause.first for cause in found.all_causes], [cause.first for cause in fresh])

    def test_a_program_that_ends_is_started_anew_by_the_next_look(self):
        watcher = self.watcher()
        watcher.look()
        self.sessions[0]._process.kill()
        self.sessions[0]._reader.join()
        with self.assertRaisesRegex(Exception, "ended by signal 9"):
            watcher.look()
        self.assertEqual(len(watcher.look().checked), COUNT)

    def test_a_file_named_as_its_theory_wins_and_the_clash_is_told_once(self):
        watcher = self.watcher()
        watcher.look()
        (self.folder / "0.thy").write_text("theory T5 begin")
        found = watcher.look()
        self.assertEqual((found.checked, len(found.all_causes)), ((), 0))
        self.assertIn("0.thy: it is left out, since ", str(found.problems[0]))
        self.write(5, text_of(5) + " ")
        self.assertEqual(watcher.look().problems, ())


class Changes(InAFolder):
    """Both ways to be told of changes, over a folder of theories."""

    def setUp(self):
        super().setUp()
        self.reading, self.writing = os.pipe()
        self.addCleanup(os.close, self.reading)
        self.addCleanup(os.close, self.writing)

    def kinds(self):
        yield Looks()
        try:
            yield Inotify()
        except OSError:
            print("there is no inotify: it isn't tested", file=sys.stderr)

    def seconds_of_wait(self, changes, change):
        """How long it waits where this is done meanwhile; at most ten seconds."""
        rescue = threading.Timer(10, os.write, (self.writing, b"x"))
        rescue.start()
        worker = threading.Timer(0.3, change)
        worker.start()
        begun = time.monotonic()
        changes.wait(self.reading)
        taken = time.monotonic() - begun
        rescue.cancel()
        worker.join()
        return taken

    def test_changes_of_theories_and_folders_are_seen(self):
        (self.folder / "x").mkdir()
        for changes in self.kinds():
            self.write(1, "x")
            self.assertTrue(changes.watch({str(self.folder), str(self.folder / "x")}))
            self.assertFalse(changes.watch({str(self.folder)}))
            for change in (
                lambda: self.write(1, "xy"),
                lambda: self.write(2, "x"),
                lambda: (self.folder / "T2.thy").rename(self.folder / "T3.thy"),
                lambda: (self.folder / "T3.thy").unlink(),
                lambda: (self.folder / "y").mkdir(),
                lambda: (self.folder / "y").rmdir(),
            ):
                self.assertLess(self.seconds_of_wait(changes, change), 9)

    def test_other_files_are_no_changes(self):
        for changes in self.kinds():
            changes.watch({str(self.folder)})

            def change():
                (self.folder / "a.txt").write_text("x")
                (self.folder / ".T1.thy").write_text("x")
                time.sleep(1.5)
                os.write(self.writing, b"x")

            self.assertGreater(self.seconds_of_wait(changes, change), 1.5)
            os.read(self.reading, 10)

    def test_many_saves_are_waited_for(self):
        for changes in self.kinds():
            changes.watch({str(self.folder)})

            def change():
                for number in range(12):
                    self.write(number, "x")
                    time.sleep(0.05)

            self.assertGreater(self.seconds_of_wait(changes, change), 0.3 + 12 * 0.05)


@needs_program
class TheCommand(InAFolder):
    def setUp(self):
        super().setUp()
        self.write(1, text_of(1))

    def start(self, *words):
        ran = subprocess.Popen(
            [sys.executable, "-m", "pide", "watch", str(self.folder), *words], env=environment(),
            stdout=subprocess.PIPE, stderr=subprocess.PIPE, text=True,
        )
        self.addCleanup(ran.stderr.close)
        self.addCleanup(ran.stdout.close)
        self.addCleanup(ran.wait)
        self.addCleanup(ran.kill)
        return ran

    def child_of(self, ran):
        children = Path(f"/proc/{ran.pid}/task/{ran.pid}/children").read_text().split()
        self.assertEqual(len(children), 1)
        return int(children[0])

    def test_a_client_that_is_killed_leaves_no_program_behind(self):
        ran = self.start()
        self.assertIn("checked", ran.stdout.readline())
        child = self.child_of(ran)
        before = sorted(self.folder.iterdir())
        ran.kill()
        ran.wait()
        deadline = time.monotonic() + 10
        while is_running(child) and time.monotonic() < deadline:
            time.sleep(0.05)
        self.assertFalse(is_running(child))
        self.assertEqual(sorted(self.folder.iterdir()), before)

    def test_a_checkout_of_many_files_is_one_round(self):
        ran = self.start()
        self.assertEqual(ran.stdout.readline(), "checked T1: 0 errors; 0 errors in 1 theory\n")
        for number in range(2, 1001):
            self.write(number, text_of(number))
        self.assertRegex(ran.stdout.readline(), "^checked T10, T100, T1000, T101, 995 more: 0 errors; "
                                                "0 errors in 1,000 theories\n$")
        self.write(1000, text_of(1000).replace("h h", "h g"))
        self.assertIn("unknown name g", ran.stdout.readline())
        self.assertEqual(ran.stdout.readline(), "checked T1000: 1 error; 1 error in 1,000 theories\n")

    def test_a_file_is_not_read_while_it_is_written(self):
        ran = self.start()
        ran.stdout.readline()
        text = text_of(2)
        with open(self.folder / "T2.thy", "w", buffering=1) as file:
            for begin in range(0, len(text), 8):
                file.write(text[begin : begin + 8])
                file.flush()
                time.sleep(0.02)
        self.assertEqual(ran.stdout.readline(), "checked T2: 0 errors; 0 errors in 2 theories\n")

    def test_a_program_that_dies_is_seen_at_once_and_started_anew(self):
        ran = self.start()
        ran.stdout.readline()
        os.kill(self.child_of(ran), signal.SIGKILL)
        self.assertEqual(ran.stdout.readline(), "checked T1: 0 errors; 0 errors in 1 theory\n")
        self.assertEqual(ran.stderr.readline(), "pide: the program was ended by signal 9; it is started anew\n")
        self.write(1, text_of(1) + " ")
        self.assertEqual(ran.stdout.readline(), "checked T1: 0 errors; 0 errors in 1 theory\n")

    def test_a_program_that_dies_again_is_started_when_a_file_changes(self):
        with tempfile.TemporaryDirectory() as folder:
            program = Path(folder, "program")
            program.write_text("#!/bin/sh\nread line\nexit 8\n")
            program.chmod(0o755)
            ran = self.start("--program", str(program))
            said = [ran.stderr.readline() for _ in range(2)]
            self.assertEqual([line.split("; ")[1] for line in said],
                             ["it is started anew\n", "it is started when a file changes\n"])
            program.write_text(f'#!/bin/sh\nexec {PROGRAM} "$@"\n')
            self.write(1, text_of(1) + " ")
            self.assertEqual(ran.stdout.readline(), "checked T1: 0 errors; 0 errors in 1 theory\n")

    def test_idle_it_takes_no_processor_time(self):
        for number in range(2, 201):
            self.write(number, text_of(number))
        ran = self.start()
        ran.stdout.readline()
        time.sleep(0.5)
        before = processor_ticks(ran.pid)
        time.sleep(2)
        self.assertLessEqual(processor_ticks(ran.pid) - before, 1)

    def test_an_interrupt_ends_it_without_a_word(self):
        ran = self.start()
        ran.stdout.readline()
        ran.send_signal(signal.SIGINT)
        self.assertEqual(ran.wait(20), 130)
        self.assertEqual((ran.stdout.read(), ran.stderr.read()), ("", ""))

    def test_what_is_no_folder_and_a_missing_program_are_told_in_a_line(self):
        for words, said in (([str(self.folder / "T1.thy")], "is no folder"),
                            ([str(self.folder), "--program", "/nothing"], "/nothing")):
            ran = subprocess.run([sys.executable, "-m", "pide", "watch", *words], env=environment(),
                                 capture_output=True, text=True, check=False)
            self.assertEqual((ran.returncode, ran.stdout, ran.stderr.count("\n")), (2, "", 1))
            self.assertIn(said, ran.stderr)


def processor_ticks(process):
    """The processor time of the process, in the system's ticks of some 10 ms."""
    words = Path(f"/proc/{process}/stat").read_text().rpartition(")")[2].split()
    return int(words[11]) + int(words[12])


def is_running(process):
    try:
        status = Path(f"/proc/{process}/stat").read_text()
    except FileNotFoundError:
        return False
    return status.rpartition(")")[2].split()[0] != "Z"


if __name__ == "__main__":
    unittest.main()
