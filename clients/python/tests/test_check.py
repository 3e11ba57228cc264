"""`python3 -m pide check`, as a builder starts it."""

import json
import os
import pty
import re
import resource
import signal
import subprocess
import sys
import tempfile
import time
import unittest
from pathlib import Path

from pide import __version__
from pide.findings import Finding
from pide.framing import message_bytes
from pide.headers import header_of
from pide.theories import Lines, Theory

from .program import PYTHON, TOP, checked_lines, environment, needs_program

EXAMPLES = sorted((TOP / "examples").glob("*.thy"))
RIGHT = 'theory A begin lemma a: "P --> P" by (impI h h) end'


def command(*words):
    return [sys.executable, "-m", "pide", "check", *map(str, words)]


def check(*words, cwd=TOP, **options):
    """The exit status, and the lines of output and of errors."""
    ran = subprocess.run(
        command(*words), cwd=cwd, env={**environment(), **options.pop("env", {})},
        stdout=subprocess.PIPE, stderr=subprocess.PIPE, text=True, check=False, **options,
    )
    return ran.returncode, ran.stdout.splitlines(), ran.stderr.splitlines()


def check_in_shell(line, cwd=TOP):
    """The exit status of bash, and what stands on standard error, of a line where $check stands for the command."""
    line = line.replace("$check", " ".join(command()))
    ran = subprocess.run(["bash", "-o", "pipefail", "-c", line], cwd=cwd, env=environment(),
                         stdout=subprocess.DEVNULL, stderr=subprocess.PIPE, text=True, check=False)
    return ran.returncode, ran.stderr


def errors_by_the_program(path, shown):
    """What the program's own `check` says of a file's errors, by file, line and column."""
    text = path.read_text()
    lines = Lines(text)
    found = []
    for line in checked_lines(text):
        error = re.fullmatch(r"([0-9]+)-[0-9]+ error: (.*)", line)
        if error:
            found.append((*lines.place(int(error[1])), error[2]))
    return [f"{shown}:{line}:{column}: error: {text}" for line, column, text in sorted(found)]


class InAFolder(unittest.TestCase):
    def setUp(self):
        folder = tempfile.TemporaryDirectory()
        self.addCleanup(folder.cleanup)
        self.folder = Path(folder.name)

    def write(self, name, text):
        (self.folder / name).write_text(text)

    def check(self, *words, **options):
        return check(*words, cwd=self.folder, **options)


class WithoutTheProgram(InAFolder):
    def test_wrong_words_are_usage(self):
        for words in ((), ("--unknown",), ("--workers", "17", "x"), ("--workers", "x", "x")):
            self.assertEqual(check(*words)[0], 2)

    def test_a_missing_file_is_told(self):
        status, output, errors = check("nothing.thy", "-q")
        self.assertEqual((status, output, errors), (2, [], ["pide: nothing.thy: No such file or directory"]))

    def test_no_program_is_told(self):
        status, output, errors = check("--program", "/nothing", EXAMPLES[-1])
        self.assertEqual((status, output, len(errors)), (2, [], 1))
        self.assertIn("/nothing", errors[0])

    def test_an_error_is_three_lines_in_a_terminal(self):
        text = "x\n\t by x more"
        theory = Theory(Path("A.thy"), text, header_of(text))
        finding = Finding("A.thy", 2, 3, "no\nsuch name", "A", (4, 8), theory)
        self.assertEqual(finding.line_in(), "A.thy:2:3: error: no such name")
        self.assertEqual(finding.line_in(behind=2001), "A.thy:2:3: error: no such name, and 2,001 errors behind it")
        self.assertEqual(finding.excerpt(80), ("\t by x more", "\t ^^^^"))

    def test_the_version_is_the_package_s(self):
        for words in (["--version"], ["check", "--version"]):
            ran = subprocess.run([sys.executable, "-m", "pide", *words], env=environment(), capture_output=True)
            self.assertEqual((ran.returncode, ran.stdout.decode()), (0, f"pide {__version__}\n"))

    def test_a_fifo_is_not_read(self):
        os.mkfifo(self.folder / "A.thy")
        status, output, errors = self.check("A.thy", "-q", timeout=30)
        self.assertEqual((status, output, errors), (2, [], ["pide: A.thy: it is a FIFO, which isn't read"]))

    def test_a_program_that_ends_or_answers_nonsense_is_told_in_a_line(self):
        self.write("A.thy", RIGHT)
        for script, said in (("exit 8", "status 8: out of memory"), ("echo nonsense", "BadHeader"),
                             ("kill -9 $$", "ended by signal 9"), ("printf '7,1,0\\nsettled1'; exec cat", "a reply settled to a build")):
            self.write("program", f"#!/bin/sh\n{script}\n")
            (self.folder / "program").chmod(0o755)
            status, output, errors = self.check("A.thy", "--program", "./program")
            self.assertEqual((status, output, len(errors)), (2, [], 1), errors)
            self.assertIn(said, errors[0])


@needs_program
class WithTheProgram(InAFolder):
    def test_the_examples_have_the_errors_that_the_program_tells(self):
        self.assertGreater(len(EXAMPLES), 4)
        for path in EXAMPLES:
            with self.subTest(path.name):
                shown = path.relative_to(TOP)
                wanted = errors_by_the_program(path, shown)
                status, output, errors = check("--all", "-q", shown)
                self.assertEqual(output, wanted)
                self.assertEqual(status, 1 if wanted else 0)
                self.assertEqual(bool(errors), path.name == "bad-import.thy")

    def test_all_examples_are_checked_in_one_run(self):
        shown = [path.relative_to(TOP) for path in EXAMPLES]
        wanted = [line for path, name in zip(EXAMPLES, shown) for line in errors_by_the_program(path, name)]
        self.assertEqual(check("--all", *shown)[1], wanted)
        self.assertEqual(check("--all", "examples")[1], wanted)
        self.assertEqual(check("--all", "--workers", "0", "examples")[1], wanted)

    def test_imports_are_checked_too(self):
        self.write("A.thy", 'theory A begin axiom a: "P"\nlemma b: "Q" by a end')
        self.write("B.thy", 'theory B imports A begin lemma c: "P" by a lemma d: "Q" by b lemma e: "R" by b end')
        status, output, errors = self.check("B.thy")
        self.assertEqual(output, [
            "A.thy:2:14: error: a proves another formula",
            "B.thy:1:75: error: b proves another formula",
        ])
        self.assertEqual((status, errors), (1, ["2 errors in 2 theories"]))

    def test_a_theory_is_right_where_its_last_command_is_an_end_alone(self):
        for text, said in (
            ('theory A begin\nlemma false: "False"', "A.thy:2:21: error: the proof of false is missing"),
            ('theory A begin lemma l: "P --> P" proof', "A.thy:1:40: error: the proof of l is missing"),
            ("theory A begin\n\n", "A.thy:1:15: error: the theory isn't ended"),
            ("", "A.thy:1:1: error: the theory isn't ended"),
        ):
            self.write("A.thy", text)
            self.assertEqual(self.check("A.thy"), (1, [said], ["1 error in 1 theory"]))

    def test_columns_count_characters(self):
        self.write("A.thy", 'theory A begin\n(* \U0001d54f\u00e9 *) lemma a: "P" by x\nend')
        self.assertEqual(self.check("A.thy")[1], ["A.thy:2:23: error: unknown name x"])

    def test_an_import_that_is_not_there_is_told(self):
        self.write("A.thy", "theory A imports B begin end")
        status, output, errors = self.check("A.thy", "-q")
        self.assertEqual(errors, ["pide: A.thy:1:18: import B: there is no file B.thy"])
        self.assertEqual((status, output), (1, ["A.thy:1:1: error: bad import B, and 1 error behind it"]))

    def test_errors_behind_a_bad_import_are_counted_and_all_are_told_on_demand(self):
        lemmas = "".join(f'lemma l{number}: "P --> P" by (impI h h)\n' for number in range(1000))
        self.write("A.thy", f"theory A imports Gone begin\n{lemmas}end")
        status, output, errors = self.check("A.thy")
        self.assertEqual((status, output), (1, ["A.thy:1:1: error: bad import Gone, and 2,001 errors behind it"]))
        self.assertEqual(errors[-1], "2,002 errors in 1 theory")
        self.assertEqual(len(self.check("A.thy", "--all")[1]), 2002)

    def test_circles_and_names_that_differ_are_told_by_names(self):
        self.write("A.thy", "theory A imports B begin end")
        self.write("B.thy", "theory B imports A begin end")
        self.assertEqual(self.check("A.thy")[1], [
            "A.thy:1:1: error: bad import B: import cycle: A -> B -> A, and 3 errors behind it",
        ])
        self.write("A.thy", "theory A imports D begin end")
        self.write("D.thy", "theory E begin end")
        self.assertIn("D.thy:1:1: error: theory name differs: the header says E, and it is checked as D",
                      self.check("A.thy")[1][0])

    def test_what_is_right_is_counted_alone(self):
        self.write("A.thy", RIGHT)
        self.assertEqual(self.check("A.thy"), (0, [], ["0 errors in 1 theory"]))
        self.assertEqual(self.check("A.thy", "--quiet"), (0, [], []))

    def test_what_can_not_be_checked_outweighs_errors(self):
        self.write("A.thy", "theory A begin")
        self.write("B.thy", "theory A begin end")
        self.assertEqual(self.check("A.thy", "nothing.thy")[0], 2)
        self.assertEqual(self.check("A.thy", "B.thy")[0], 2)
        self.assertEqual(self.check("A.thy", "-I", "nothing")[0], 2)
        self.assertEqual(self.check("A.thy")[0], 1)

    def test_standard_input_and_folders_are_read(self):
        self.write("A.thy", RIGHT)
        text = "theory B imports A begin lemma b: \"Q\" by a end"
        self.assertEqual(self.check("-", input=text)[1],
                         ["<standard input>:1:39: error: a proves another formula"])
        self.assertEqual(self.check("."), (0, [], ["0 errors in 1 theory"]))

    def test_a_byte_order_mark_is_said_once_and_is_no_error(self):
        self.write("A.thy", "\ufeff" + RIGHT)
        self.assertEqual(self.check("A.thy", "-q"),
                         (0, [], ["pide: A.thy: the byte order mark at its beginning is left out"]))

    def test_json_has_an_object_in_each_line(self):
        self.write("A.thy", "theory A imports Gone begin\nend")
        status, output, errors = self.check("A.thy", "--json", "-q")
        problem, error, total = map(json.loads, output)
        self.assertEqual((status, errors), (1, []))
        self.assertEqual(problem, {
            "kind": "problem", "file": "A.thy", "line": 1, "column": 18,
            "text": "import Gone: there is no file Gone.thy", "fails": False,
        })
        self.assertEqual(error, {
            "kind": "error", "file": "A.thy", "theory": "A", "line": 1, "column": 1, "end_line": 1, "end_column": 28,
            "offset": 0, "end_offset": 27, "text": "bad import Gone", "behind": 1,
        })
        self.assertEqual(total, {"kind": "total", "errors": 2, "theories": 1, "problems": 1})

    def test_a_text_of_steering_characters_is_shown_as_text(self):
        name = "\x1b[31mA.thy"
        self.write(name, 'theory A begin lemma l: "P" by (* \x1b]0;title\x07 *) x end')
        output = self.check(name)[1]
        self.assertEqual(output, ["\\x1b[31mA.thy:1:29: error: unknown name x"])
        self.assertNotIn("\x1b", in_terminal(name, cwd=self.folder))

    def test_an_ascii_terminal_is_written_to(self):
        self.write("λ.thy", 'theory A begin (* λ *) lemma l: "P" by x end')
        status, output, errors = self.check("λ.thy", env={"PYTHONIOENCODING": "ascii", "PYTHONUTF8": "0"})
        self.assertEqual((status, output), (1, ["\\u03bb.thy:1:37: error: unknown name x"]))

    def test_many_errors_on_one_long_line_are_cut(self):
        self.write("A.thy", "theory A begin " + "".join(f'lemma l{number}: "P" by x ' for number in range(3000)) + "end")
        seen = in_terminal("A.thy", cwd=self.folder)
        self.assertEqual(seen.count("unknown name x"), 3000)
        self.assertLess(len(seen), 1_000_000)

    def test_a_terminal_sees_three_lines_and_no_progress_is_left(self):
        self.assertEqual(in_terminal("examples/wrong-proof.thy"), (
            "examples/wrong-proof.thy:3:24: error: h proves another formula\n"
            'lemma wrong: "P --> Q" by (impI h h)\n'
            "                       ^^^^^^^^^^^^^\n"
        ))

    def test_standard_output_that_fails_is_told_in_a_line(self):
        shown = "examples/errors.thy -q"
        for line, said in (
            (f"$check {shown} | true", "pide: standard output is closed\n"),
            (f"$check {shown} >/dev/full", "pide: standard output can't be written: No space left on device\n"),
            (f"$check {shown} >&-", "pide: standard output is closed\n"),
            ("$check --help >/dev/full", "pide: standard output can't be written: No space left on device\n"),
        ):
            if "/dev/full" not in line or os.path.exists("/dev/full"):
                with self.subTest(line):
                    self.assertEqual(check_in_shell(line), (2, said))

    def test_closed_streams_are_no_errors_where_they_are_not_needed(self):
        self.write("A.thy", RIGHT)
        self.assertEqual(check_in_shell("$check A.thy 2>&-", self.folder), (0, ""))
        self.assertEqual(check_in_shell("$check A.thy -q <&-", self.folder), (0, ""))
        self.assertEqual(check_in_shell("$check - -q <&-", self.folder), (2, "pide: <standard input>: it is closed\n"))

    def test_a_long_text_takes_little_more_than_the_engine(self):
        lemmas = "".join(f'lemma l{number}: "P --> P" by (impI h h)\n' for number in range(20_000))
        text = f"theory A begin\n{lemmas}end\n"
        self.write("A.thy", text)
        sent = message_bytes([b"Build.theory", b"A", text.encode()])
        engine = processor_seconds([environment()["PIDE"], "build"], input=sent)
        client = processor_seconds(command(str(self.folder / "A.thy"), "-q"), env=environment())
        starting = processor_seconds(command("--help"), env=environment())
        self.assertLess(client - starting, 1.5 * engine)

    def test_an_engine_that_does_not_end_is_killed(self):
        self.write("A.thy", RIGHT)
        self.write("program", "#!/bin/bash\ntrap '' TERM\n"
                   f"{environment()['PIDE']} \"$@\"\necho $$ >pid\nexec sleep 60 <&- >&- 2>&-\n")
        (self.folder / "program").chmod(0o755)
        begun = time.monotonic()
        self.assertEqual(self.check("A.thy", "-q", "--program", "./program"), (0, [], []))
        self.assertLess(time.monotonic() - begun, 30)
        with self.assertRaises(ProcessLookupError):
            os.kill(int((self.folder / "pid").read_text()), 0)


def processor_seconds(words, **options):
    """The processor time that the command takes, with all that it starts."""
    before = resource.getrusage(resource.RUSAGE_CHILDREN)
    subprocess.run(words, stdout=subprocess.DEVNULL, check=True, **options)
    after = resource.getrusage(resource.RUSAGE_CHILDREN)
    return after.ru_utime + after.ru_stime - before.ru_utime - before.ru_stime


def in_terminal(*words, cwd=TOP):
    """What a terminal is written of 80 columns, by standard output and standard error, both."""
    ours, theirs = pty.openpty()
    ran = subprocess.Popen(command(*words, "-q"), cwd=cwd, env={**environment(), "COLUMNS": "80"},
                           stdout=theirs, stderr=theirs)
    os.close(theirs)
    seen = []
    try:
        while True:
            seen.append(os.read(ours, 1 << 16))
    except OSError:  # the terminal is closed
        pass
    os.close(ours)
    ran.wait()
    return re.sub("\r[0-9,]+ of [0-9,]+ theor(y|ies)\x1b\\[K|\r\x1b\\[K", "", b"".join(seen).decode().replace("\r\n", "\n"))


class Interrupts(InAFolder):
    """An interrupt at any moment ends the command with status 130, and nothing is said."""

    def interrupted_after(self, seconds, words, **options):
        ran = subprocess.Popen(command(*words), cwd=self.folder, env={**environment(), **options},
                               stdout=subprocess.PIPE, stderr=subprocess.PIPE, text=True)
        time.sleep(seconds)
        ran.send_signal(signal.SIGINT)
        _, errors = ran.communicate(timeout=60)
        return ran.returncode, errors

    def test_at_any_moment_there_is_no_traceback_of_this_package(self):
        self.write("A.thy", RIGHT)
        self.write("program", "#!/bin/sh\nexec sleep 0.2\n")
        (self.folder / "program").chmod(0o755)
        for number in range(16):
            status, errors = self.interrupted_after(0.02 * number, ["A.thy", "--program", "./program"])
            self.assertNotIn(str(PYTHON), errors)
            if status not in (2, 130):  # Python itself was starting, or ending
                self.assertIn(status, (1, -signal.SIGINT))

    def test_while_modules_are_imported(self):
        slow = "import os, signal, sys\nclass Slow:\n    def find_spec(self, name, path=None, target=None):\n" \
               "        if name == 'pide.{}':\n            os.kill(os.getpid(), signal.SIGINT)\n" \
               "sys.meta_path.insert(0, Slow())\n"
        for module in ("commands", "errors", "output", "check", "session", "theories"):
            self.write("sitecustomize.py", slow.format(module))
            path = os.pathsep.join((str(self.folder), str(PYTHON)))
            ran = subprocess.run(command("A.thy"), env={**environment(), "PYTHONPATH": path},
                                 capture_output=True, text=True, check=False)
            self.assertEqual((module, ran.returncode, ran.stderr), (module, 130, ""))

    def test_while_the_program_works(self):
        self.write("A.thy", RIGHT)
        self.write("program", "#!/bin/sh\nexec sleep 60\n")
        (self.folder / "program").chmod(0o755)
        self.assertEqual(self.interrupted_after(2, ["A.thy", "--program", "./program"]), (130, ""))


if __name__ == "__main__":
    unittest.main()
