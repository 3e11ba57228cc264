"""A program that neither ends by itself nor lets itself be terminated is killed after its patience."""

import os
import sys
import tempfile
import time
import unittest
from pathlib import Path

from pide import ProgramError, Session

PATIENCE = 1.0

STUBBORN = """\
import os, signal, time
signal.signal(signal.SIGTERM, signal.SIG_IGN)
os.write(1, b"ready\\n")
while True:
    time.sleep(60)
"""


class Stubborn(unittest.TestCase):
    def setUp(self):
        folder = tempfile.TemporaryDirectory()
        self.addCleanup(folder.cleanup)
        self.program = Path(folder.name, "program")

    def session(self, script):
        self.program.write_text(f"#!{sys.executable}\n{script}")
        self.program.chmod(0o755)
        return Session(str(self.program), patience=PATIENCE)

    def assert_is_gone_in_time(self, session, begun):
        self.assertLess(time.monotonic() - begun, 2 * PATIENCE + 20)
        with self.assertRaises(ProcessLookupError):
            os.kill(session._process.pid, 0)

    def test_a_session_that_is_closed_kills_it(self):
        session = self.session(STUBBORN.replace('os.write(1, b"ready\\n")', ""))
        time.sleep(1)
        begun = time.monotonic()
        with self.assertRaisesRegex(ProgramError, "doesn't end by itself"):
            session.close()
        self.assert_is_gone_in_time(session, begun)

    def test_a_session_that_is_killed_kills_it(self):
        session = self.session(STUBBORN.replace('os.write(1, b"ready\\n")', ""))
        time.sleep(1)
        begun = time.monotonic()
        session.kill()
        self.assert_is_gone_in_time(session, begun)

    def test_nonsense_kills_it_too(self):
        session = self.session(STUBBORN)
        begun = time.monotonic()
        self.assertRaises(Exception, session.close)
        self.assert_is_gone_in_time(session, begun)

    def test_one_that_ends_by_itself_is_waited_for(self):
        ended = []
        session = Session(sys.executable, words=["-c", "import sys; sys.stdin.read()"],
                          on_end=lambda: ended.append(True))
        self.assertFalse(session.has_ended)
        session.close()
        self.assertTrue(session.has_ended)
        self.assertEqual(ended, [True])


if __name__ == "__main__":
    unittest.main()
