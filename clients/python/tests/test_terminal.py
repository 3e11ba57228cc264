"""What terminals can do, by their streams and by TERM, NO_COLOR and COLUMNS."""

import io
import os
import pty
import unittest
from unittest import mock

from pide import terminal


class Terminals(unittest.TestCase):
    def setUp(self):
        above, below = pty.openpty()
        self.addCleanup(os.close, above)
        self.stream = open(below, "w")
        self.addCleanup(self.stream.close)

    def seen(self, **environment):
        """Whether the terminal is one, can be written over, and shows colours."""
        with mock.patch.dict(os.environ, environment, clear=True):
            return tuple(ask(self.stream) for ask in (terminal.is_terminal, terminal.can_overwrite,
                                                      terminal.has_colours))

    def test_term_and_no_color_are_heeded(self):
        self.assertEqual(self.seen(TERM="xterm"), (True, True, True))
        self.assertEqual(self.seen(TERM="xterm", NO_COLOR="1"), (True, True, False))
        self.assertEqual(self.seen(TERM="xterm", NO_COLOR=""), (True, True, True))
        self.assertEqual(self.seen(TERM="dumb"), (True, False, False))
        self.assertEqual(self.seen(), (True, False, False))

    def test_what_is_no_terminal_is_never_written_over(self):
        closed = io.StringIO()
        closed.close()
        with mock.patch.dict(os.environ, {"TERM": "xterm"}, clear=True):
            for stream in (None, io.StringIO(), closed):
                self.assertFalse(terminal.is_terminal(stream) or terminal.can_overwrite(stream))
                self.assertEqual(terminal.width(stream), terminal.DEFAULT_WIDTH)

    def test_the_width_is_that_of_columns_else_the_default(self):
        for told, columns in (("100", 100), ("0", 80), ("x", 80), ("-3", 80)):
            with mock.patch.dict(os.environ, {"COLUMNS": told}):
                self.assertEqual(terminal.width(io.StringIO()), columns)


if __name__ == "__main__":
    unittest.main()
