"""Records, timelines and the terminal view, on a recorded session and on made ones."""

from __future__ import annotations

import io
import os
import pty
import re
import select
import subprocess
import sys
import tempfile
import time
import unittest
from pathlib import Path

from pide import Change, Insert, Remove
from pide.framing import Frames, message_bytes
from pide.messages import AskSnapshot, Cancel, RemoveVersions, Settle, Update, opened
from pide.pictures.recording import Ended, Events, Heard, RecordFault, Recorder, Sent, Unread, events_of
from pide.pictures.scale import Scale, shown_time, stacked
from pide.pictures.story import Story, edited, shortened
from pide.pictures.tally import tally_of
from pide.pictures.timeline import timeline_page
from pide.pictures.timeline_bars import Fate, bars_of, fate_of, rows_of
from pide.pictures.top_view import lines_of
from pide.replies import Assigned, Cancelled, Dropped, Refused, Removed, Reported, Settled
from pide.errors import Refusal
from pide.reports import Report
from pide.wire import chunks_of

from .pages import Page
from .program import PROGRAM, TOP, environment, needs_program

RECORD = Path(__file__).parent / "records" / "two-nodes.record"
EXCHANGE = TOP / "examples" / "two-nodes.pide"
TITLE = [b"pide record", b"1", b"serve --workers 2"]


def entry(direction, at, value):
    """An entry of a record: a message or a reply, at a time in milliseconds."""
    piece = value if isinstance(value, bytes) else message_bytes(chunks_of(value))
    return message_bytes([direction, b"%d" % (at * 1000), piece])


def sent(at, message):
    return entry(b">", at, message)


def heard(at, reply):
    return entry(b"<", at, reply)


def record(*entries):
    return message_bytes(TITLE) + b"".join(entries)


def story_of(content):
    story, events = Story(), Events()
    for event in events_of(io.BytesIO(content), events):
        story.take(event)
    return story


def by(name="by"):
    return (Report(0, 2, "command", (("name", name),)),)


TEXT = 'theory A begin lemma l: "P <-" by (impI h h) end'
ENTRIES = [
    sent(10, Update(1, (("A", opened(TEXT)),))),
    heard(20, Assigned(1, (("A", ((1, (1,)), (2, (2, 5)), (3, (3,)), (4, (4,)))),))),
    sent(21, Settle(1)),
    heard(30, Reported(1, "eval", ())),
    heard(31, Reported(2, "eval", ())),
    heard(32, Reported(3, "eval", by())),
    sent(40, Update(2, (("A", Change((Remove(0, "t"), Insert(0, "t")))),))),
    heard(50, Settled(1, ())),
    heard(60, Assigned(2, (("A", ((1, (1,)), (2, (2,)), (3, (6,)), (4, (7,)))),))),
    heard(61, Dropped(4, "eval")),
    sent(70, Cancel(6)),
    heard(71, Cancelled(6)),
    sent(72, AskSnapshot(9, "A")),
    heard(73, Refused(Refusal.UnknownVersion)),
    sent(74, RemoveVersions((1,))),
    heard(75, Removed((1,))),
    heard(76, Reported(7, "eval", ())),
    message_bytes([b"end", b"80000", b"0"]),
]
SESSION = record(*ENTRIES)


class Records(unittest.TestCase):
    def test_what_is_recorded_is_read_as_it_was(self):
        pieces = []
        recorder = Recorder(pieces.append, ["serve", "--workers", "3"])
        message = message_bytes(chunks_of(Settle(7)))
        for piece in (message[:5], message[5:]):
            recorder.piece(b">", piece)
        recorder.piece(b"<", message_bytes(chunks_of(Settled(7, ()))))
        recorder.end(5)
        events = Events()
        found = [event for piece in pieces for at in range(len(piece)) for event in events.feed(piece[at : at + 1])]
        self.assertEqual(events.words, "serve --workers 3")
        self.assertEqual([type(event) for event in found], [Sent, Heard, Ended])
        self.assertEqual((found[0].message, found[1].reply, found[2].status), (Settle(7), Settled(7, ()), 5))
        self.assertLessEqual(found[0].time, found[1].time)

    def test_a_record_that_cannot_be_written_stops_nothing(self):
        def write(_):
            raise BrokenPipeError(32, "Broken pipe")

        recorder = Recorder(write, ["serve"])
        recorder.piece(b">", b"x")
        self.assertEqual(recorder.fault.errno, 32)

    def test_what_is_no_record_is_refused(self):
        broken = [b"", b"nothing\n", b"x" * 300, message_bytes([b"other"]), message_bytes([TITLE[0], b"2", b"serve"]),
                  record(message_bytes([b"?", b"1", b"x"])), record(message_bytes([b">", b"x", b"y"])),
                  record(message_bytes([b">"])), record(heard(1, b"5\nwhat?")), record(heard(1, b"what\n"))]
        for content in broken:
            with self.subTest(content), self.assertRaises(RecordFault):
                list(events_of(io.BytesIO(content), Events()))

    def test_messages_that_cannot_be_read_are_told(self):
        content = record(sent(1, b"5\nwhat?"), sent(2, b"no\n"), sent(3, b"7\nmore"))
        found = [event.message for event in events_of(io.BytesIO(content), Events())]
        self.assertEqual([type(message) for message in found], [Unread, Unread])
        self.assertIn("BadHeader", found[1].text)

    def test_a_record_that_breaks_off_is_read_as_far_as_it_goes(self):
        for stop in range(len(message_bytes(TITLE)), len(SESSION)):
            story = story_of(SESSION[:stop])
            faults = Page("".join(timeline_page(story))).faults if stop % 40 == 0 else []
            self.assertEqual(faults, [])


class Stories(unittest.TestCase):
    def setUp(self):
        self.story = story_of(SESSION)

    def test_what_an_edit_kept(self):
        first, second = self.story.versions.values()
        self.assertEqual((len(first.made), first.kept, len(second.made), second.kept), (5, 0, 2, 2))
        self.assertEqual((first.removed, second.removed), (0.075, None))
        self.assertEqual([execution.text for execution in second.made], ["by (impI h h)", "end"])

    def test_fates(self):
        fates = {(number, part.name): fate_of(execution, part)
                 for number, execution in self.story.executions.items() for part in execution.parts}
        self.assertEqual(fates, {
            (1, "eval"): Fate.DONE, (2, "eval"): Fate.DONE, (3, "eval"): Fate.DONE, (3, "fork"): Fate.LEFT,
            (4, "eval"): Fate.DROPPED, (5, "print"): Fate.LEFT, (6, "eval"): Fate.CANCELLED, (7, "eval"): Fate.DONE,
        })
        fork = self.story.executions[3].part("fork")
        self.assertEqual((fork.start, fork.stop), (0.032, None))

    def test_a_stuck_execution_is_told_as_cancelled(self):
        story = story_of(record(*ENTRIES[:-1], sent(90, Settle(2)), heard(91, Settled(2, (6, 7)))))
        self.assertEqual((story.executions[6].cancelled, story.executions[7].cancelled), (0.071, 0.091))

    def test_edits(self):
        self.assertEqual(edited("abc", (Remove(1, "b"), Insert(2, "xy"))), "acxy")
        self.assertEqual(shortened("a\n  b " + "c" * 100), "a b " + "c" * 65 + "…")

    def test_refused_updates_are_no_versions(self):
        story = story_of(record(sent(1, Update(1, ())), heard(2, Refused(Refusal.Limit))))
        self.assertEqual(story.versions, {})

    def test_replies_that_nothing_asked_for_change_nothing(self):
        replies = (Settled(1, ()), Reported(9, "eval", ()), Dropped(9, "eval"))
        story = story_of(record(*(heard(at, reply) for at, reply in enumerate(replies))))
        self.assertEqual((story.executions, len(story.report_times)), ({}, 1))


class Timelines(unittest.TestCase):
    def page(self, story):
        page = Page("".join(timeline_page(story, "serve <x>")))
        self.assertEqual(page.faults, [])
        for link in page.links:
            self.assertIn(link, {f"#{name}" for name in page.ids})
        return page

    def test_bars(self):
        text = "".join(timeline_page(story_of(SESSION), "serve"))
        for fate, count in (("kept", 2), ("cancelled", 1), ("dropped", 1), ("left", 2), ("done", 4)):
            bars = re.findall(rf'<g class="bar \w+ {fate}"><title>', text)
            self.assertEqual(len(bars), count, fate)
        self.assertIn("lemma l: &quot;P &lt;-&quot;\nevaluation of execution 2 in A, reported after 11 ms", text)
        self.assertIn("refused (UnknownVersion) to snapshot of A in version 9", text)

    def test_pages_are_well_formed(self):
        for content in (SESSION, RECORD.read_bytes(), record()):
            self.page(story_of(content))

    def test_a_recorded_session(self):
        story = story_of(RECORD.read_bytes())
        first, second = story.versions.values()
        self.assertEqual((len(first.made), second.kept), (9, 1))
        self.assertEqual(first.made[1].text, 'axiom a: "P"')
        self.assertEqual([fate_of(second_made, second_made.parts[0]) for second_made in second.made
                          if second_made.number in (18, 19)], [Fate.CANCELLED] * 2)

    def test_many_executions_are_drawn_together(self):
        rows = tuple((number, (number,)) for number in range(1, 5_001))
        story = story_of(record(sent(1, Update(1, ())), heard(2, Assigned(1, (("A", rows),)))))
        version = story.versions[1]
        grouped = rows_of(version)
        self.assertLessEqual(len(grouped), 300)
        self.assertEqual(sum(map(len, grouped)), 5_000)
        self.assertEqual(len(list(bars_of(version, grouped, story.last))), len(grouped))
        self.page(story)

    def test_theories_that_are_left_as_they_were(self):
        nodes = tuple((f"T{number}", ((number, (number,)),)) for number in range(1, 31))
        story = story_of(record(
            sent(1, Update(1, ())), heard(2, Assigned(1, nodes)),
            sent(3, Update(2, ())), heard(4, Assigned(2, (("T1", ((1, (31,)),)),))),
        ))
        second = story.versions[2]
        self.assertEqual((second.kept, len(second.untouched), second.untouched[-1]), (29, 13, ("other theories", 17)))
        self.page(story)


class Scales(unittest.TestCase):
    def test_long_rests_are_drawn_short(self):
        scale = Scale([0.1, 0.2, 5.0, 5.1], frozenset([5.0]), 1000)
        self.assertEqual([(pause.start, pause.stop) for pause in scale.pauses], [(0.2, 5.0)])
        places = [scale.place(at / 100) for at in range(0, 520)]
        self.assertEqual(places, sorted(places))
        self.assertLess(scale.place(5.0) - scale.place(0.2), 30)
        self.assertAlmostEqual(scale.place(5.1), 1000)
        for at in (0, 0.15, 3.0, 5.05):
            self.assertAlmostEqual(scale.time(scale.place(at)), at)

    def test_no_time_at_all(self):
        scale = Scale([0.0], frozenset(), 1000)
        self.assertEqual((scale.place(0), scale.time(500), scale.pauses), (0, 0, []))

    def test_rows_of_what_overlaps(self):
        self.assertEqual(stacked([(0, 5), (1, 2), (3, 4), (6, 7)], 0.5), [0, 1, 1, 0])

    def test_times_with_units(self):
        self.assertEqual([shown_time(time) for time in (0.0, 0.00035, 0.0123, 1.2345, 200)],
                         ["0 ms", "0.35 ms", "12 ms", "1.234 s", "3 min 20 s"])


class Top(unittest.TestCase):
    def test_counts(self):
        early = tally_of(story_of(record(*ENTRIES[:7])), 1.0)
        self.assertEqual((early.versions, early.pending), ((1, 2), (("A", 3),)))
        late = tally_of(story_of(SESSION), 0.08)
        self.assertEqual((late.versions, late.pending, late.reports, late.waiting), ((2,), (), 4, 0))
        self.assertEqual((round(late.slowest[0].seconds, 6), late.slowest[0].text), (0.041, "end"))

    def test_lines_fit_and_steer_nothing(self):
        rows = tuple((number, (number,)) for number in range(1, 101))
        nodes = tuple((f"T{number}", rows[number : number + 1]) for number in range(90))
        text = 'theory A begin\nlemma l: "\x1b[2J" by'
        story = story_of(record(sent(1, Update(1, (("A", opened(text)),))),
                                heard(2, Assigned(1, (("A", ((200, (200,)), (201, (201,)), (202, (202,)))), *nodes)))))
        for width, height in ((80, 24), (40, 10), (200, 60), (1, 1)):
            lines = lines_of(tally_of(story, 2.0), width, height, False, "a\x1bb")
            self.assertLessEqual(len(lines), max(1, height - 1))
            self.assertTrue(all(len(line) <= max(width, 40) for line in lines))
            self.assertNotIn("\x1b", "".join(lines))


def run(*words, **given):
    return subprocess.run([sys.executable, "-m", "pide", *map(str, words)], env=environment(), capture_output=True,
                          timeout=300, **given)


class Commands(unittest.TestCase):
    def setUp(self):
        made = tempfile.TemporaryDirectory()
        self.addCleanup(made.cleanup)
        self.folder = Path(made.name)

    @needs_program
    def test_record_hands_all_over_and_timeline_draws_it(self):
        path = self.folder / "a.record"
        with open(EXCHANGE, "rb") as stream:
            ran = run("record", "-o", path, "--", "serve", stdin=stream)
        with open(EXCHANGE, "rb") as stream:
            plain = subprocess.run([PROGRAM, "serve"], stdin=stream, capture_output=True)
        self.assertEqual((ran.returncode, ran.stdout, ran.stderr), (0, plain.stdout, b""))
        events = list(events_of(io.BytesIO(path.read_bytes()), Events()))
        self.assertEqual(sum(isinstance(event, Heard) for event in events), len(Frames(None).feed(plain.stdout)))
        self.assertEqual(events[-1].status, 0)
        page = self.folder / "a.html"
        drawn = run("timeline", path, "-o", page)
        self.assertEqual((drawn.returncode, drawn.stdout.decode().strip()), (0, str(page)))
        self.assertEqual(Page(page.read_text()).faults, [])

    @needs_program
    def test_record_has_the_status_of_the_program(self):
        path = self.folder / "a.record"
        self.assertEqual(run("record", "-o", path, "--", "serve", input=b"no\n").returncode, 5)
        self.assertEqual(run("record", "-o", path, "--", "dance", input=b"").returncode, 2)
        self.assertEqual(run("record", "-o", self.folder, input=b"").returncode, 2)

    def test_files_that_are_no_records_are_told_in_a_line(self):
        for words in (("timeline", EXCHANGE, "-o", self.folder / "x.html"), ("top", EXCHANGE),
                      ("timeline", self.folder / "none", "-o", self.folder / "x.html"), ("top", self.folder / "none"),
                      ("timeline", RECORD, "-o", self.folder / "no" / "x.html")):
            ran = run(*words)
            self.assertEqual((ran.returncode, ran.stdout), (2, b""), words)
            self.assertRegex(ran.stderr.decode(), r"\Apide: .*\n\Z")

    def test_top_prints_its_last_view_where_there_is_no_terminal(self):
        for given in ({}, {"stdin": open(RECORD, "rb")}):
            ran = run("top", "-" if given else RECORD, **given)
            self.assertEqual((ran.returncode, ran.stderr), (0, b""))
            self.assertIn("versions   1 live: 2", ran.stdout.decode())
            for stream in given.values():
                stream.close()

    def test_top_follows_a_record_in_a_terminal(self):
        path = self.folder / "growing.record"
        path.write_bytes(SESSION[:200])
        master, terminal = pty.openpty()
        process = subprocess.Popen([sys.executable, "-m", "pide", "top", path], stdout=terminal, stderr=terminal,
                                   env={**environment(), "TERM": "xterm", "NO_COLOR": "1"})
        os.close(terminal)
        shown = read_until(master, b"PENDING BY THEORY")
        with open(path, "ab") as stream:
            stream.write(SESSION[200:])
        shown += read_until(master, None)
        os.close(master)
        self.assertEqual(process.wait(120), 0)
        self.assertTrue(shown.startswith(b"\x1b[?1049h"))
        self.assertIn(b"\x1b[?1049l", shown)
        self.assertIn(b"reports    4", shown)


def read_until(terminal, mark):
    """What a terminal shows until the mark is there, or until it ends."""
    shown, end = b"", time.monotonic() + 120
    while time.monotonic() < end and (mark is None or mark not in shown):
        if select.select([terminal], [], [], 0.2)[0]:
            try:
                shown += os.read(terminal, 65536)
            except OSError:
                break
    return shown


if __name__ == "__main__":
    unittest.main()
