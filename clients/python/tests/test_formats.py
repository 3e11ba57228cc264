"""YXML, data and frames: the examples of docs/FORMATS.md."""

import unittest

from pide.data import BOOL, INT, STRING, get_variant, list_of, option, pair, put_variant
from pide.errors import DataFault, FrameFault, ProtocolFault, YxmlFault
from pide.framing import Frames, message_bytes
from pide.reports import Report
from pide.wire import reply_of
from pide.yxml import Element, parse_body, yxml_text


def shown(text):
    return text.replace("␅", "\x05").replace("␆", "\x06")


class Yxml(unittest.TestCase):
    def test_an_element_and_a_text_behind_it(self):
        body = parse_body(shown("␅␆a␆k=v␅x␅␆␅y"))
        self.assertEqual(body, (Element("a", (("k", "v"),), ("x",)), "y"))
        self.assertEqual(yxml_text(body), shown("␅␆a␆k=v␅x␅␆␅y"))

    def test_doubled_marks_and_split_texts_are_read(self):
        self.assertEqual(parse_body(shown("␅␅x␅␅y␅")), ("xy",))

    def test_the_first_fault_is_told_with_its_place(self):
        for text, name, at in [
            ("␅␆␅", "Unbalanced", 1),
            ("␅␆a␅", "Unbalanced", 4),
            ("␅␆␆a=b␅", "BadTag", 1),
            ("␅␆a␆=b␅␅␆␅", "BadAttribute", 1),
            ("a␆b", "BadText", 0),
            ("ä␅␆␅", "Unbalanced", 3),
            ("␅␆a␅" * 201, "TooDeep", 801),
        ]:
            with self.subTest(text):
                with self.assertRaises(YxmlFault) as raised:
                    parse_body(shown(text))
                self.assertEqual((raised.exception.name, raised.exception.at), (name, at))

    def test_200_elements_may_be_nested(self):
        text = shown("␅␆a␅" * 200 + "␅␆␅" * 200)
        self.assertEqual(yxml_text(parse_body(text)), text)


class Data(unittest.TestCase):
    def wrong(self, shape, text):
        with self.assertRaises(DataFault) as raised:
            shape.get(parse_body(shown(text)))
        return raised.exception.path

    def test_values_are_read_as_they_are_written(self):
        for shape, value in [
            (INT, 0),
            (INT, -7),
            (INT, 10**18 - 1),
            (BOOL, True),
            (STRING, ""),
            (STRING, "x"),
            (pair(INT, STRING), (1, "")),
            (list_of(INT), (1, 2)),
            (list_of(list_of(INT)), ((), (1,))),
            (option(STRING), None),
            (option(STRING), ""),
        ]:
            with self.subTest(value=value):
                self.assertEqual(shape.get(shape.put(value)), value)
        self.assertEqual(get_variant(put_variant(3, ["a", "b"], ("x",))), (3, ("a", "b"), ("x",)))

    def test_the_first_wrong_place_is_told(self):
        self.assertEqual(self.wrong(list_of(INT), "␅␆:␅1␅␆␅␅␆:␅x␅␆␅"), (1,))
        self.assertEqual(self.wrong(pair(INT, INT), "␅␆:␅1␅␆␅" * 3), ())
        self.assertEqual(self.wrong(list_of(INT), "x"), (0,))
        for number in ("-0", "01", "+1", "", "1000000000000000000", "١"):
            self.assertEqual(self.wrong(INT, number), ())

    def test_a_node_has_no_attributes(self):
        self.assertEqual(self.wrong(list_of(INT), "␅␆:␆a=b␅1␅␆␅"), (0,))


class Replies(unittest.TestCase):
    def test_what_is_wrong_with_long_parts_is_raised_when_they_are_looked_at(self):
        for reports in (shown("␅␆a␅").encode(), b"text", shown("␅␆error␆offset=1␅x␅␆␅").encode()):
            snapshot = reply_of([b"markup", b"1", b"A", reports, b"", b"0"])
            self.assertTrue(snapshot.is_whole)
            with self.assertRaises(ProtocolFault):
                len(snapshot.reports)
        self.assertRaises(ProtocolFault, lambda: snapshot.errors)
        self.assertRaises(ProtocolFault, reply_of, [b"markup", b"1", b"A", b"", b"x", b"0"])

    def test_what_is_spelled_otherwise_is_read_strictly(self):
        for chunks in (
            [b"settled", b"01", b""],
            [b"settled", b"0", b""],
            [b"settled", b"1\n", b""],
            [b"settled", b"1", shown("␅␆:␅0␅␆␅").encode()],
            [b"settled", b"1", shown("␅␆:␅1␅␆␅\n").encode()],
            [b"report", b"1", b"Eval", b""],
            [b"report", b"1", b"eval"],
            [b"markup", b"1", b"A\n", b"", b"", b"0"],
            [b"markup", b"1", b"A", b"", b"", b"2"],
            [b"markup", b"\xff", b"A", b"", b"", b"0"],
            [b"built", b"1A", b""],
            [b"other"],
        ):
            with self.subTest(chunks):
                self.assertRaises(ProtocolFault, reply_of, chunks)
        doubled = shown("␅␅␆:␅7␅␆␅").encode()
        self.assertEqual(reply_of([b"settled", b"1", doubled]).stuck, (7,))
        self.assertEqual(reply_of([b"markup", b"1", b"A", b"", doubled, b"1"]).pending, (7,))

    def test_bytes_that_are_no_utf8_are_a_fault_when_they_are_looked_at(self):
        snapshot = reply_of([b"markup", b"1", b"A", b"\xff", b"", b"0"])
        self.assertRaises(ProtocolFault, lambda: snapshot.errors)
        self.assertRaises(ProtocolFault, lambda: len(snapshot.reports))

    def test_reports_of_one_kind_are_read_alone(self):
        text = shown("␅␆command␆offset=0␆end_offset=3␆name=end␅␅␆␅␅␆error␆offset=0␆end_offset=3␅ä␅␆␅")
        snapshot = reply_of([b"markup", b"1", b"A", text.encode(), b"", b"0"])
        self.assertEqual(snapshot.errors, [Report(0, 3, "error", (), "ä")])
        self.assertEqual(snapshot.reports[0], Report(0, 3, "command", (("name", "end"),)))
        self.assertEqual(snapshot.of_kind("proved"), [])


class Framing(unittest.TestCase):
    def test_a_message_has_1_to_16_chunks(self):
        self.assertEqual(message_bytes([b"settled", b"1", b""]), b"7,1,0\nsettled1")
        self.assertRaises(ValueError, message_bytes, [])
        self.assertRaises(ValueError, message_bytes, [b""] * 17)
        self.assertRaises(ValueError, message_bytes, [bytes((1 << 24) + 1)])

    def test_long_chunks_in_pieces_and_messages_behind_them(self):
        messages = [[b"x" * 100_000, b""], [b""], [b"y", b"z" * 70_000], [b"a"]] * 3
        stream = b"".join(map(message_bytes, messages))
        for size in (1, 100, 4096, 65536, len(stream)):
            frames = Frames(None)
            found = []
            for start in range(0, len(stream), size):
                found += frames.feed(stream[start : start + size])
            frames.finish()
            self.assertEqual(found, messages)

    def test_faults_are_told_with_the_place_where_the_message_begins(self):
        for behind, name in (
            (b"x\n", "BadHeader"),
            (b"1" * 201, "BadHeader"),
            (b"1\r\r\n", "BadHeader"),
            (b",".join([b"0"] * 17) + b"\n", "TooMany"),
            (b"1,16777217\n", "TooLong"),
            (b"3\nab", "Truncated"),
            (b"3", "Truncated"),
        ):
            for cut in range(len(behind)):
                with self.subTest(behind, cut=cut), self.assertRaises(FrameFault) as raised:
                    frames = Frames()
                    self.assertLessEqual(len(frames.feed(b"2\nab" + behind[:cut])), 1)
                    frames.feed(behind[cut:])
                    frames.finish()
                self.assertEqual((raised.exception.name, raised.exception.at), (name, 4))


if __name__ == "__main__":
    unittest.main()
