"""The stored exchanges, through the library: what it writes, what it reads, where it sees faults."""

import unittest

from pide.errors import FrameFault
from pide.framing import Frames, message_bytes
from pide.replies import Dropped, Refused, Reported
from pide.reports import REPORTS, plain_reports
from pide.rows import ASSIGNMENT, plain_assignment
from pide.wire import MessageFault, chunks_of, message_of, reply_of
from pide.yxml import parse_body

from .exchanges import exchanges

ASKED_BY_SHAPE = (1, 2, 3, 4, 5)

# replies with a fast reader: which of their arguments it reads, the reader, and the shape
FAST = [
    ({b"assign": 1}, plain_assignment, ASSIGNMENT),
    ({b"markup": 2, b"report": 2}, plain_reports, REPORTS),
]


class StoredExchanges(unittest.TestCase):
    @classmethod
    def setUpClass(cls):
        cls.exchanges = exchanges()

    def test_there_are_exchanges(self):
        self.assertGreater(len(self.exchanges), 60)
        self.assertGreater(sum(len(exchange.replies) for exchange in self.exchanges), 300)

    def test_a_well_formed_message_is_written_as_the_same_bytes(self):
        written = 0
        for exchange in self.exchanges:
            for chunks in exchange.messages:
                try:
                    message = message_of(chunks)
                except MessageFault:
                    continue
                with self.subTest(exchange.title):
                    self.assertEqual(message_bytes(chunks_of(message)), message_bytes(chunks))
                    written += 1
        self.assertGreater(written, 200)

    def test_every_reply_is_read_and_written_as_the_same_bytes(self):
        for exchange in self.exchanges:
            for chunks in exchange.replies:
                with self.subTest(exchange.title):
                    self.assertEqual(chunks_of(reply_of(chunks)), chunks)

    def test_what_is_read_fast_is_what_is_read_slowly(self):
        count = 0
        for exchange in self.exchanges:
            for word, *arguments in exchange.replies:
                for names, fast, shape in FAST:
                    if word in names:
                        text = arguments[names[word]].decode()
                        self.assertEqual(fast(text), shape.get(parse_body(text)))
                        self.assertIsNone(fast(text + "\x05\x06:\x05x\x05\x06\x05"))
                        count += 1
        self.assertGreater(count, 200)

    def test_messages_that_are_refused_by_their_form_alone_are_faults_of_the_same_number(self):
        for exchange in self.exchanges:
            replies = [reply_of(chunks) for chunks in exchange.replies]
            replies = [reply for reply in replies if not isinstance(reply, (Reported, Dropped))]
            if not (exchange.is_plain and exchange.serves and len(exchange.messages) == len(replies)):
                continue
            for chunks, reply in zip(exchange.messages, replies):
                if chunks[0].startswith(b"Step.") and exchange.words[0] == "serve":
                    continue
                refused = isinstance(reply, Refused) and reply.refusal in ASKED_BY_SHAPE
                with self.subTest(exchange.title):
                    if refused:
                        with self.assertRaises(MessageFault) as raised:
                            message_of(chunks)
                        self.assertEqual(raised.exception.refusal, reply.refusal)
                    else:
                        message_of(chunks)

    def test_streams_are_cut_and_faults_of_frames_are_seen_where_the_program_sees_them(self):
        for exchange in self.exchanges:
            if not (exchange.is_plain and exchange.serves):
                continue
            for piece in (1, 7, 65536):
                with self.subTest(exchange.title, piece=piece):
                    self.assertEqual(self.ending_of(exchange.sent, piece), (exchange.status, exchange.place))

    def ending_of(self, sent, piece):
        frames = Frames()
        try:
            for start in range(0, len(sent), piece):
                frames.feed(sent[start : start + piece])
            frames.finish()
        except FrameFault as fault:
            return (6 if fault.name == "Truncated" else 5), fault.at
        return 0, None

    def test_pieces_make_no_difference(self):
        for exchange in self.exchanges:
            stream = b"".join(message_bytes(chunks) for chunks in exchange.replies)
            frames = Frames(None)
            found = [message for byte in stream for message in frames.feed(bytes([byte]))]
            with self.subTest(exchange.title):
                self.assertEqual(found, exchange.replies)


if __name__ == "__main__":
    unittest.main()
