"""Parts of the language server by themselves: what is kept up to date is compared with what is made anew."""

import random
import unittest

from pide.lsp.cut import Cut
from pide.lsp.documents import Document, hull_of
from pide.lsp.positions import Encoding, LineIndex, chosen_encoding
from pide.lsp.proof_terms import RULES, read_term
from pide.lsp.rows import Row, Rows, rows_of
from pide.lsp.rpc import MessageReader, RpcError, message_bytes
from pide.replies import Assigned
from pide.rows import ASSIGNMENT
from pide.tokens import tokens_of
from pide.unread import Unread
from pide.yxml import yxml_text

PIECES = ["\r", "\n", "\r\n", "a", "λ", "\U0001d54f", " ", "lemma ", "claim ", "by", "(*", "*)", '"']
PIECES += ["\\<", "theory>", "."]
HEADER = 'theory A keywords claim = "lemma" begin '


def random_text(chance, most=40):
    return "".join(chance.choices(PIECES, k=chance.randrange(most)))


def random_change(chance, text):
    start, stop = sorted(chance.choices(range(len(text) + 1), k=2))
    return start, min(stop, start + chance.randrange(9)), random_text(chance, 4)


class Lines(unittest.TestCase):
    def test_an_index_that_is_edited_is_that_of_the_edited_text(self):
        chance = random.Random(1)
        for _ in range(1000):
            index = LineIndex(random_text(chance))
            start, stop, text = random_change(chance, index.text)
            edited = index.edited(start, stop, text)
            self.assertEqual(edited.text, index.text[:start] + text + index.text[stop:])
            self.assertEqual(edited.starts, LineIndex(edited.text).starts, (index.text, start, stop, text))

    def test_places_are_found_again_from_their_positions(self):
        chance = random.Random(2)
        for _ in range(500):
            index = LineIndex(random_text(chance))
            for encoding in Encoding:
                for place in range(len(index.text) + 1):
                    found = index.offset(index.position(place, encoding), encoding)
                    first, last = index.line_bounds(index.line_of(place))
                    self.assertEqual(found, min(place, last), (index.text, place))

    def test_positions_within_a_character_and_behind_a_line(self):
        index = LineIndex("\U0001d54fb\nc")
        places = [(0, 1), (0, 2), (0, 9), (1, 0), (7, 0)]
        found = [index.offset({"line": line, "character": unit}, Encoding.UTF16) for line, unit in places]
        self.assertEqual(found, [0, 1, 2, 3, 4])
        self.assertRaises(ValueError, index.offset, {"line": -1, "character": 0}, Encoding.UTF8)

    def test_the_first_encoding_that_is_known_is_taken(self):
        self.assertIs(chosen_encoding(["ebcdic", "utf-32", "utf-8"]), Encoding.UTF32)
        for offered in (None, [], ["x"], "utf-8", [1]):
            self.assertIs(chosen_encoding(offered), Encoding.UTF16)

    def test_ranges_are_cut_at_line_ends(self):
        self.assertEqual(LineIndex("ab\r\n\ncd").pieces(1, 7), [(1, 2), (5, 7)])


class Cuts(unittest.TestCase):
    def test_a_cut_that_is_edited_is_that_of_the_edited_text(self):
        chance = random.Random(3)
        for number in range(1500):
            inherited = {"x": "by"} if number % 3 == 0 else {}
            text = HEADER * chance.randrange(2) + random_text(chance)
            cut = Cut(text, inherited)
            for _ in range(3):
                start, stop, inserted = random_change(chance, text)
                edited = text[:start] + inserted + text[stop:]
                cut.edit(edited, start, stop, start + len(inserted))
                fresh = Cut(edited, inherited)
                shown = [(each.starts, each.lengths, each.words, each.aliases.targets) for each in (cut, fresh)]
                self.assertEqual(*shown, (text, start, stop, inserted))
                text = edited

    def test_aliases_that_imports_hand_on_cut_a_text_anew(self):
        cut = Cut("theory A begin so h", {})
        cut.inherit("theory A begin so h", {"so": "by"})
        self.assertEqual((cut.words, cut.meaning(1)), (["theory", "so"], "by"))
        self.assertEqual(cut.words_for("by"), {"by", "so"})


class Changes(unittest.TestCase):
    def test_the_hull_of_changes_is_where_texts_differ(self):
        chance = random.Random(4)
        for _ in range(1000):
            document = Document("file:///A.thy", 1, random_text(chance))
            before = document.text
            for _ in range(chance.randrange(1, 5)):
                start, stop, text = random_change(chance, document.text)
                lines = document.lines
                change = {"range": lines.range(start, stop, Encoding.UTF32), "text": text}
                document.change(2, [change], Encoding.UTF32)
            hull = hull_of(document.unsent)
            after = document.text[hull.start : hull.start + len(hull.text)]
            self.assertEqual(before[: hull.start] + after + before[hull.stop :], document.text)

    def test_a_mark_moves_with_its_text(self):
        document = Document("file:///A.thy", 1, "abcdef")
        mark = document.mark(4)
        document.change(2, [{"range": document.lines.range(0, 1, Encoding.UTF8), "text": "xyz"}], Encoding.UTF8)
        self.assertEqual(mark.place, 6)
        document.change(3, [{"range": document.lines.range(5, 7, Encoding.UTF8), "text": ""}], Encoding.UTF8)
        self.assertEqual(mark.place, 5)


class Assignments(unittest.TestCase):
    def test_rows_follow_the_assignments(self):
        chance = random.Random(5)
        known = {name: Rows() for name in "AB"}
        rows = {name: [] for name in "AB"}
        for _ in range(500):
            for name in rows:
                start, stop = sorted(chance.choices(range(len(rows[name]) + 1), k=2))
                rows[name][start:stop] = [self.row(chance) for _ in range(chance.randrange(4))]
            value = tuple((name, tuple(rows[name])) for name in rows)
            text = yxml_text(ASSIGNMENT.put(value))
            for name, spelled in rows_of(Assigned(1, Unread(text, tuple))):
                before = list(known[name].rows)
                splice = known[name].take(spelled)
                before[splice.first : splice.first + len(splice.removed)] = splice.added
                wanted = [Row(command, *(executions + (0, 0))[:2]) for command, executions in rows[name]]
                self.assertEqual(known[name].rows, wanted)
                self.assertEqual(before, wanted)
                self.assertEqual(known[name].commands, [command for command, _ in rows[name]])

    @staticmethod
    def row(chance):
        executions = tuple(chance.randrange(1, 2000) for _ in range(chance.randrange(3)))
        return chance.randrange(1, 2000), executions


class Terms(unittest.TestCase):
    def test_binders_and_where_they_are_bound(self):
        text = '(disjE "A" "B" a x (disjI2 x) y (exE "EX x. P" z h t (impI h h)))'
        term = read_term(tokens_of(text))
        self.assertEqual([rule.text for rule in term.rules], ["disjE", "disjI2", "exE", "impI"])
        bound = [(binder.token.text, text[binder.start : binder.stop], binder.is_variable) for binder in term.binders]
        self.assertEqual(bound, [("x", "(disjI2 x)", False), ("y", text[32:-1], False), ("z", "(impI h h)", True),
                                 ("h", "(impI h h)", False), ("h", "h", False)])
        self.assertEqual([name.text for name in term.names], ["a", "x", "t", "h"])
        self.assertEqual(term.binder_of("h", term.names[-1].start).rule, "impI")
        self.assertIsNone(term.binder_of("z", term.names[-1].start))

    def test_what_is_malformed_is_read_as_far_as_it_goes(self):
        for text in ("", "(", ")", "((a", "(impI x", "(impI x (impI", "a b ) c", "(nothing a b)", '"P" ('):
            read_term(tokens_of(text))
        read_term(tokens_of("(impI x " * 20000))
        self.assertEqual([name.text for name in read_term(tokens_of("(impI x (conjI x")).names], ["x"])

    def test_each_rule_has_a_scope_for_each_binder(self):
        for name, rule in RULES.items():
            binders = {number for number, kind in enumerate(rule.arguments) if kind in "hv"}
            self.assertEqual(binders, set(rule.scopes), name)


class Messages(unittest.TestCase):
    def test_messages_may_come_in_any_pieces(self):
        sent = [{"id": number, "text": "λ\U0001d54f" * number} for number in range(20)]
        stream = b"".join(map(message_bytes, sent))
        chance = random.Random(6)
        reader, read, place = MessageReader(), [], 0
        while place < len(stream):
            size = chance.randrange(1, 30)
            read += reader.feed(stream[place : place + size])
            place += size
        self.assertEqual(read, sent)

    def test_a_header_without_an_end_is_told_and_takes_no_memory(self):
        reader = MessageReader()
        found = [message for _ in range(40) for message in reader.feed(b"x" * 1000)]
        self.assertTrue(found and all(isinstance(message, RpcError) for message in found))

    def test_deep_json_is_no_message(self):
        body = b"[" * 100000
        found, = MessageReader().feed(b"Content-Length: %d\r\n\r\n%b" % (len(body), body))
        self.assertIsInstance(found, RpcError)


if __name__ == "__main__":
    unittest.main()
