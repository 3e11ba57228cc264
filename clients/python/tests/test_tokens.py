"""Tokens and spans, as docs/FORMATS.md has them."""

import random
import unittest

from pide import Close, Session, opened
from pide.tokens import Aliases, Span, TokenKind, aliases_of, content_of, spans_of, string_content, tokens_of

from .program import PROGRAM, needs_program

PIECES = [" ", "\n", "(*", "*)", '"', "\\", "\\<open>", "\\<close>", "\\<a>", "<", ">", "h", "by", "x."]
PIECES += ["lemma", "claim", "theory", "begin", ".", "=", "λ", "\U0001d54f", "'", "5", "end"]
HEADER = 'theory A keywords claim = "lemma" begin '


def kinds(text, aliases=Aliases({}, 0)):
    """The proper tokens and comments, each as its kind's name and its text."""
    found = (token for token in tokens_of(text, aliases=aliases) if token.kind is not TokenKind.SPACE)
    return [(token.kind.name, token.text) for token in found]


class Tokens(unittest.TestCase):
    def test_each_kind(self):
        text = 'lemma imports a\' x.y.z "a\\"\\\\" \\<open>a\\<open>\\<close>\\<close> \\<^b> (* (* *) *) + λ'
        self.assertEqual(kinds(text), [
            ("COMMAND", "lemma"), ("KEYWORD", "imports"), ("IDENT", "a'"), ("LONG_IDENT", "x.y.z"),
            ("STRING", '"a\\"\\\\"'), ("CARTOUCHE", "\\<open>a\\<open>\\<close>\\<close>"), ("SYMBOL", "\\<^b>"),
            ("COMMENT", "(* (* *) *)"), ("SYM", "+"), ("SYM", "λ"),
        ])

    def test_what_does_not_end_is_an_error_to_the_end(self):
        for text in ("(*)", "(*(*)*)", '"a\\"', '"a\\', "\\<open>\\<open>\\<close> by", '" (* \\<open>'):
            self.assertEqual(kinds(f"by {text}"), [("COMMAND", "by"), ("ERROR", text)])

    def test_the_examples_of_formats(self):
        self.assertEqual(kinds("a.b."), [("LONG_IDENT", "a.b"), ("SYM", ".")])
        self.assertEqual(kinds("\\<alpha"), [("SYM", "\\"), ("SYM", "<"), ("IDENT", "alpha")])

    def test_strings_and_cartouches_have_contents(self):
        self.assertEqual(string_content('"a\\"\\\\\\065\\128\\n"'), 'a"\\A\\128\\n')
        token = next(tokens_of("\\<open>a\\<close>"))
        self.assertEqual(content_of(token), "a")

    def test_the_tokens_joined_are_the_text_and_lexing_may_begin_at_each(self):
        chance = random.Random(1)
        for _ in range(500):
            text = "".join(chance.choices(PIECES, k=chance.randrange(30)))
            aliases = aliases_of(text)
            tokens = list(tokens_of(text, aliases=aliases))
            self.assertEqual("".join(token.text for token in tokens), text)
            if tokens:
                number = chance.randrange(len(tokens))
                self.assertEqual(list(tokens_of(text, tokens[number].start, aliases=aliases)), tokens[number:])


class Headers(unittest.TestCase):
    def test_aliases_are_commands_behind_the_header(self):
        text = '(* *) theory A imports B C keywords claim = "lemma" \' begin'
        self.assertEqual(aliases_of(text), Aliases({}, 0))
        text = '(* *) theory A imports B C keywords claim = "lemma" so="by" begin claim'
        self.assertEqual(aliases_of(text), Aliases({"claim": "lemma", "so": "by"}, len(text) - len(" claim")))
        commands = [word for kind, word in kinds(text, aliases_of(text)) if kind == "COMMAND"]
        self.assertEqual(commands, ["theory", "claim"])

    def test_texts_without_a_header_have_none(self):
        for text in ("", "theory", "theory A", "theory A imports begin", "x theory A begin", "theory A keywords begin"):
            self.assertEqual(aliases_of(text), Aliases({}, 0))


class Spans(unittest.TestCase):
    def test_spans_leave_out_what_stands_between_them(self):
        self.assertEqual(list(spans_of("x theory A begin (* *) end")),
                         [Span(0, 1, ""), Span(2, 16, "theory"), Span(23, 26, "end")])
        self.assertEqual(list(spans_of("by (* a *) b  (* c *)")), [Span(0, 12, "by")])

    def test_a_long_text_takes_no_recursion(self):
        text = "(*" * 5000 + "*)" * 5000 + '"' + "\\\\" * 50000 + '"' + "a." * 50000 + " lemma"
        self.assertEqual(len(list(spans_of(text))), 2)

    @needs_program
    def test_the_program_cuts_texts_so_too(self):
        chance = random.Random(2)
        texts = [HEADER * chance.randrange(2) + "".join(chance.choices(PIECES, k=chance.randrange(30)))
                 for _ in range(200)]
        with Session(PROGRAM) as session:
            for text in texts:
                assigned = session.update({"A": opened(text)})
                session.settle()
                rows = dict(assigned.nodes).get("A", ())
                self.assertEqual(len(rows), len(list(spans_of(text, aliases=aliases_of(text)))), text)
                commands = session.snapshot("A").of_kind("command")
                words = [(report.start, dict(report.properties)["name"]) for report in commands]
                spans = [(span.start, span.word) for span in spans_of(text, aliases=aliases_of(text)) if span.word]
                self.assertEqual(words, spans, text)
                session.remove_versions([session.version - 1] if session.version > 1 else [])
                session.update({"A": Close()})
                session.remove_versions([session.version - 1])


if __name__ == "__main__":
    unittest.main()
