"""Theories as pages: well-formed, each link leads somewhere, the text is the theory's to the byte."""

from __future__ import annotations

import os
import random
import re
import subprocess
import sys
import tempfile
import unittest
from pathlib import Path
from unittest import mock

from pide.pictures import layout, sorting
from pide.pictures.checking import batches
from pide.pictures.commands import Command
from pide.pictures.escaping import attribute_html, text_html
from pide.pictures.facts import Fact, facts_of
from pide.pictures.facts_pages import facts_file
from pide.pictures.html import write_pages
from pide.pictures.imports import depths, imports_of, in_order
from pide.pictures.index_page import Index
from pide.pictures.names import page_files
from pide.pictures.sorting import SortedFacts
from pide.pictures.style import DARK, LIGHT
from pide.pictures.theory_page import Fault
from pide.reports import Report
from pide.theories import Theories, load, theory_of

from .pages import Page, faults_of, read_pages
from .program import PROGRAM, TOP, environment, needs_program

EXAMPLES = sorted((TOP / "examples").glob("*.thy"))
PIECES = [
    " ", "\n", "\r\n", "\r", "\t", "\n\n", "(* a *)", "(*\n<b>*)", "(*", '"', "h", "by h", "qed", "end\n", "λ",
    "\u202e", "\x00", "\x7f", "\\<open>A & B\\<close>", "</pre>", "<script>alert(1)</script>", "&amp;", "&#0;",
    "'", "a'.b", "𝔸",
    "]]>", "<!--", "\\<alpha>", 'axiom a: "P"\n', 'axiom it\'s: "P & \\"<"\n', "proof\n", "next\n", 'fix x\n',
    'lemma l: "P --> P" by (impI h h)\n', "qed\n",
    'lemma m: "P & Q --> Q"\nproof\n assume h: "P & Q"\n show "Q" by (conjE2 "P" h)\nqed\n',
    'assume h: "P"\n', 'show "P" by h\n', 'have k: "P --> P" by (impI x x)\n', 'load "b"\n', 'by (impI h h)\n',
    'lemma n: "P" by a\n', "claim c: \"P --> P\" by (impI h h)\n", "\u2028", "\x0c",
]


def random_theories(count: int, seed: int) -> Theories:
    """Theories of random pieces that import some of those before them; names differ by their case alone, too."""
    chance = random.Random(seed)
    theories = Theories()
    for number in range(count):
        name = chance.choice(["T", "t", "Con", "T'", "index"]) + str(number)
        others = chance.sample(sorted(theories.nodes), min(len(theories.nodes), chance.randrange(3)))
        imports = f" imports {' '.join(others)}" if others else ""
        keywords = chance.choice(["", "", ' keywords claim = "lemma"'])
        head = f"theory {name}{imports}{keywords} begin\n" if chance.random() < 0.9 else ""
        text = head + "".join(chance.choices(PIECES, k=chance.randrange(25)))
        theories.nodes[name] = theory_of(Path(f"{name}.thy"), text + chance.choice(["end\n", ""]))
    return theories


class Folder(unittest.TestCase):
    def setUp(self):
        made = tempfile.TemporaryDirectory()
        self.addCleanup(made.cleanup)
        self.folder = Path(made.name)

    def pages_of(self, theories):
        (self.folder / "theory").mkdir(exist_ok=True)
        self.index = write_pages(theories, self.folder, PROGRAM)
        pages = read_pages(self.folder)
        self.assertEqual(faults_of(self.folder, pages), [])
        return pages

    def assert_texts(self, theories, pages):
        for name, file in page_files(theories.nodes).items():
            with self.subTest(name):
                self.assertEqual(pages[f"theory/{file}"].text, theories.nodes[name].text)


@needs_program
class Pages(Folder):
    def test_of_the_examples(self):
        theories = load(EXAMPLES)
        pages = self.pages_of(theories)
        self.assert_texts(theories, pages)
        self.assertEqual((self.index.errors, len(self.index.wrong)), (16, 3))
        index = (self.folder / "index.html").read_text()
        self.assertIn("h proves another formula", index)
        self.assertIn("there is no file Other.thy", index)

    def test_of_200_random_texts(self):
        theories = random_theories(200, 76)
        self.assert_texts(theories, self.pages_of(theories))

    def test_of_no_text(self):
        theories = Theories({"A": theory_of(Path("A.thy"), "")})
        pages = self.pages_of(theories)
        self.assert_texts(theories, pages)
        self.assertIn("ending", pages["theory/A.html"].ids)

    def test_names_lead_to_their_definitions_across_theories(self):
        texts = {
            "A": 'theory A begin axiom a: "P" end',
            "B": 'theory B imports A begin lemma b: "P & P" by (conjI a A.a) lemma c: "Q --> Q" by (impI h h) end',
        }
        theories = Theories({name: theory_of(Path(f"{name}.thy"), text) for name, text in texts.items()})
        page = self.pages_of(theories)["theory/B.html"]
        self.assertEqual(page.links.count("A.html#fact-a"), 2)
        binder = texts["B"].index("impI h h") + 5
        self.assertIn(f"#at-{binder}", page.links)
        self.assertIn(f"at-{binder}", page.ids)

    def test_what_is_missing_at_the_end_is_an_error(self):
        text = 'theory A begin\nlemma l: "P --> P"\n'
        self.pages_of(Theories({"A": theory_of(Path("A.thy"), text)}))
        page = (self.folder / "theory" / "A.html").read_text()
        self.assertIn("the proof of l is missing", page)
        self.assertIn("✗ not proved", (self.folder / "facts.html").read_text())
        self.assertIn('<a href="theory/A.html#ending">A 2:19</a> the proof of l is missing',
                      (self.folder / "index.html").read_text())

    def test_facts_stand_on_several_pages(self):
        lines = "".join(f'axiom a{number}: "P"\n' for number in range(1_100)) + 'axiom b: "Q"\n'
        with mock.patch.object(sorting, "RUN", 100):
            pages = self.pages_of(Theories({"A": theory_of(Path("A.thy"), f"theory A begin\n{lines}end\n")}))
        self.assertEqual([name for name in pages if name.startswith("facts")],
                         ["facts-2.html", "facts-3.html", "facts.html"])
        self.assertIn("facts-3.html#letter-B", pages["facts.html"].links)

    def test_the_command(self):
        path = self.folder / "W<i>.thy"
        path.write_text('theory W begin\nlemma w: "P" by none\nend\n')
        ran = subprocess.run([sys.executable, "-m", "pide", "html", path, self.folder / "no<b>.thy", "-o",
                              self.folder / "out" / "deep"], env=environment(), capture_output=True, text=True)
        self.assertEqual(ran.returncode, 2)
        self.assertIn("No such file", ran.stderr)
        self.assertEqual(ran.stdout.strip(), str(self.folder / "out" / "deep" / "index.html"))
        pages = read_pages(self.folder / "out" / "deep")
        self.assertEqual(faults_of(self.folder / "out" / "deep", pages), [])
        self.assertNotIn("b", pages["index.html"].tags)

    def test_a_folder_that_cannot_be_made_is_told(self):
        (self.folder / "file").write_text("")
        ran = subprocess.run([sys.executable, "-m", "pide", "html", EXAMPLES[-1], "-o", self.folder / "file"],
                             env=environment(), capture_output=True, text=True)
        self.assertEqual((ran.returncode, ran.stdout), (2, ""))
        self.assertRegex(ran.stderr, r"\Apide: .*\n\Z")


class Names(unittest.TestCase):
    def test_files_are_safe_and_differ_where_case_does_not_count(self):
        files = page_files(["a", "A", "a'", "a-", "con", "x" * 64])
        self.assertEqual(len({file.lower() for file in files.values()}), 6)
        self.assertNotIn("con.html", files.values())
        for file in files.values():
            self.assertRegex(file, r"\A[A-Za-z0-9_-]+\.html\Z")

    def test_texts_are_escaped(self):
        for text in PIECES:
            page = Page(f'<p id="text">{text_html(text)}</p><i title="{attribute_html(text)}"></i>')
            self.assertEqual((page.text, page.faults), (text, []))


class Imports(unittest.TestCase):
    IMPORTS = {"D": ["B", "C"], "B": ["A"], "C": ["A"], "A": [], "X": ["Y"], "Y": ["X"]}

    def test_the_order_and_the_layers(self):
        order = in_order(self.IMPORTS)
        self.assertEqual(order[:4], ["A", "B", "C", "D"])
        self.assertEqual(sorted(order), sorted(self.IMPORTS))
        self.assertEqual([depths(self.IMPORTS)[name] for name in "ABCD"], [0, 1, 1, 2])

    def test_layouts_place_each_theory_below_its_imports(self):
        tree = {name: others for name, others in self.IMPORTS.items() if name in "ABCD"}
        with mock.patch.dict(os.environ, {"PATH": ""}):
            found = [layout.layout_of(tree)]
        self.assertFalse(found[0].by_graphviz)
        found += [layout.layout_of(tree)]
        for places in found:
            self.assertEqual(sorted(places.boxes), list("ABCD"))
            self.assertEqual(len(places.curves), 4)
            self.assertTrue(all(len(curve) % 3 == 1 for curve in places.curves))
            for name, others in tree.items():
                self.assertTrue(all(places.boxes[other][1] < places.boxes[name][1] for other in others))

    def test_a_long_chain_and_a_wide_layer(self):
        chain = {f"T{number}": [f"T{number - 1}"] if number else [] for number in range(3_000)}
        self.assertEqual(max(depths(chain).values()), 2_999)
        wide = layout.by_layers({f"T{number}": [] for number in range(500)})
        self.assertLess(wide.width, 1_600)
        self.assertEqual(len(set(wide.boxes.values())), 500)

    def test_imports_that_are_not_there_are_left_out(self):
        nodes = {"A": theory_of(Path("A.thy"), "theory A imports B A C B begin"), "B": theory_of(Path("B.thy"), "")}
        self.assertEqual(imports_of(nodes), {"A": ["B", "A"], "B": []})


class Facts(unittest.TestCase):
    def test_facts_are_sorted_in_runs(self):
        chance = random.Random(1)
        facts = [Fact(f"{chance.choice('aAbB')}{number % 50}", f"T{number}", number, "lemma", "P", True)
                 for number in range(1_000)]
        with mock.patch.object(sorting, "RUN", 7), mock.patch.object(sorting, "_MOST_OPEN", 5), SortedFacts() as kept:
            for fact in facts:
                kept.add(fact)
            self.assertEqual(kept.count, 1_000)
            self.assertEqual(list(kept), sorted(facts, key=lambda fact: (fact.name.lower(), fact)))
            self.assertEqual(sum(1 for _ in kept), 1_000)

    def test_a_lemma_is_proved_where_its_goal_is_closed_without_an_error(self):
        words = [("lemma", None), ("proof", None), ("qed", "subgoals remain"), ("show", None), ("by", None),
                 ("qed", None), ("lemma", None), ("by", "unknown name x"), ("axiom", "name taken a"), ("lemma", None)]
        commands = [Command(at * 10, at * 10 + 8, word, error=error) for at, (word, error) in enumerate(words)]
        reports = [Report(at * 10 + 6, at * 10 + 7, "def", (("theory", "A"), ("name", f"l{at}"))) for at in (0, 6, 9)]
        found = list(facts_of(reports, commands, {}))
        self.assertEqual([(fact.name, fact.is_right) for fact in found], [("l0", True), ("l6", False), ("l9", False)])

    def test_pages_of_facts(self):
        self.assertEqual([facts_file(1), facts_file(2)], ["facts.html", "facts-2.html"])


class Batches(unittest.TestCase):
    def test_some_theories_are_visible_at_a_time(self):
        lengths = {f"T{number}": 300_000 if number == 50 else 10 for number in range(100)}
        nodes = {name: theory_of(Path("T.thy"), "x" * length) for name, length in lengths.items()}
        found = list(batches(list(nodes), nodes))
        self.assertEqual([name for batch in found for name in batch], list(nodes))
        self.assertIn(["T50"], [batch[-1:] for batch in found])
        self.assertLessEqual(max(map(len, found)), 32)


class IndexOfErrors(unittest.TestCase):
    def test_it_lists_the_first_thousand(self):
        index = Index({"A": "A.html"}, {"A": []})

        class Theory:
            name, facts, faults = "A", (), [Fault("ending", 1, 1, "<wrong>")] * 1_500

        index.add(Theory())
        page = "".join(index.pieces())
        self.assertIn("500 more errors stand on the theories’ pages", page)
        self.assertEqual(page.count("&lt;wrong&gt;"), 1_000)


def luminance(colour: str) -> float:
    """The relative luminance of WCAG 2 of a colour `#rrggbb`."""
    parts = [int(colour[at : at + 2], 16) / 255 for at in (1, 3, 5)]
    linear = [part / 12.92 if part <= 0.04045 else ((part + 0.055) / 1.055) ** 2.4 for part in parts]
    return 0.2126 * linear[0] + 0.7152 * linear[1] + 0.0722 * linear[2]


class Colours(unittest.TestCase):
    GROUNDS = ("paper", "panel", "mark", "shade", "wrong-panel")
    NO_TEXT = ("rule", *GROUNDS)

    def test_all_texts_pass_wcag_aa_on_all_grounds(self):
        for theme in (LIGHT, DARK):
            colours = dict(re.findall(r"--([a-z-]+): (#[0-9a-f]{6})", theme))
            for ground in self.GROUNDS:
                for name, colour in colours.items():
                    if name not in self.NO_TEXT:
                        dark, light = sorted((luminance(colour), luminance(colours[ground])))
                        self.assertGreaterEqual((light + 0.05) / (dark + 0.05), 4.5, (name, ground, theme is DARK))


if __name__ == "__main__":
    unittest.main()
