"""Pictures against stored ones. Whoever changes how they look runs `python3 -m workbench.tests.test_draw --store` and looks at them."""

import random
import shutil
import subprocess
import sys
import unittest
from dataclasses import replace
from pathlib import Path
from unittest import mock

from workbench.asking import Answer, ask
from workbench.book_text import parse_book
from workbench.operands import read_asked
from workbench.draw import dot_text, format_of, picture
from workbench.library import ROOT
from workbench.mistake import Mistake
from workbench.model import Pool, Question, Record
from workbench.pool_text import parse_pool
from workbench.tests.engine_samples import H
from workbench.tests.test_render import asked

PICTURES = Path(__file__).parent / "pictures"
DRAWN = {
    "segment": ("segment.book", "segment.pool", "segment(10, nil)"),
    "circle": ("segment.book", "circle.pool", "segment(10, 10)"),
    "tree": ("tree.book", "tree.pool", "tree(10)"),
    "dll": ("dll.book", "dll.pool", "dll(0x100, nil, 0x130, nil)"),
    "dll-broken": ("dll.book", "dll-broken.pool", "dll(0x100, nil, 0x130, nil)"),
    "parents": ("parents.book", "parents.pool", "tree(10, nil)"),
    "rings": ("rings.book", "rings.pool", "rings(1)"),
    "queue": ("house.book", "queue.pool", "queue_and_free(0x10, 0x40)"),
    "ring": ("house.book", "ring.pool", "ring(0x10)"),
    "hung-twice": ("house.book", "hung-twice.pool", "queue_and_free(0x10, 0x40)"),
    "lost": ("house.book", "lost.pool", "queue_and_free(0x10, 0x40)"),
    "part": ("house.book", "foreign.pool", "segment(0x10, nil)"),
    "part-none": ("house.book", "lost.pool", "queue_and_free(0x10, 0x40)"),
    "types": ("plain/types.book", "types.pool", "desk(0x10)"),
}
OF_A_PART = ("part", "part-none")


def answered(name: str) -> Answer:
    book, pool, question = DRAWN[name]
    asked_of = read_asked(str(ROOT / "examples" / book), str(ROOT / "examples" / pool), question)
    return ask(replace(asked_of, some_part=name in OF_A_PART))


class Stored(unittest.TestCase):
    def test_as_stored(self):
        for name in DRAWN:
            with self.subTest(name=name):
                self.assertEqual(dot_text(answered(name)), (PICTURES / f"{name}.dot").read_text())

    def test_nothing_else_is_stored(self):
        self.assertEqual(sorted(path.stem for path in PICTURES.iterdir()), sorted(DRAWN))


class Said(unittest.TestCase):
    def test_whatever_a_colour_says_is_in_words_too(self):
        self.assertIn(">ring takes 1 record<", dot_text(answered("ring")))
        self.assertIn('<FONT POINT-SIZE="9">ring</FONT>', dot_text(answered("ring")))
        twice = dot_text(answered("hung-twice"))
        self.assertIn("held by 2 fields", twice)
        self.assertIn("held by none", twice)
        self.assertIn("no record", dot_text(answered("lost")))

    def test_left_out(self):
        """In words and by a dashed border: here no other box is white with one."""
        text = dot_text(answered("part"))
        self.assertEqual(text.count('<FONT POINT-SIZE="9">left out</FONT>'), 3)
        self.assertEqual(text.count('STYLE="dashed" COLOR='), 3)
        self.assertIn("</B>: a part fits<", text)
        self.assertIn(">3 records left out<", text)

    def test_the_empty_part_and_none(self):
        text = dot_text(ask(asked(H, Pool((Record(1, (0,)),)), Question(0, (1, 1)), some_part=True)))
        self.assertIn("</B>: the empty part fits<", text)
        self.assertIn(">1 record left out<", text)
        self.assertNotIn("the pool has no record", text)
        self.assertIn("the pool has no record", dot_text(ask(asked(H, Pool(()), Question(0, (5, 5)), some_part=True))))
        # Records to which nothing leads are no reason here.
        self.assertIn("</B>: no part fits, not even the empty one<", dot_text(answered("part-none")))
        self.assertNotIn("not reached", dot_text(answered("part-none")))

    def test_numbers_of_the_book(self):
        """They stand in their fields and beside the question's arguments, and no arrow leads from there, unless a record is there."""
        text = dot_text(answered("types"))
        self.assertIn('<TD PORT="f1" BGCOLOR="white">0x51</TD>', text)
        self.assertNotIn("loose", text)
        self.assertNotIn("f1:", text)
        book = parse_book("p { a -> 7, 8, 0, 20 => p(a, b) }", "book")
        text = dot_text(ask(asked(book, parse_pool("10: 7, 9, nil, 20\n20: 8, 7", "pool"), Question(0, (10, 8)))))
        self.assertEqual([value for value in (7, 8, 9, 20) if f"loose{value} [" in text], [9])
        self.assertIn("q8 [label=<<I>b = 8</I>>]", text)
        self.assertNotIn("q8 ->", text)
        self.assertEqual([port for port in range(1, 5) if f"r10:f{port}:" in text], [2, 3, 4])
        self.assertNotIn("r20:f", text)

    def test_a_number_of_the_book_that_the_question_names(self):
        """As in fields; where it is a record's address, the question's arrow leads there."""
        book = parse_book("p { a -> 7, 8 => p(a, b) }", "book")
        text = dot_text(ask(asked(book, parse_pool("10: 7, 7", "pool"), Question(0, (10, 8)))))
        self.assertNotIn("loose", text)
        self.assertIn(">no hints<", text)
        text = dot_text(ask(asked(book, parse_pool("10: 7, nil\n8: 7, nil", "pool"), Question(0, (10, 8)))))
        self.assertIn("q8 -> r8:head", text)

    def test_no_record_and_no_hints(self):
        self.assertIn("the pool has no record", dot_text(ask(asked(H, Pool(()), Question(0, (5, 5))))))
        self.assertIn("no hints", dot_text(ask(asked(H, Pool((Record(1, (0,)),)), Question(0, (1, 1))))))

    def test_a_record_that_holds_itself(self):
        """The arrow leaves and comes in on one side of the box, and does not go through it."""
        for fields, due in (
            ((1,), ["r1:f1:s -> r1:head:s"]),
            ((1, 1, 0), ["r1:f1:n -> r1:head:n", "r1:f2:e -> r1:head:s"]),
            ((1, 2, 3, 1), ["r1:f1:w -> r1:head:w", "r1:f4:e -> r1:head:e"]),
        ):
            with self.subTest(fields=fields):
                text = dot_text(ask(asked(H, Pool((Record(1, fields), Record(2, ()), Record(3, ()))), Question(1, (1,)))))
                for arrow in due:
                    self.assertIn(f"  {arrow}", text)

    def test_trees_grow_downward_and_lists_to_the_right(self):
        for name, direction in (("tree", "TB"), ("parents", "TB"), ("dll", "LR"), ("dll-broken", "LR"), ("ring", "LR")):
            with self.subTest(name=name):
                self.assertIn(f"rankdir={direction}", dot_text(answered(name)))

    def test_formats(self):
        self.assertEqual([format_of(name) for name in ("a.svg", "b/c.PNG", "d.e.dot")], ["svg", "png", "dot"])
        for name in ("a", "a.jpg", ".svg", ""):
            self.assertRaises(Mistake, format_of, name)

    def test_without_graphviz(self):
        with mock.patch.dict("os.environ", {"PATH": ""}):
            self.assertEqual(picture("digraph { }", "dot"), b"digraph { }")
            with self.assertRaisesRegex(Mistake, "apt-get install graphviz"):
                picture("digraph { }", "svg")


@unittest.skipUnless(shutil.which("dot"), "Graphviz is not installed")
class Laid(unittest.TestCase):
    def laid_out_without_a_word(self, text: str) -> None:
        done = subprocess.run(["dot", "-Tsvg"], input=text.encode(), capture_output=True, check=False)
        self.assertEqual((done.returncode, done.stderr), (0, b""))
        self.assertIn(b"</svg>", done.stdout)

    def test_each_stored_picture(self):
        for name in DRAWN:
            with self.subTest(name=name):
                self.laid_out_without_a_word((PICTURES / f"{name}.dot").read_text())

    def test_png(self):
        self.assertTrue(picture(dot_text(answered("ring")), "png").startswith(b"\x89PNG"))

    def test_very_long_names_and_numbers(self):
        name = "p" * 30_000
        book = parse_book(f"{name} {{ a -> b => {name}(a) }}", "long")
        pool = parse_pool(f"0x{'0' * 30_000}1: 2", "long")
        self.laid_out_without_a_word(dot_text(ask(asked(book, pool, Question(0, (1,))))))

    def test_no_dot(self):
        with self.assertRaisesRegex(Mistake, "could not lay out"):
            picture("digraph {", "svg")

    def test_pools_of_every_kind(self):
        chance = random.Random(3)
        for i in range(60):
            addresses = sorted(chance.sample(range(1, 25), chance.randrange(17)))
            values = [0, 30, 40, *addresses]
            records = [Record(address, tuple(chance.choices(values, k=chance.randrange(5)))) for address in addresses]
            question = Question(chance.choice((0, 2)), tuple(chance.choices(values, k=2)))
            with self.subTest(pool=i):
                self.laid_out_without_a_word(dot_text(ask(asked(H, Pool(tuple(records)), question, some_part=i % 3 == 0))))


if __name__ == "__main__" and "--store" in sys.argv:
    for each in DRAWN:
        (PICTURES / f"{each}.dot").write_text(dot_text(answered(each)))
