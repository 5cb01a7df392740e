import random
import unittest
from dataclasses import replace

from workbench.mistake import Mistake
from workbench.model import Book, Pool, Predicate, Question, Record
from workbench.tests.engine_samples import FROM_TEN_TO_TEN, L, NOTHING, S, TWO, TWO_WORDS
from workbench.unfolding import Line, kept_values, read_lines, tree, words_from_bytes, words_to_bytes


class KeptValues(unittest.TestCase):
    def test_as_in_the_readme(self):
        self.assertEqual(kept_values(L, TWO, FROM_TEN_TO_TEN), (0, 1, 2, 3, 10, 20))

    def test_spares_go_around_what_is_named(self):
        self.assertEqual(kept_values(S, Pool((Record(1, (3,)),)), Question(0, (0,))), (0, 1, 2, 3, 4))

    def test_constants_are_kept_used_or_not(self):
        book = replace(S, constants=(7, 2, 7, 0))
        self.assertEqual(kept_values(book, Pool((Record(1, (3,)),)), Question(0, (0,))), (0, 1, 2, 3, 4, 5, 7))

    def test_no_rule_no_spare(self):
        self.assertEqual(kept_values(Book((Predicate("p", 0),), ()), NOTHING, Question(0, ())), (0,))


class Words(unittest.TestCase):
    def test_bytes_and_back(self):
        self.assertEqual(words_to_bytes((1, 2**64 - 1)), b"\1" + 7 * b"\0" + 8 * b"\xff")
        self.assertEqual(words_from_bytes(words_to_bytes(TWO_WORDS), "file"), TWO_WORDS)

    def test_no_whole_words(self):
        with self.assertRaisesRegex(Mistake, "^file: no unfolding: its 7 bytes"):
            words_from_bytes(bytes(7), "file")


class Lines(unittest.TestCase):
    def test_as_in_the_readme(self):
        self.assertEqual(
            read_lines(TWO_WORDS, L, TWO, FROM_TEN_TO_TEN),
            [
                Line(1, 0, (10, 10), (), 0, (10, 10), (), ()),
                Line(2, 0, (20, 10), (20,), 1, (20, 10, 10), (20,), (1,)),
                Line(3, 0, (10, 10), (10, 20), 1, (10, 10, 20), (10,), (2,)),
            ],
        )

    def test_what_is_not_there(self):
        for place, bit, what in (
            (0, 44, "line 1 of the unfolding is for predicate 1,"),
            (0, 63, "line 1 of the unfolding is for predicate"),
            (0, 22, "line 1 of the unfolding has the value at position 68,"),
            (3, 2, "line 2 of the unfolding has record 3,"),
            (4, 7, "line 2 of the unfolding has the value at position 133,"),
            (5, 1, "line 2 of the unfolding is by rule 4,"),
            (5, 9, "line 2 of the unfolding calls line 3,"),
            (5, 8, "line 2 of the unfolding calls line 0,"),
        ):
            words = list(TWO_WORDS)
            words[place] ^= 1 << bit
            with self.subTest(place=place, bit=bit), self.assertRaisesRegex(Mistake, what):
                read_lines(words, L, TWO, FROM_TEN_TO_TEN)
        with self.assertRaisesRegex(Mistake, "^8 words are no whole number of lines"):
            read_lines(TWO_WORDS[:8], L, TWO, FROM_TEN_TO_TEN)

    def test_damage_of_every_kind_is_read_or_a_mistake(self):
        chance = random.Random(1)
        for _ in range(2000):
            words = list(TWO_WORDS)
            for _ in range(chance.randrange(1, 4)):
                words[chance.randrange(9)] ^= 1 << chance.randrange(64)
            try:
                self.assertTrue(list(tree(read_lines(words, L, TWO, FROM_TEN_TO_TEN))))
            except Mistake:
                pass


def line(number: int, *calls: int) -> Line:
    return Line(number, 0, (), (), 0, (), (), calls)


class Trees(unittest.TestCase):
    def shape(self, lines: list[Line], **most: int) -> list[tuple]:
        return [(node.line.number, node.depth, node.as_above) for node in tree(lines, **most)]

    def test_none(self):
        self.assertEqual(self.shape([]), [])

    def test_a_line_called_twice_is_shown_twice(self):
        lines = [line(1), line(2, 1), line(3, 2, 2)]
        self.assertEqual(self.shape(lines), [(3, 0, False), (2, 1, False), (1, 2, False), (2, 1, False), (1, 2, False)])

    def test_but_not_in_a_large_tree(self):
        lines = [line(1), line(2, 1), line(3, 2, 2)]
        self.assertEqual(self.shape(lines, most_nodes=4), [(3, 0, False), (2, 1, False), (1, 2, False), (2, 1, True)])
        self.assertEqual(len(self.shape(lines, most_nodes=5)), 5)

    def test_doubling(self):
        lines = [line(1)] + [line(number, number - 1, number - 1) for number in range(2, 1001)]
        self.assertEqual(len(self.shape(lines)), 1 + 2 * 999)

    def test_a_long_chain(self):
        lines = [line(1)] + [line(number, number - 1) for number in range(2, 65_536)]
        self.assertEqual(self.shape(lines)[-1], (1, 65_534, False))
