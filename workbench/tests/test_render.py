import unittest
from dataclasses import replace
from unittest import mock

from workbench import library
from workbench.asking import DOES_NOT_FIT, FITS, REFUSED, Answer, Asked, ask, ask_next
from workbench.book_bytes import encode_book
from workbench.book_text import parse_book
from workbench.library import Reply
from workbench.model import Book, Call, Condition, Pool, Predicate, Question, Record, Rule, UNEQUAL
from workbench.pool_bytes import encode_pool
from workbench.pool_text import parse_pool
from workbench.question_bytes import encode_question
from workbench.render import aligned, answer_text, next_text, short_text, sum_text
from workbench.report_json import result
from workbench.tests.engine_samples import FROM_TEN_TO_TEN, FROM_TEN_TO_TWENTY, H, L, NOTHING, S, TWO
from workbench.unfolding import Line


def asked(book: Book, pool: Pool, question: Question, some_part: bool = False) -> Asked:
    return Asked(encode_book(book), encode_pool(pool), encode_question(question), book, pool, question, some_part)


def text(book: Book, pool: Pool, question: Question) -> str:
    return answer_text(ask(asked(book, pool, question)))


class Fits(unittest.TestCase):
    def test_tree(self):
        self.assertEqual(
            text(L, TWO, FROM_TEN_TO_TEN),
            "fits\n"
            "segment(10, 10)       rule 2 (line 4)   takes 10        c = 20\n"
            "  segment(20, 10)     rule 2 (line 4)   takes 20        c = 10\n"
            "    segment(10, 10)   rule 1 (line 3)   takes nothing\n",
        )

    def test_spare_and_no_line_in_the_book(self):
        self.assertEqual(
            text(S, NOTHING, Question(0, (0,))),
            "fits\nP(nil)        rule 1   takes nothing   b = 1 (spare)\n  Q(nil, 1)   rule 2   takes nothing\n",
        )

    def test_as_the_user_spelled(self):
        pool = replace(TWO, spellings=((10, "0x0A"),))
        question = replace(FROM_TEN_TO_TEN, spellings=((10, "0xa"),))
        self.assertIn("takes 0x0A ", text(L, pool, FROM_TEN_TO_TEN))
        self.assertIn("segment(0xa, 0xa)", text(L, TWO, question))

    def test_numbers_of_the_book(self):
        """None is a spare. The book's way of writing one counts only where the pool and the question do not have it."""
        book = parse_book("p { q(a, 0x07) * q(a, 0x14) * c != 0x09 => p(a) } ; q { emp => q(a, b) }", "book")
        self.assertEqual(
            text(book, NOTHING, Question(0, (20,))),
            "fits\n"
            "p(20)           rule 1 (line 1)   takes nothing   c = nil\n"
            "  q(20, 0x07)   rule 2 (line 1)   takes nothing\n"
            "  q(20, 20)     rule 2 (line 1)   takes nothing\n",
        )
        said = text(replace(S, constants=(1, 2)), NOTHING, Question(0, (0,)))
        self.assertEqual(said, "fits\nP(nil)        rule 1   takes nothing   b = 1\n  Q(nil, 1)   rule 2   takes nothing\n")

    def test_no_arguments(self):
        book = Book((Predicate("p", 0),), (Rule(0, ()),))
        self.assertEqual(text(book, NOTHING, Question(0, ())), "fits\np()   rule 1   takes nothing\n")

    def answered(self, *lines: Line) -> str:
        whole = asked(L, TWO, FROM_TEN_TO_TEN)
        return answer_text(Answer(whole, Reply(0, 1, lines=len(lines)), lines))

    def test_a_subtree_that_comes_again_and_again(self):
        lines = [Line(1, 0, (10, 10), (), 0, (10, 10), (), ())]
        for number in range(2, 21):
            lines.append(Line(number, 0, (number, 10), (), 1, (number, 10, 20), (), (number - 1, number - 1)))
        rows = self.answered(*lines).splitlines()
        self.assertEqual(len(rows), 1 + 1 + 2 * 19)
        self.assertEqual(rows[2].split("rule")[0], rows[-1].split("rule")[0])
        self.assertTrue(rows[-1].startswith("  segment(19, 10)") and rows[-1].endswith("rule 2 (line 4)   as above"))

    def test_depth_in_front_where_it_is_large(self):
        lines = [Line(1, 0, (10, 10), (), 0, (10, 10), (), ())]
        lines += [Line(number, 0, (10, 10), (), 1, (10, 10, 20), (), (number - 1,)) for number in range(2, 101)]
        self.assertIn("\n" + 30 * "  " + "(99) segment(10, 10)", self.answered(*lines))


class DoesNotFit(unittest.TestCase):
    def test_hints(self):
        pool = Pool((Record(10, (30,)), Record(20, (30,)), Record(30, (7,)), Record(40, (50,)), Record(50, (40, 8)), Record(60, (0,))))
        self.assertEqual(
            text(H, pool, Question(2, (10, 8))),
            "does not fit\n"
            "Hints on where to look. They come from the pool and the question's values alone; the verdict is the engine's.\n"
            "  30 is held by 2 fields: field 1 of 10, field 1 of 20\n"
            "  20 is held by no other record, and the question does not name it\n"
            "  40 cannot be reached from the question's values; held by 50\n"
            "  50 cannot be reached from the question's values; held by 40\n"
            "  60 is held by no other record, and the question does not name it\n"
            "  field 1 of 30 holds 7, which is not nil and names no record\n"
            "  field 2 of 50 holds 8, which names no record (the question names it too)\n"
            "  the question's second value 8 is not nil and names no record\n",
        )

    def test_no_hints(self):
        answer = text(H, TWO, Question(2, (10, 0)))
        self.assertTrue(answer.startswith("does not fit\nNo hints: "))
        self.assertEqual(len(answer.splitlines()), 3)

    def test_numbers_of_the_book(self):
        book = parse_book("p { a -> 7, 8 => p(a) }", "book")
        passed = "Numbers that stand in the book, such as type codes, are passed over where they name no record.\n"
        codes = "No hint compares type codes: see whether each record has the code that its place asks for.\n"
        for some_part, verdict in ((False, "does not fit"), (True, "no part fits, not even the empty one")):
            said = answer_text(ask(asked(book, Pool((Record(10, (7, 7)),)), Question(0, (10,)), some_part)))
            self.assertRegex(said, f"^{verdict}\nNo hints: .*\n.*\n{passed}{codes}$")
        said = text(book, Pool((Record(10, (7, 9)),)), Question(0, (10,)))
        self.assertRegex(said, f"^does not fit\nHints .*\n{passed}  field 2 of 10 holds 9, which is not nil and names no record\n$")

    def test_an_address_that_is_a_number_of_the_book(self):
        """As the pool writes it, and not the book."""
        book = parse_book("p { a -> 0x14, b * c != 30 => p(a, b) }", "book")
        pool = parse_pool("10: 0X14, 0X14\n0X14: 30, 30, 40\n30: nil\n40: 40", "pool")
        self.assertIn(
            "\n  0X14 is held by 2 fields: field 1 of 10, field 2 of 10"
            " (0X14 is also a number of the book: some of these fields may be codes)\n"
            "  30 is held by 2 fields: field 1 of 0X14, field 2 of 0X14"
            " (30 is also a number of the book: some of these fields may be codes)\n"
            "  40 is held by 2 fields: field 3 of 0X14, field 1 of 40\n",
            text(book, pool, Question(0, (10, 0))),
        )

    def test_no_hints_about_a_doubly_linked_list(self):
        """Its middle is held twice, which is no hint, and not to be denied either."""
        pool = Pool((Record(10, (20, 0)), Record(20, (30, 10)), Record(30, (0, 20))))
        for some_part in (False, True):
            answer = answer_text(ask(asked(L, pool, FROM_TEN_TO_TWENTY, some_part)))
            self.assertRegex(answer, r"\nNo hints: .*\n.* in two places, apart from records that point to one another\.\n$")


class OfAPart(unittest.TestCase):
    def text(self, book: Book, pool: Pool, question: Question) -> str:
        return answer_text(ask(asked(book, pool, question, some_part=True)))

    def test_fits(self):
        pool = replace(TWO, spellings=((20, "0x14"),))
        self.assertEqual(
            self.text(L, pool, FROM_TEN_TO_TWENTY),
            "a part fits\n"
            "  in it      10\n"
            "  left out   0x14\n"
            "segment(10, 0x14)       rule 2 (line 4)   takes 10        c = 0x14\n"
            "  segment(0x14, 0x14)   rule 1 (line 3)   takes nothing\n",
        )

    def test_the_whole_pool(self):
        rows = self.text(H, TWO, Question(1, (10,))).splitlines()
        self.assertEqual(rows[:3], ["a part fits", "  in it      10, 20", "  left out   nothing"])
        self.assertTrue(rows[3].startswith("ring(10) "))

    def test_the_empty_part_is_no_find(self):
        self.assertEqual(
            self.text(L, TWO, Question(0, (5, 5))),
            "the empty part fits\n"
            "  in it      nothing\n"
            "  left out   10, 20\n"
            "  the question holds without any record, which says nothing about the pool; a shape that needs a record tells more\n"
            "  larger parts may fit as well; whether all records do is asked without --part\n"
            "segment(5, 5)   rule 1 (line 3)   takes nothing\n",
        )

    def test_the_empty_part_of_no_record(self):
        self.assertEqual(
            self.text(L, NOTHING, Question(0, (5, 5))),
            "the empty part fits\n  in it      nothing\n  left out   nothing\nsegment(5, 5)   rule 1 (line 3)   takes nothing\n",
        )

    def test_no_part_with_hints(self):
        pool = Pool((Record(10, (30,)), Record(20, (30,)), Record(30, (7,)), Record(60, (30, 8))))
        self.assertEqual(
            self.text(H, pool, Question(2, (10, 20))),
            "no part fits, not even the empty one\n"
            "Hints on where to look. They come from the question's values and the records to which these lead; the verdict is the engine's.\n"
            "  30 is held by 2 fields: field 1 of 10, field 1 of 20\n"
            "  field 1 of 30 holds 7, which is not nil and names no record\n",
        )

    def test_no_part_without_hints(self):
        pool = Pool((*TWO.records, Record(30, (10, 8))))
        answer = self.text(H, pool, Question(2, (10, 0)))
        self.assertTrue(answer.startswith("no part fits, not even the empty one\nNo hints: every value of the question and every field of "))
        self.assertEqual(len(answer.splitlines()), 3)

    def test_no_hints_and_a_record_held_from_outside_too(self):
        """Of the fields to which the question does not lead, nothing is said."""
        answer = self.text(H, Pool((Record(10, (20,)), Record(20, (0,)), Record(30, (20,)))), Question(1, (10,)))
        self.assertIn(" and these\nfields hold no record in two places, ", answer)


class Next(unittest.TestCase):
    """What is said of a part under a pool that does not fit."""

    def said(self, book: Book, pool: Pool, question: Question) -> str:
        answer = ask(asked(book, pool, question))
        self.assertEqual(answer.kind, DOES_NOT_FIT)
        found = ask_next(answer)
        assert found
        return next_text(found, "COMMAND")

    def test_a_part(self):
        self.assertEqual(
            self.said(L, TWO, FROM_TEN_TO_TWENTY),
            "A part of it fits, as the engine finds:\n"
            "  in it           10\n"
            "  left out        20\n"
            "  its unfolding   COMMAND\n",
        )

    def test_the_empty_part_is_no_find(self):
        self.assertEqual(
            self.said(L, TWO, Question(0, (5, 5))),
            "The empty part fits: the question holds without any record, which says nothing about the pool; "
            "a shape that needs a record tells more.\n",
        )

    def test_none(self):
        self.assertEqual(self.said(L, TWO, Question(0, (10, 5))), "No part of it fits either, not even the empty one.\n")

    def test_nothing_where_it_fits_or_is_refused_or_is_about_a_part(self):
        self.assertIsNone(ask_next(ask(asked(L, TWO, FROM_TEN_TO_TEN))))
        self.assertIsNone(ask_next(ask(asked(L, TWO, Question(0, (10, 5)), some_part=True))))
        self.assertIsNone(ask_next(Answer(asked(L, TWO, FROM_TEN_TO_TEN), Reply(11))))

    def test_a_refusal_is_passed_over(self):
        answer = ask(asked(L, TWO, FROM_TEN_TO_TWENTY))
        with mock.patch.object(library, "decide", return_value=Reply(11)):
            self.assertIsNone(ask_next(answer))


class Refused(unittest.TestCase):
    def test_with_the_byte_at_fault(self):
        whole = replace(asked(L, TWO, FROM_TEN_TO_TEN), book_bytes=encode_book(L)[:-1], book=None)
        first, second = answer_text(ask(whole)).splitlines()
        self.assertRegex(first, "^refusal 1: the book ends too early: ")
        self.assertRegex(second, "^  byte 22 of the book: ")

    def test_too_many_facts(self):
        # Four free arguments over some ninety kept values are far more than 65,535 facts.
        book = Book((Predicate("p", 4),), (Rule(0, ("a", "b", "c", "d")),))
        pool = Pool(tuple(Record(100 * i, (1000 * i, 2000 * i)) for i in range(1, 17)))
        for some_part, end in ((False, r"ask with --walk, which needs no table and answers if the book is plain\n$"), (True, r"takes every kept value\n$")):
            answer = ask(asked(book, pool, Question(0, (1, 2, 3, 4)), some_part))
            for said in (answer_text(answer), f"{short_text(answer)}\n", f"refusal 11: {result('p', answer)['message']}\n"):
                self.assertRegex(said, f"^refusal 11: there are more than 65,535 facts: .*{end}")

    def test_more_than_the_first_table(self):
        # Three free arguments over 13 kept values: 2,197 facts for q, and those for p.
        book = Book(
            (Predicate("p", 0), Predicate("q", 3)),
            (
                Rule(0, ("a", "b", "c"), (Condition(UNEQUAL, 0, 1),), (), (Call(1, (0, 1, 2)),)),
                Rule(1, tuple("abcdefgh")),
            ),
        )
        pool = Pool(())
        answer = ask(asked(book, pool, Question(1, (10, 20, 30))))
        self.assertEqual((answer.kind, answer.reply.facts), (FITS, 12**3 + 1))


class Rows(unittest.TestCase):
    def test_short(self):
        self.assertEqual(short_text(ask(asked(L, TWO, FROM_TEN_TO_TEN))), "fits")
        self.assertEqual(short_text(Answer(asked(L, TWO, FROM_TEN_TO_TEN), Reply(7)))[:10], "refusal 7:")

    def test_short_of_a_part(self):
        def short(*values: int) -> str:
            return short_text(ask(asked(L, replace(TWO, spellings=((10, "0xA"),)), Question(0, values), some_part=True)))

        self.assertEqual(short(10, 20), "a part fits, 1 of 2 records: 0xA")
        self.assertEqual(short(5, 5), "the empty part fits")
        self.assertEqual(short(10, 5), "no part fits, not even the empty one")
        self.assertEqual(short_text(Answer(asked(L, TWO, FROM_TEN_TO_TEN, some_part=True), Reply(7)))[:10], "refusal 7:")

    def test_sums_of_parts(self):
        self.assertEqual(sum_text([FITS, DOES_NOT_FIT, DOES_NOT_FIT], True), "3 pools: 1 with a part that fits, 2 without")
        self.assertEqual(sum_text([FITS, REFUSED, "not read"], True), "3 pools: 1 with a part that fits, 1 refused, 1 not read")
        self.assertEqual(sum_text([DOES_NOT_FIT], True), "1 pool: 0 with a part that fits, 1 without")
        some = sum_text([FITS, FITS, DOES_NOT_FIT], True, 1)
        self.assertEqual(some, "3 pools: 2 with a part that fits (1 of them with the empty one), 1 without")

    def test_sums(self):
        self.assertEqual(sum_text([FITS, FITS, DOES_NOT_FIT]), "3 pools: 2 fit, 1 does not")
        self.assertEqual(sum_text([FITS, DOES_NOT_FIT, DOES_NOT_FIT]), "3 pools: 1 fits, 2 do not")
        self.assertEqual(sum_text([REFUSED, "not read", "not read"]), "3 pools: 0 fit, 1 refused, 2 not read")
        self.assertEqual(sum_text([FITS]), "1 pool: 1 fits")

    def test_aligned(self):
        self.assertEqual(aligned([["a", "bb"], ["ccc"], ["d", "e", "f"]]), ["a     bb", "ccc", "d     e    f"])
        self.assertEqual(aligned([]), [])
