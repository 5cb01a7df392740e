"""Questions as text, and what is said about each mistake in one."""

import unittest

from workbench.book_text import parse_book
from workbench.model import Question
from workbench.question_text import parse_question, write_question
from workbench.tests.marked import check_rows

BOOK = parse_book("segment(a, b) { } ; ring(a) { } ; ok() { } ; dll(a, b, c, d) { }", "book")

MISTAKES = [
    ("‸segment(10)", "segment has 2 arguments, and this question has 1 value: write segment(10, ..)"),
    ("‸segment(0x30)", "segment has 2 arguments, and this question has 1 value: write segment(0x30, ..)"),
    ("‸segment()", "segment has 2 arguments, and this question has no values: write segment(10, 20)"),
    ("‸dll(nil, 0x1f)", "dll has 4 arguments, and this question has 2 values: write dll(nil, 0x1f, .., ..)"),
    ("‸segmnt(10, 10)", "there is no predicate segmnt in this book: did you mean segment?"),
    ("‸zzz(1)", "there is no predicate zzz in this book: write one of segment, ring, ok, dll"),
    ("segment‸", "( is missing after segment: write segment(10, 20)"),
    ("segment ‸10 10", "( is missing after segment: write segment(10, 20)"),
    ("‸ring()", "ring has 1 argument, and this question has no values: write ring(10)"),
    ("‸ok(1)", "ok has no arguments, and this question has 1 value: write ok()"),
    ("ok‸", "( is missing after ok: write ok()"),
    ("ring(‸a)", "a is no value: a question has numbers and nil only"),
    ("ring(‸FFFFFFFF)", "FFFFFFFF is no value: a question has numbers and nil only; for base sixteen write 0xFFFFFFFF"),
    ("ring(‸@1)", "@1 stands in books only: write the number itself"),
    ("ring(10‸", ") is missing before the end: write , between values and ) after the last"),
    ("ring(10,‸)", "a value is missing before ): write a number or nil"),
    ("ring(‸,10)", "a value is missing before \",\": write a number or nil"),
    ("ring(10) ‸ring(20)", "ring follows the question: ask one question, and write nothing after it"),
    ("‸", "a question begins with a predicate: write one such as segment(10, 20)"),
    ("‸10", "a question begins with a predicate: write one such as segment(10, 20)"),
    ("ring(‸4294967296)", "4294967296 is too large: a value is at most 4,294,967,294 (0xFFFFFFFE), and 0xFFFFFFFF is nil"),
    ("ring(10)‸);", ") follows the question: ask one question, and write nothing after it"),
    ("ring(10 ‸20)", ", is missing before 20: write , between values and ) after the last"),
    ("ring(‸(10))", "a value is missing before (: write a number or nil"),
    ("‸Segment(1,2)", "there is no predicate Segment in this book: did you mean segment?"),
    ("ring(‸-1)", "- is not used here: write a whole number of 0 or more, without sign or point"),
    ("‸nil", "there is no predicate nil in this book: write one of segment, ring, ok, dll"),
    ("‸emp", "there is no predicate emp in this book: write one of segment, ring, ok, dll"),
    ("ring(1)‸?", "the character ? (U+003F) has no meaning here: take it away; names have letters, digits, _ and '"),
    ("‸ring(10, 20)", "ring has 1 argument, and this question has 2 values: write ring(10)"),
    ("‸segment(10, 20, 30)", "segment has 2 arguments, and this question has 3 values: write segment(10, 20)"),
    ("segment(1 ‸2)", ", is missing before 2: write , between values and ) after the last"),
    ("ring(10‸:)", ") is missing before \":\": write , between values and ) after the last"),
    ("ring‸{10}", "( is missing after ring: write ring(10)"),
    ("‸p { emp => p() }", "there is no predicate p in this book: write one of segment, ring, ok, dll"),
    ("segment(10,\n ‸a)", "a is no value: a question has numbers and nil only"),
    ("‸10: 20", "a question begins with a predicate: write one such as segment(10, 20)"),
    ("ring(3‸.5)", ". is not used here: write a whole number of 0 or more, without sign or point"),
]


class QuestionText(unittest.TestCase):
    def test_values(self) -> None:
        self.assertEqual(parse_question(" segment ( 10,nil ) # so", BOOK), Question(0, (10, 0)))
        self.assertEqual(parse_question("ring(0)", BOOK), Question(1, (0,)))
        self.assertEqual(parse_question("ok()", BOOK), Question(2, ()))

    def test_spellings(self) -> None:
        question = parse_question("segment(0x1f, 0x1F)", BOOK)
        self.assertEqual(question, Question(0, (31, 31), ((31, "0x1f"),)))
        self.assertEqual(write_question(question, BOOK), "segment(0x1f, 0x1f)")

    def test_written(self) -> None:
        self.assertEqual(write_question(Question(0, (10, 0)), BOOK), "segment(10, nil)")
        self.assertEqual(write_question(Question(2, ()), BOOK), "ok()")

    def test_mistakes(self) -> None:
        check_rows(self, MISTAKES, lambda text, source: parse_question(text, BOOK, source))

    def test_source(self) -> None:
        with self.assertRaisesRegex(Exception, r"^question:1:1: there is no predicate rong in this book: did you mean ring\?\n"):
            parse_question("rong(1)", BOOK)


if __name__ == "__main__":
    unittest.main()
