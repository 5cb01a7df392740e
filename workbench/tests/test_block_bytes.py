"""Blocks of bytes: which are well-formed, by what the test programs must print of them, and what is said of the others."""

import unittest

from workbench.book_bytes import decode_book, encode_book, explain_book
from workbench.mistake import Mistake
from workbench.model import END_MARK, EQUAL, NIL, Call, Cell, Condition, Pool, Question, Record
from workbench.pool_bytes import decode_pool, encode_pool, explain_pool
from workbench.question_bytes import decode_question, encode_question, explain_question
from workbench.tests.samples import HOUSE, program_cases

# What is said where the engine has each refusal.
SAID = {
    1: r"the book ends where .* is due$",
    2: r"stands for .* which is \d to \d+$",
    3: r"(, and the last predicate is|, and the rule has|, and the book has|, which must be a variable|0 for equal or 1 for unequal)",
    4: r"the book is complete before this byte",
    5: r"the snapshot ends where .* is due$",
    6: r"stands for .* which is \d to \d+$",
    7: r"(the address is 0|the address is FFFFFFFF|addresses must ascend)",
    8: r"the snapshot is complete before this byte",
    9: r"of the question:",
}


def fault(book: bytes, snapshot: bytes, question: bytes) -> str | None:
    try:
        read = explain_book(book)
        explain_pool(snapshot)
        explain_question(question, read)
    except Mistake as mistake:
        return mistake.message
    return None


class Ladder(unittest.TestCase):
    def check(self, cases: list[tuple[int, bytes, bytes, bytes]]) -> set[int]:
        for refusal, *blocks in cases:
            said = fault(*blocks)
            if refusal in SAID:
                self.assertRegex(said or "nothing", SAID[refusal], blocks)
            else:
                self.assertIsNone(said, blocks)
        return {refusal for refusal, *_ in cases}

    def test_faults(self) -> None:
        self.assertEqual(self.check(program_cases("faults", 4)), set(range(10)))

    def test_cases(self) -> None:
        self.assertEqual(self.check(program_cases("cases", 5)), {0, 1, 2, 4, 6, 7, 9, 10, 11, 12})

    def test_decoding_has_no_book_or_pool_or_question(self) -> None:
        for refusal, book, snapshot, question in program_cases("faults", 4):
            read = decode_book(book)
            self.assertEqual(read is None, refusal in (1, 2, 3, 4))
            if read:
                self.assertEqual(decode_pool(snapshot) is None, refusal in (5, 6, 7, 8))
            if read and decode_pool(snapshot):
                self.assertEqual(decode_question(question, read) is None, refusal == 9)


class Offsets(unittest.TestCase):
    def test_of_books(self) -> None:
        for place in range(len(HOUSE)):
            with self.assertRaisesRegex(Mistake, rf"^file: byte {place} of the book: 200 stands for "):
                explain_book(HOUSE[:place] + b"\xc8", "file")
            with self.assertRaisesRegex(Mistake, rf"^byte {place} of the book: the book ends where "):
                explain_book(HOUSE[:place])
        with self.assertRaisesRegex(Mistake, rf"^byte {len(HOUSE)} of the book: .* before this byte: 2 bytes too many$"):
            explain_book(HOUSE + b"\0\0")

    def test_a_book_from_before_there_were_constants(self) -> None:
        with self.assertRaisesRegex(Mistake, r"^file: byte 22 of the book: .* too many; is it from before .* with 00 put in as byte 4, after "):
            explain_book(HOUSE[:4] + HOUSE[5:], "file")
        # This one could not be read with the byte either, so nothing is said of it.
        with self.assertRaisesRegex(Mistake, r"^byte 22 of the book: .* too many$"):
            explain_book(HOUSE[:4] + HOUSE[5:] + b"\0")

    def test_messages(self) -> None:
        rows = [
            ("00", "byte 0 of the book: 0 stands for the number of predicates, which is 1 to 8"),
            ("01 05", "byte 1 of the book: 5 stands for a number of arguments, which is 0 to 4"),
            ("01 02 09", "byte 2 of the book: 9 stands for the number of constants, which is 0 to 8"),
            ("01 02", "byte 2 of the book: the book ends where the number of constants is due"),
            ("01 02 02 07 00 00 00 08 00", "byte 9 of the book: the book ends where a constant is due"),
            ("01 02 00 01 00 07", "byte 5 of the book: 7 stands for the number of bound variables, which is 0 to 6"),
            ("01 00 00 01 01", "byte 4 of the book: 1 stands for the predicate of a rule, and the last predicate is 0"),
            ("01 01 00 01 00 00 00 01 FF", "byte 8 of the book: nil stands for the address of a cell, which must be a variable"),
            ("01 01 00 01 00 01 00 01 02", "byte 8 of the book: 2 stands for the address of a cell, and the rule has 2 variables"),
            ("01 01 00 01 00 00 01 00 80", "byte 8 of the book: 128 stands for a term of a condition, and the book has no constants"),
            ("01 01 00 01 00 00 01 00 7F", "byte 8 of the book: 127 stands for a term of a condition, and the rule has 1 variable"),
        ]
        for data, message in rows:
            self.assertEqual(fault(bytes.fromhex(data), b"", b""), message)

    def test_messages_about_constants(self) -> None:
        rows = [
            ("01 00 81", "byte 12 of the book: 129 stands for a term of a condition, and the book has 1 constant, from 128 on"),
            ("01 00 80 FE", "byte 13 of the book: 254 stands for a term of a condition, and the book has 1 constant, from 128 on"),
            ("00 01 80", "byte 12 of the book: 128 stands for the address of a cell, which must be a variable"),
            ("00 01 FF", "byte 12 of the book: nil stands for the address of a cell, which must be a variable"),
            ("00 01 00 01 81", "byte 14 of the book: 129 stands for a field, and the book has 1 constant, from 128 on"),
            ("00 00 01 00 FE", "byte 14 of the book: 254 stands for an argument of a call, and the book has 1 constant, from 128 on"),
        ]
        for data, message in rows:
            self.assertEqual(fault(bytes.fromhex("01 01 01 07 00 00 00 01 00 00" + data), b"", b""), message)

    def test_of_snapshots(self) -> None:
        rows = [
            ("11", "byte 0 of the snapshot: 17 stands for the number of records, which is 0 to 16"),
            ("01 00 00 00 00", "byte 1 of the snapshot: the address is 0, which is nil and never an address"),
            ("01 FF FF FF FF 05", "byte 1 of the snapshot: the address is FFFFFFFF, which is the end mark, so nil and never an address"),
            ("02 05 00 00 00 00 05 00 00 00", "byte 6 of the snapshot: the address 5 follows 5, and addresses must ascend"),
            ("01 05 00 00", "byte 4 of the snapshot: the snapshot ends where an address is due"),
            ("01 05 00 00 00 05", "byte 5 of the snapshot: 5 stands for the number of fields, which is 0 to 4"),
        ]
        for data, message in rows:
            self.assertEqual(fault(HOUSE, bytes.fromhex(data), b""), message)

    def test_of_questions(self) -> None:
        rows = [
            ("", "byte 0 of the question: the question ends where the predicate is due"),
            ("03", "byte 0 of the question: 3 stands for the predicate, and the last one of the book is 2"),
            ("01 02", "byte 1 of the question: 2 stands for the number of values, and p1 has 1 argument"),
            ("01 01 00 00", "byte 4 of the question: the question ends where a value is due"),
            ("01 01 00 00 00 00 07", "byte 6 of the question: the question is complete before this byte: 1 byte too many"),
        ]
        for data, message in rows:
            self.assertEqual(fault(HOUSE, b"\0", bytes.fromhex(data)), message)


class Encoding(unittest.TestCase):
    def test_constants_stand_after_the_arguments(self) -> None:
        data = bytes.fromhex("01 01 02 04 03 02 01 07 00 00 00 01  00 00 01 00 81 00  01 00 02 80 FF  01 00 81")
        book = decode_book(data)
        self.assertEqual(book.constants, (0x01020304, 7))
        rule = book.rules[0]
        self.assertEqual(rule.conditions, (Condition(EQUAL, 129, 0),))
        self.assertEqual((rule.cells, rule.calls), ((Cell(0, (128, NIL)),), (Call(0, (129,)),)))
        self.assertEqual(encode_book(book), data)

    def test_numbers_have_the_lowest_byte_first(self) -> None:
        pool = Pool((Record(10, (0x01020304,)), Record(2**32 - 2, ())))
        self.assertEqual(encode_pool(pool).hex(" "), "02 0a 00 00 00 01 04 03 02 01 fe ff ff ff 00")
        self.assertEqual(encode_question(Question(2, (10, 256))).hex(" "), "02 02 0a 00 00 00 00 01 00 00")

    def test_the_end_mark_is_nil(self) -> None:
        book = decode_book(bytes.fromhex("01 01 03 07 00 00 00 FF FF FF FF 00 00 00 00 00"))
        self.assertEqual(book.constants, (7, 0, 0))
        self.assertEqual(encode_book(book).hex(" "), "01 01 03 07 00 00 00 00 00 00 00 00 00 00 00 00")
        self.assertEqual(encode_book(book, END_MARK).hex(" "), "01 01 03 07 00 00 00 ff ff ff ff ff ff ff ff 00")
        pool = decode_pool(bytes.fromhex("01 FE FF FF FF 02 FF FF FF FF 00 00 00 00"))
        self.assertEqual(pool, Pool((Record(2**32 - 2, (0, 0)),)))
        self.assertEqual(encode_pool(pool).hex(" "), "01 fe ff ff ff 02 00 00 00 00 00 00 00 00")
        self.assertEqual(encode_pool(pool, END_MARK).hex(" "), "01 fe ff ff ff 02 ff ff ff ff ff ff ff ff")
        question = decode_question(bytes.fromhex("01 01 FF FF FF FF"), decode_book(HOUSE))
        self.assertEqual(question.values, (0,))
        self.assertEqual(encode_question(question).hex(" "), "01 01 00 00 00 00")
        self.assertEqual(encode_question(question, END_MARK).hex(" "), "01 01 ff ff ff ff")

    def test_names_of_a_decoded_book(self) -> None:
        book = decode_book(HOUSE)
        self.assertEqual([predicate.name for predicate in book.predicates], ["p0", "p1", "p2"])
        self.assertEqual([rule.variables for rule in book.rules], [("a", "b"), ("a", "b", "c"), ("a", "b"), ("a", "b")])
        self.assertEqual(encode_book(book), HOUSE)


if __name__ == "__main__":
    unittest.main()
