"""Bytes to text and back, and text to bytes and back, on all that the repository has and on random books, pools and questions."""

import unittest
from dataclasses import replace
from random import Random

from workbench.book_bytes import decode_book, encode_book
from workbench.book_text import parse_book, write_book
from workbench.model import FIRST_CONSTANT, MOST_VALUE, NIL, Book, Rule
from workbench.pool_bytes import decode_pool, encode_pool
from workbench.pool_text import parse_pool, write_pool
from workbench.question_bytes import decode_question, encode_question
from workbench.question_text import parse_question, write_question
from workbench.tests.messy import messy_book, messy_pool
from workbench.tests.samples import HOUSE, random_book, random_pool, random_question, repository_blocks

MANY = 1500


def without_lines(book: Book) -> Book:
    """Nor how its numbers were written."""
    return replace(book, rules=tuple(replace(rule, line=0) for rule in book.rules), spellings=())


def unmarked(data: bytes, written: bytes) -> bytes:
    """The bytes with 0 for each end mark that stands where `written` has 0."""
    found, at = bytearray(data), 0
    while at < min(len(found), len(written)):
        here = slice(at, at + 4)
        nil = found[at] != written[at] and found[here] == b"\xff" * 4 and written[here] == bytes(4)
        if nil:
            found[here] = bytes(4)
        at += 4 if nil else 1
    return bytes(found)


def terms_of(rule: Rule) -> set[int]:
    found = {term for each in rule.conditions for term in (each.left, each.right)}
    found |= {term for each in rule.cells for term in (each.address, *each.fields)}
    return found | {term for each in rule.calls for term in each.terms}


def reached(book: Book) -> set[str]:
    """Which limits and oddities a book has."""
    heads = [rule.predicate for rule in book.rules]
    found = {f"{len(book.predicates)} predicates", f"{len(book.rules)} rules"}
    found |= {f"{predicate.arguments} arguments" for predicate in book.predicates}
    found |= {"a predicate without rules" for number in range(len(book.predicates)) if book.rules and number not in heads}
    found |= {"interleaved" for place in range(2, len(heads)) if heads[place] != heads[place - 1] and heads[place] in heads[: place - 1]}
    found |= {"a later predicate first" for place in range(1, len(heads)) if heads[place] < heads[place - 1]}
    for rule in book.rules:
        found |= {f"{len(rule.variables)} variables", f"{len(rule.conditions)} conditions", f"{len(rule.cells)} cells"}
        found |= {f"{len(rule.calls)} calls", *(f"{len(cell.fields)} fields" for cell in rule.cells)}
        bound = range(book.predicates[rule.predicate].arguments, len(rule.variables))
        found |= {"a bound variable that occurs nowhere" for number in bound if number not in terms_of(rule)}
        found |= {"nil" for term in terms_of(rule) if term == NIL}
        found |= {"no atom"} if not rule.conditions and not rule.cells and not rule.calls else set()
        found |= {"a call of a later predicate" for call in rule.calls if call.predicate > rule.predicate}
    return found | constants_reached(book)


def constants_reached(book: Book) -> set[str]:
    places = {
        "left of a condition": [each.left for rule in book.rules for each in rule.conditions],
        "right of a condition": [each.right for rule in book.rules for each in rule.conditions],
        "in a field": [term for rule in book.rules for each in rule.cells for term in each.fields],
        "in a call": [term for rule in book.rules for each in rule.calls for term in each.terms],
    }
    found = {f"{len(book.constants)} constants"} | {"no list" for _ in book.constants[:1] if "constants " not in write_book(book)}
    used = {term - FIRST_CONSTANT for terms in places.values() for term in terms if FIRST_CONSTANT <= term < NIL}
    found |= {f"a constant {place}" for place, terms in places.items() if any(FIRST_CONSTANT <= term < NIL for term in terms)}
    found |= {"an unused constant" for number in range(len(book.constants)) if number not in used}
    found |= {"a constant of 0" for number in used if book.constants[number] == 0}
    found |= {"a constant of the largest value" for number in used if book.constants[number] == MOST_VALUE}
    return found | {"equal constants" for number in used for other in used if number < other and book.constants[number] == book.constants[other]}


ALL_BOOKS = {
    "1 predicates", "8 predicates", "0 rules", "16 rules", "0 arguments", "4 arguments", "0 variables", "8 variables", "0 conditions",
    "8 conditions", "0 cells", "4 cells", "0 fields", "4 fields", "0 calls", "3 calls", "a predicate without rules", "interleaved",
    "a later predicate first", "a bound variable that occurs nowhere", "nil", "no atom", "a call of a later predicate", "0 constants",
    "1 constants", "8 constants", "no list", "a constant left of a condition", "a constant right of a condition", "a constant in a field",
    "a constant in a call", "an unused constant", "a constant of 0", "a constant of the largest value", "equal constants",
}


class Repository(unittest.TestCase):
    def test_books_pools_and_questions(self) -> None:
        kept = {"book": set(), "snapshot": set(), "question": set()}
        for data, snapshot, question in repository_blocks():
            book, pool = decode_book(data), decode_pool(snapshot)
            asked = decode_question(question, book) if book else None
            if book:
                written = encode_book(parse_book(write_book(book), ""))
                self.assertEqual(written, unmarked(data, written))
                kept["book"].add(data)
            if pool:
                written = encode_pool(parse_pool(write_pool(pool), ""))
                self.assertEqual(written, unmarked(snapshot, written))
                kept["snapshot"].add(snapshot)
            if book and asked:
                written = encode_question(parse_question(write_question(asked, book), book))
                self.assertEqual(written, unmarked(question, written))
                kept["question"].add(question)
        self.assertIn(HOUSE, kept["book"])
        # There are somewhat more today; with fewer, the files are no longer found or read.
        for block, least in (("book", 50), ("snapshot", 30), ("question", 25)):
            self.assertGreaterEqual(len(kept[block]), least)


class RandomOnes(unittest.TestCase):
    def test_books(self) -> None:
        random, seen, lists = Random(1), set(), set()
        for _ in range(MANY):
            book = random_book(random)
            seen |= reached(book)
            text = write_book(book)
            lists.add("exists" in text)
            self.assertEqual(without_lines(parse_book(text, "")), book, text)
            data = encode_book(book)
            decoded = decode_book(data)
            self.assertEqual(encode_book(decoded), data)
            self.assertEqual(encode_book(parse_book(write_book(decoded), "")), data, text)
        self.assertLessEqual(ALL_BOOKS, seen)
        self.assertEqual(lists, {True, False})

    def test_books_as_people_write_them(self) -> None:
        random, others = Random(2), 0
        for _ in range(MANY // 2):
            book = random_book(random)
            text = messy_book(book, random, listed=True)
            self.assertEqual(without_lines(parse_book(text, "")), book, text)
            text = messy_book(book, random, listed=False)
            data = encode_book(parse_book(text, ""))
            others += data != encode_book(book)
            self.assertEqual(encode_book(parse_book(write_book(parse_book(text, "")), "")), data, text)
        self.assertGreater(others, 0)

    def test_pools(self) -> None:
        random, counts, fields = Random(3), set(), set()
        for _ in range(MANY):
            pool = random_pool(random)
            counts.add(len(pool.records))
            fields |= {len(record.fields) for record in pool.records}
            self.assertEqual(parse_pool(write_pool(pool), ""), pool)
            data = encode_pool(pool)
            self.assertEqual(decode_pool(data), pool)
            read = parse_pool(messy_pool(pool, random), "")
            self.assertEqual(encode_pool(read), data)
            self.assertEqual(parse_pool(write_pool(read), "").records, pool.records)
        self.assertLessEqual({0, 1, 16}, counts)
        self.assertEqual(fields, {0, 1, 2, 3, 4})

    def test_questions(self) -> None:
        random = Random(4)
        for _ in range(MANY):
            book = random_book(random)
            question = random_question(random, book)
            self.assertEqual(parse_question(write_question(question, book), book), question)
            self.assertEqual(decode_question(encode_question(question), book), question)


if __name__ == "__main__":
    unittest.main()
