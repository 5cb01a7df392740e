"""Texts damaged at random: each is read or is a mistake with a place in it, and what is read has well-formed bytes."""

import unittest
from random import Random

from workbench.book_bytes import decode_book, encode_book
from workbench.book_text import parse_book, write_book
from workbench.mistake import Mistake
from workbench.pool_bytes import decode_pool, encode_pool
from workbench.pool_text import parse_pool, write_pool
from workbench.question_bytes import decode_question, encode_question
from workbench.question_text import parse_question, write_question
from workbench.tests.messy import damaged, messy_book, messy_pool
from workbench.tests.samples import ROOT, random_book, random_pool, random_question

HOUSE = (ROOT / "examples" / "house.book").read_text(encoding="utf-8")


class Damaged(unittest.TestCase):
    def tried(self, texts, read) -> tuple[set[str], int]:
        """`read` gets each text and says whether what it is read as is well-formed; how many are read, and the messages."""
        messages, many = set(), 0
        for text in texts:
            try:
                self.assertTrue(read(text), text)
                many += 1
            except Mistake as mistake:
                self.check_place(mistake, text)
                messages.add(mistake.message)
        return messages, many

    def check_place(self, mistake: Mistake, text: str) -> None:
        lines = text.replace("\r\n", "\n").replace("\r", "\n").split("\n")
        self.assertEqual(mistake.source, "file", text)
        self.assertTrue(1 <= mistake.line <= len(lines), text)
        self.assertEqual(mistake.text, lines[mistake.line - 1])
        self.assertTrue(1 <= mistake.column <= len(mistake.text) + 1, text)
        self.assertEqual(len(str(mistake).split("\n")), 3, text)

    def test_books(self) -> None:
        random = Random(5)
        whole = [HOUSE] * 40 + [write_book(random_book(random)) for _ in range(40)]
        whole += [messy_book(random_book(random), random, listed=True) for _ in range(40)]
        texts = [damaged(random.choice(whole), random) for _ in range(3000)]
        messages, read = self.tried(texts, lambda text: decode_book(encode_book(parse_book(text, "file"))))
        self.assertGreater(len(messages), 100)
        self.assertGreater(read, 100)

    def test_pools(self) -> None:
        random = Random(6)
        texts = [damaged(messy_pool(random_pool(random), random), random) for _ in range(1000)]
        texts += [damaged(write_pool(random_pool(random)), random) for _ in range(1000)]
        messages, read = self.tried(texts, lambda text: decode_pool(encode_pool(parse_pool(text, "file"))))
        self.assertGreater(len(messages), 50)
        self.assertGreater(read, 100)

    def test_questions(self) -> None:
        random = Random(7)
        book = parse_book(HOUSE, "house")
        texts = [damaged(write_question(random_question(random, book), book), random) for _ in range(1000)]
        messages, read = self.tried(texts, lambda text: decode_question(encode_question(parse_question(text, book, "file")), book))
        self.assertGreater(len(messages), 50)
        self.assertGreater(read, 20)

    def test_texts_of_the_other_kinds(self) -> None:
        random = Random(8)
        book = parse_book(HOUSE, "house")
        pools = [write_pool(random_pool(random)) for _ in range(100)]
        books = [write_book(random_book(random)) for _ in range(100)]
        for texts, read in (
            (books, lambda text: parse_pool(text, "file")),
            (books, lambda text: parse_question(text, book, "file")),
            (pools, lambda text: parse_book(text, "file")),
            (pools, lambda text: parse_question(text, book, "file")),
        ):
            self.assertEqual(self.tried(texts, read)[1], 0)


if __name__ == "__main__":
    unittest.main()
