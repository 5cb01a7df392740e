"""What is shown of the engine's unfoldings, held to the rules by a reader of its own, and the workbench's readers held to the engine's."""

import unittest
from collections import Counter
from dataclasses import replace
from itertools import combinations
from random import Random

from workbench.asking import DOES_NOT_FIT, FITS, REFUSED, Answer, Asked, ask
from workbench.book_bytes import decode_book, encode_book
from workbench.draw import dot_text
from workbench.library import decide
from workbench.model import EQUAL, FIRST_CONSTANT, NIL, Book, Call, Cell, Condition, Pool, Predicate, Question, Record, Rule, fixed_value, is_variable
from workbench.names import Names
from workbench.pool_bytes import decode_pool, encode_pool
from workbench.question_bytes import decode_question, encode_question
from workbench.render import answer_text, verdict
from workbench.tests.engine_samples import H
from workbench.tests.samples import random_book, random_pool, random_question, repository_blocks
from workbench.tests.test_render import asked as asked_about
from workbench.unfolding import tree


def of_blocks(book_bytes: bytes, pool_bytes: bytes, question_bytes: bytes) -> Asked:
    book = decode_book(book_bytes)
    question = decode_question(question_bytes, book) if book else None
    return Asked(book_bytes, pool_bytes, question_bytes, book, decode_pool(pool_bytes), question)


def some_pool(chance: Random) -> Pool:
    """Small numbers, so that fields often name records, of which each has two."""
    addresses = sorted(chance.sample(range(1, 7), chance.randrange(5)))
    return Pool(tuple(Record(address, tuple(chance.choices(range(7), k=2))) for address in addresses))


def some_chains(chance: Random) -> Pool:
    """Four records with a field each, of which no two hold the same: chains and rings."""
    addresses = sorted(chance.sample(range(1, 7), 4))
    return Pool(tuple(Record(address, (value,)) for address, value in zip(addresses, chance.sample([0, *addresses], 4))))


def some_book(chance: Random) -> Book:
    """Two predicates that can be empty, and rules with a cell, often of variables that nothing else fixes, so that many pools fit. Half of
    them have constants: values that pools often hold and one that they never do, equal ones, and 0."""
    constants = chance.choice(((), (3, 90, 5, 3, 0)))
    predicates = (Predicate("p", 2), Predicate("q", 1))
    rules = [Rule(0, ("a", "b"), tuple(chance.choices([(), (Condition(chance.randrange(2), 0, 1),)])[0])), Rule(1, ("a",))]
    for _ in range(chance.randrange(2, 6)):
        head = chance.randrange(2)
        variables = tuple("abcde"[: predicates[head].arguments + chance.randrange(1, 4)])
        terms = [*range(len(variables))] * 2 + [NIL] + [FIRST_CONSTANT + place for place in range(len(constants)) if not chance.randrange(4)]
        cells = (Cell(chance.randrange(len(variables)), tuple(chance.choices(terms, k=2))),)
        calls = []
        for number in chance.choices((0, 1), k=chance.choice((0, 1, 1, 2, 3))):
            calls.append(Call(number, tuple(chance.choices(terms, k=predicates[number].arguments))))
        rules.append(Rule(head, variables, (), cells, tuple(calls)))
    return Book(predicates, tuple(rules), constants)


def subsets(addresses: list[int]) -> list[tuple[int, ...]]:
    return [some for count in range(len(addresses) + 1) for some in combinations(addresses, count)]


class ByHand(unittest.TestCase):
    def hold_to_the_rules(self, answer: Answer) -> None:
        """The tree that is shown is an unfolding by hand of what was asked, and takes each record of the pool or the part once."""
        names = Names(answer.asked)
        book, records = names.book, {record.address: record.fields for record in names.pool.records}
        lines = answer.lines
        self.assertEqual((lines[-1].predicate, lines[-1].arguments), (names.question.predicate, names.question.values))
        taken = []
        for node in tree(lines, most_nodes=10**6):
            line = node.line
            rule = book.rules[line.rule]

            def value(term: int) -> int:
                return line.values[term] if is_variable(term) else fixed_value(term, book.constants)

            self.assertEqual(rule.predicate, line.predicate)
            self.assertEqual(line.values[: len(line.arguments)], line.arguments)
            for condition in rule.conditions:
                self.assertEqual(value(condition.left) == value(condition.right), condition.kind == EQUAL)
            for cell, address in zip(rule.cells, line.takes, strict=True):
                self.assertEqual(records[address], tuple(map(value, cell.fields)))
            for call, called in zip(rule.calls, line.calls, strict=True):
                below = lines[called - 1]
                self.assertEqual((below.predicate, below.arguments), (call.predicate, tuple(map(value, call.terms))))
            taken += line.takes
        self.assertEqual(sorted(taken), sorted(answer.part.records if answer.part else records))

    def look_at(self, asked: Asked) -> Answer:
        answer = ask(asked)
        self.assertTrue(answer_text(answer).startswith("refusal " if answer.kind == REFUSED else f"{verdict(answer)}\n"))
        if answer.kind != REFUSED:
            self.assertTrue(dot_text(answer).startswith("digraph"))
        if answer.kind == FITS:
            self.hold_to_the_rules(answer)
        return answer

    def test_all_blocks_of_the_repository(self):
        kinds = []
        for blocks in repository_blocks():
            with self.subTest(blocks=[block.hex(" ") for block in blocks]):
                asked = of_blocks(*blocks)
                whole, part = self.look_at(asked), self.look_at(replace(asked, some_part=True))
                for number in ("refusal", "facts", "rounds"):
                    self.assertEqual(getattr(part.reply, number), getattr(whole.reply, number))
                kinds.append((whole.kind, part.kind))
        self.assertGreater(kinds.count((FITS, FITS)), 10)
        self.assertGreater(kinds.count((DOES_NOT_FIT, FITS)), 10)
        self.assertNotIn((FITS, DOES_NOT_FIT), kinds)

    def test_small_random_ones(self):
        chance = Random(7)
        fits: Counter[int] = Counter()
        for i in range(6000):
            book, pool = some_book(chance), some_pool(chance)
            question = Question(0, tuple(chance.choices(range(7), k=2)))
            with self.subTest(case=i):
                fits[len(pool.records)] += self.look_at(asked_about(book, pool, question)).kind == FITS
        # There is something to look at for each number of records.
        self.assertTrue(all(fits[records] > 20 for records in range(5)), fits)

    def look_at_part(self, book: Book, pool: Pool, question: Question) -> int | None:
        """How many records the part has that is shown. It fits as a pool of its own, and where none is shown no part does."""
        part = self.look_at(asked_about(book, pool, question, some_part=True)).part
        for addresses in [part.records] if part else subsets([record.address for record in pool.records]):
            alone = Pool(tuple(record for record in pool.records if record.address in addresses))
            self.assertEqual(ask(asked_about(book, alone, question)).kind, FITS if part else DOES_NOT_FIT)
        return len(part.records) if part else None

    def test_parts_of_small_random_ones(self):
        chance = Random(9)
        found: Counter[int | None] = Counter()
        for i in range(300):
            with self.subTest(case=i):
                # Without its first rule the predicate needs a record.
                book = some_book(chance)
                book = replace(book, rules=book.rules[chance.randrange(2) :])
                found[self.look_at_part(book, some_pool(chance), Question(0, tuple(chance.choices(range(7), k=2))))] += 1
                pool = some_chains(chance)
                values = chance.choices([0, *(record.address for record in pool.records)], k=2)
                predicate = chance.randrange(3)
                found[self.look_at_part(H, pool, Question(predicate, tuple(values[: H.predicates[predicate].arguments])))] += 1
        self.assertTrue(all(found[size] > 5 for size in (None, 0, 1, 2, 3, 4)), found)


class Readers(unittest.TestCase):
    def test_the_engine_refuses_what_the_workbench_cannot_read(self):
        chance = Random(8)
        blocks = repository_blocks()
        for _ in range(300):
            book = random_book(chance)
            whole = [encode_book(book), encode_pool(random_pool(chance)), encode_question(random_question(chance, book))]
            spoilt = chance.randrange(3)
            at = chance.randrange(len(whole[spoilt]))
            whole[spoilt] = whole[spoilt][:at] + bytes([chance.choice((0, 1, 5, 9, 128, 129, 135, 136, 200, 255))]) + whole[spoilt][at + 1 :]
            blocks.append(tuple(whole))
        for each in blocks:
            asked = of_blocks(*each)
            refusal = decide(*each, 1).refusal
            with self.subTest(blocks=[block.hex(" ") for block in each]):
                self.assertEqual(asked.book is None, refusal in (1, 2, 3, 4))
                if asked.book:
                    self.assertEqual(asked.pool is None, refusal in (5, 6, 7, 8))
                if asked.book and asked.pool:
                    self.assertEqual(asked.question is None, refusal == 9)
