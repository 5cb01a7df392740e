"""Answers of the quick walk: a yes, a no, a book that it refuses since it is not plain, other refusals, and mistakes."""

import contextlib
import json
import os
import subprocess
import sys
import tempfile
import textwrap
import unittest
from collections import Counter
from dataclasses import replace
from io import BytesIO
from pathlib import Path
from random import Random
from unittest import mock

from workbench import library, report_json
from workbench.asking import DOES_NOT_FIT, FITS, NO_REASON, NOT_ANSWERED, NOT_PLAIN, REFUSED, Answer, ask, ask_next
from workbench.book_bytes import encode_book, explain_book
from workbench.book_text import parse_book
from workbench.library import ROOT, Reply
from workbench.model import END_MARK, EQUAL, FIRST_CONSTANT, NIL, UNEQUAL, Book, Call, Cell, Condition, Pool, Predicate, Question, Rule
from workbench.plain import not_plain
from workbench.pool_bytes import encode_pool
from workbench.pool_text import parse_pool
from workbench.question_bytes import encode_question
from workbench.question_text import parse_question
from workbench.render import answer_text, short_text, sum_text, walk_text
from workbench.refusals import sentence
from workbench.report_json import report, result
from workbench.tests.engine_samples import CHAIN, FROM_TEN_TO_NIL, FROM_TEN_TO_TWENTY, H, L, PLAIN, TWO
from workbench.tests.samples import repository_blocks
from workbench.tests.test_asking import some_book, some_chains, some_pool
from workbench.tests.test_cli import COMMAND, run_inside
from workbench.tests.test_plain import CONSTANTS, reason, some_rule
from workbench.tests.test_render import asked

# This fits, and the walk refuses the book: the rule asked about has calls and no cell.
QUEUE = ("examples/near-misses/no-cell.book", "examples/queue.pool", "queue_and_free(0x10, 0x40)")
FIT = ("examples/plain/segment.book", "examples/segment.pool", "segment(10, nil)")
NO_FIT = ("examples/plain/segment.book", "examples/segment.pool", "segment(10, 30)")
REASON = "rule 3 of queue_and_free (line 6) calls segment and has no cell"


def saying(verdict: int, refusal: int = 0):
    """A walk with this reply."""
    return mock.patch.object(library, "walk", return_value=(refusal, verdict))


def refusing():
    """A walk that finds the book not plain."""
    return saying(0, NOT_PLAIN)


def walked(book: Book, pool: Pool, question: Question) -> Answer:
    return ask(replace(asked(book, pool, question), by_walk=True))


class Answers(unittest.TestCase):
    def test_fits_without_lines(self):
        answer = walked(PLAIN, CHAIN, FROM_TEN_TO_NIL)
        self.assertEqual((answer.kind, answer.lines, answer.not_plain), (FITS, (), ""))
        self.assertEqual(answer_text(answer), "fits\n")
        due = "The walk gives no unfolding to show or to save. To have one, ask the engine:\n  COMMAND\n"
        self.assertEqual(walk_text(answer, "COMMAND"), due)

    def test_a_book_that_is_not_plain_has_no_answer(self):
        for question in (FROM_TEN_TO_NIL, FROM_TEN_TO_TWENTY):
            answer = walked(L, CHAIN, question)
            self.assertEqual((answer.kind, answer.reply.refusal, answer.reply.verdict), (NOT_ANSWERED, NOT_PLAIN, 0))

    def test_a_refusal_for_which_the_workbench_finds_no_reason(self):
        with refusing():
            answer = walked(PLAIN, CHAIN, FROM_TEN_TO_NIL)
        self.assertEqual((answer.kind, answer.not_plain), (NOT_ANSWERED, NO_REASON))

    def test_every_book_that_is_not_plain_for_one_is_not_for_the_other(self):
        """The library's test, which is proved, and the workbench's, on plain books of which a condition or a cell is left out."""
        chance = Random(12)
        found: Counter[int] = Counter()
        for _ in range(2000):
            book, place = plain_book(chance), chance.randrange(9)
            if place < len(book.rules):
                rule = book.rules[place]
                less = replace(rule, cells=()) if chance.randrange(3) == 0 else replace(rule, conditions=rule.conditions[1:])
                book = replace(book, rules=(*book.rules[:place], less, *book.rules[place + 1 :]))
            refusal = library.walk(encode_book(book), encode_pool(some_pool(chance)), encode_question(Question(0, (0, 1))))[0]
            self.assertEqual(refusal, NOT_PLAIN if not_plain(book) else 0)
            found[refusal] += 1
        self.assertGreater(min(found[0], found[NOT_PLAIN]), 300)

    def test_rules_of_any_conditions(self):
        """The same, on rules with chains of equalities, contradictions, and constants that are equal, 0 or the end mark."""
        chance = Random(14)
        found: Counter[str] = Counter()
        for _ in range(2000):
            arguments, constants = chance.randrange(4), chance.choice(((), CONSTANTS))
            rules = [some_rule(chance, arguments, chance.choice((0, 0, 1, 2)), len(constants)) for _ in range(chance.randrange(1, 4))]
            book = Book((Predicate("p", arguments),), tuple(rules), constants)
            blocks = encode_book(book, chance.choice((0, END_MARK))), encode_pool(Pool(())), encode_question(Question(0, (0,) * arguments))
            reason = not_plain(book)
            self.assertEqual(library.walk(*blocks)[0], NOT_PLAIN if reason else 0, book)
            found[reason[:8]] += 1
        self.assertGreater(min(found[""], found["variable"], found["the cond"]), 150, found)

    def test_does_not_fit_where_the_book_is_plain(self):
        answer = walked(PLAIN, TWO, Question(0, (10, 5)))
        self.assertEqual((answer.kind, answer.not_plain), (DOES_NOT_FIT, ""))
        self.assertEqual(
            answer_text(answer),
            "does not fit\n"
            "Hints on where to look. They come from the pool and the question's values alone; the verdict is the walk's.\n"
            "  the question's second value 5 is not nil and names no record\n",
        )
        self.assertEqual(
            walk_text(answer, "COMMAND"),
            "The walk's no is as strong as the engine's, since it refuses a book that is not plain. To ask the engine all the same:\n"
            "  COMMAND\n",
        )

    def test_not_answered_where_it_is_not(self):
        """And no hints: the pool may fit."""
        answer = walked(L, TWO, Question(0, (10, 5)))
        self.assertEqual((answer.kind, bool(answer.hints)), (NOT_ANSWERED, False))
        self.assertEqual(answer_text(answer), "not answered\n")
        due = (
            " may fit or not: the walk answers for plain books alone, and refuses this book (refusal 12).\n"
            "The first reason why it is not plain, in the workbench's own words:\n"
            "  the conditions of rules 1 and 2 of segment (lines 3 and 4) can both be met, for example by segment(1, 1)\n"
            "To ask the engine:\n"
            "  COMMAND\n"
            "docs/WORKBENCH.md, The quick walk, says what a plain book is and how a book becomes one.\n"
        )
        self.assertEqual(walk_text(answer, "COMMAND"), f"The pool{due}")
        self.assertEqual(walk_text(answer, "COMMAND", "Any of them"), f"Any of them{due}")
        self.assertIn("\n### The quick walk\n", (ROOT / "docs/WORKBENCH.md").read_text())

    def test_refused(self):
        whole = replace(asked(PLAIN, TWO, FROM_TEN_TO_TWENTY), book_bytes=encode_book(PLAIN)[:-1], book=None, by_walk=True)
        self.assertEqual(ask(whole).kind, REFUSED)
        first, second = answer_text(ask(whole)).splitlines()
        self.assertRegex(first, "^refusal 1: the book ends too early: ")
        self.assertRegex(second, "^  byte 25 of the book: ")

    def test_it_takes_no_table(self):
        with mock.patch.object(library, "decide", side_effect=AssertionError):
            for book, question in ((PLAIN, FROM_TEN_TO_NIL), (PLAIN, FROM_TEN_TO_TWENTY), (L, FROM_TEN_TO_TWENTY)):
                self.assertIsNone(ask_next(walked(book, CHAIN, question)))

    def test_rows_and_sums(self):
        self.assertEqual([short_text(walked(book, TWO, FROM_TEN_TO_TWENTY)) for book in (PLAIN, L)], ["does not fit", "not answered"])
        self.assertEqual(sum_text([FITS, NOT_ANSWERED, NOT_ANSWERED]), "3 pools: 1 fits, 2 not answered")
        self.assertEqual(sum_text([NOT_ANSWERED, REFUSED, "not read"]), "3 pools: 0 fit, 1 not answered, 1 refused, 1 not read")


class Json(unittest.TestCase):
    def test_three_cases(self):
        reason = not_plain(L)
        refused = f"the pool may fit or not: {sentence(NOT_PLAIN)}; the first reason: {reason}"
        for book, refusal, verdict, answer, message, plain in (
            (PLAIN, 0, 1, "fits", "", {"holds": True, "reason": ""}),
            (PLAIN, 0, 0, "does not fit", "", {"holds": True, "reason": ""}),
            (L, NOT_PLAIN, 0, "not answered", refused, {"holds": False, "reason": reason}),
        ):
            with self.subTest(answer=answer, plain=plain), saying(verdict, refusal):
                told = walked(book, TWO, FROM_TEN_TO_TWENTY)
                found = result("two.pool", told)
                whole = json.loads(report("b", book, FROM_TEN_TO_TWENTY, False, [found], by_walk=True, plain=report_json.plain(told)))
                self.assertEqual((whole["about"], whole["by"], whole["plain"]), ("whole", "walk", plain))
                self.assertEqual((found["answer"], found["message"], found["refusal"]), (answer, message, refusal))
                self.assertEqual((found["facts"], found["rounds"], found["unfolding"], found["part"]), (0, 0, [], None))
                self.assertIsNone(found["hints"]["part"])
                self.assertEqual(list(found), list(result("two.pool", ask(asked(book, TWO, FROM_TEN_TO_TWENTY)))))

    def test_hints_where_it_does_not_fit(self):
        found = result("two.pool", walked(PLAIN, TWO, Question(0, (10, 5))))
        self.assertEqual(found["hints"]["outside"], [{"argument": 2, "value": 5}])

    def test_whether_the_book_is_plain_is_the_librarys(self):
        """Whatever the workbench's own test says: that only finds the words."""
        for book, refusal, due in (
            (PLAIN, NOT_PLAIN, {"holds": False, "reason": NO_REASON}),
            (L, NOT_PLAIN, {"holds": False, "reason": not_plain(L)}),
            (L, 0, {"holds": True, "reason": ""}),
            (L, 9, None),
            (PLAIN, 7, None),
        ):
            with self.subTest(refusal=refusal, due=due), saying(0, refusal):
                self.assertEqual(report_json.plain(walked(book, TWO, FROM_TEN_TO_TWENTY)), due)
        self.assertIsNone(report_json.plain(ask(asked(PLAIN, TWO, FROM_TEN_TO_TWENTY))))

    def test_bytes_that_only_the_library_reads(self):
        with refusing():
            answer = ask(replace(asked(PLAIN, TWO, FROM_TEN_TO_TWENTY), book_bytes=b"", book=None, by_walk=True))
        self.assertEqual((answer.kind, answer.not_plain, report_json.plain(answer)["holds"]), (NOT_ANSWERED, NO_REASON, False))

    def test_refused(self):
        found = result("p", Answer(replace(asked(L, TWO, FROM_TEN_TO_TWENTY), by_walk=True), Reply(7)))
        self.assertEqual((found["answer"], found["refusal"]), ("refused", 7))


class Command(unittest.TestCase):
    def setUp(self):
        before = os.getcwd()
        os.chdir(ROOT)
        self.addCleanup(os.chdir, before)
        folder = tempfile.TemporaryDirectory()
        self.addCleanup(folder.cleanup)
        self.folder = Path(folder.name)

    def test_statuses(self):
        self.assertEqual([run_inside("ask", "--walk", *row)[0] for row in (FIT, NO_FIT)], [0, 1])
        self.assertEqual([run_inside("ask", *row, "--walk", "--json")[0] for row in (FIT, NO_FIT)], [0, 1])
        with refusing():
            for more in ([], ["--json"]):
                self.assertEqual(run_inside("ask", "--walk", *QUEUE, *more)[0], 2)

    def test_a_pool_that_fits_and_is_not_answered(self):
        """The command offered has the answer."""
        with refusing():
            status, out, said = run_inside("ask", "--walk", *QUEUE)
        self.assertEqual((status, said), (2, ""))
        first, *_, reason, ahead, command, _ = out.decode().splitlines()
        self.assertEqual((first, reason, ahead), ("not answered", f"  {REASON}", "To ask the engine:"))
        self.assertEqual(command, f"  ./shapes ask {QUEUE[0]} {QUEUE[1]} '{QUEUE[2]}'")
        done = subprocess.run(["sh", "-c", command], cwd=ROOT, capture_output=True, check=False, timeout=60)
        self.assertEqual((done.returncode, done.stdout[:5], done.stderr), (0, b"fits\n", b""))

    def test_json_of_a_pool_that_fits_and_is_not_answered(self):
        with refusing():
            whole = json.loads(run_inside("ask", "--walk", *QUEUE, "--json")[1])
        self.assertEqual((whole["about"], whole["by"], whole["plain"]), ("whole", "walk", {"holds": False, "reason": REASON}))
        self.assertEqual([found["answer"] for found in whole["results"]], ["not answered"])

    def test_json_of_whether_the_book_is_plain(self):
        """Known once the walk got so far with one pool; not where each is refused before, or nothing was asked."""
        bad = self.folder / "pool"
        bad.write_bytes(bytes.fromhex("02 14000000 00 0A000000 00"))
        twice = "examples/mistakes/same-address.pool"
        plain, other = {"holds": True, "reason": ""}, {"holds": False, "reason": REASON}
        for arguments, due in (
            ([*FIT], plain),
            ([*NO_FIT], plain),
            ([*QUEUE], other),
            ([FIT[0], str(bad), twice, FIT[1], FIT[2]], plain),
            ([QUEUE[0], QUEUE[1], str(bad), QUEUE[2]], other),
            ([QUEUE[0], str(bad), twice, QUEUE[2]], None),
            ([QUEUE[0], QUEUE[1], "segment(10)"], None),
            ([*FIT, "--part"], None),
        ):
            with self.subTest(arguments=arguments):
                self.assertEqual(json.loads(run_inside("ask", "--walk", "--json", *arguments)[1])["plain"], due)
        self.assertIsNone(json.loads(run_inside("ask", "--json", *QUEUE)[1])["plain"])

    def test_several_pools(self):
        pools = ["examples/segment.pool", "examples/circle.pool", "examples/mistakes/same-address.pool"]
        status, out, said = run_inside("ask", "--walk", FIT[0], *pools, "segment(10, nil)")
        self.assertEqual((status, "is on line 1 already" in said), (2, True))
        rows = out.decode().splitlines()
        self.assertEqual([row.split("   ")[-1].strip() for row in rows[:3]], ["fits", "does not fit", "not read"])
        self.assertEqual(rows[3], "3 pools: 1 fits, 1 does not, 1 not read")
        self.assertRegex(rows[4], "^The walk's no is as strong as the engine's, ")
        self.assertEqual(rows[5:], [f"  ./shapes ask {FIT[0]} {' '.join(pools)} 'segment(10, nil)'"])
        status, out, _ = run_inside("ask", "--walk", FIT[0], *pools[:2], "segment(10, nil)", "--json")
        self.assertEqual((status, [found["answer"] for found in json.loads(out)["results"]]), (1, ["fits", "does not fit"]))

    def test_several_pools_that_fit(self):
        status, out, _ = run_inside("ask", "--walk", FIT[0], FIT[1], FIT[1], FIT[2])
        self.assertEqual((status, out.decode().splitlines()[2:]), (0, ["2 pools: 2 fit"]))

    def test_several_pools_that_are_not_answered(self):
        """Why stands there once."""
        status, out, _ = run_inside("ask", "--walk", QUEUE[0], *[QUEUE[1]] * 3, QUEUE[2])
        rows = out.decode().splitlines()
        self.assertEqual((status, rows[3]), (2, "3 pools: 0 fit, 3 not answered"))
        self.assertEqual([row.split("   ")[-1].strip() for row in rows[:3]], ["not answered"] * 3)
        self.assertRegex(rows[4], "^A pool that is not answered may fit or not: ")
        self.assertEqual((rows[6], len(rows)), (f"  {REASON}", 10))

    def test_what_cannot_be_asked_at_once(self):
        path = self.folder / "unfolding"
        part = "--walk asks about all records: leave out --part, or leave out --walk to ask the engine about some part"
        save = "--walk gives no unfolding to save: leave out --save, or leave out --walk to have one from the engine"
        for options, words in ((["--part"], part), (["--save", str(path)], save), (["--save="], save), (["--part", "--save", str(path)], part)):
            with self.subTest(options=options):
                self.assertEqual(run_inside("ask", "--walk", *FIT, *options), (2, b"", f"shapes: {words}\n"))
                status, out, said = run_inside("ask", "--walk", *FIT, *options, "--json")
                self.assertEqual((status, said), (2, f"shapes: {words}\n"))
                self.assertEqual([(found["answer"], found["message"]) for found in json.loads(out)["results"]], [("not read", words)])
        self.assertFalse(path.exists())

    def test_other_verbs_have_no_walk(self):
        for verb in (["check", *FIT, FIT[1]], ["draw", *FIT, "-o", str(self.folder / "a.dot")]):
            self.assertEqual(run_inside(*verb, "--walk")[:2], (2, b""))

    def test_the_command_offered_whatever_the_files_are_called(self):
        for name in ("plain", "two words", "it's", "--walk", "-"):
            path = self.folder / name
            path.write_text("10: 20\n20: nil\n")
            os.chdir(self.folder)
            book = str(ROOT / FIT[0])
            given = mock.Mock(buffer=BytesIO(path.read_bytes()))
            with self.subTest(name=name), mock.patch.object(sys, "stdin", given):
                status, out, _ = run_inside("ask", "--walk", "--", book, name, "segment(10, nil)")
                self.assertEqual(status, 0)
                os.chdir(ROOT)
                line = out.decode().splitlines()[-1].replace("./shapes", COMMAND)
                done = subprocess.run(["sh", "-c", line], cwd=self.folder, input=path.read_bytes(), capture_output=True, check=False, timeout=60)
                self.assertEqual((done.returncode, done.stdout[:5], done.stderr), (0, b"fits\n", b""))
        path = self.folder / "new\nline"
        path.write_text("10: nil\n")
        self.assertEqual(run_inside("ask", "--walk", FIT[0], str(path), FIT[2])[1].splitlines()[-1], b"  ask the same without --walk")

    def test_refused_bytes(self):
        pool = self.folder / "pool"
        pool.write_bytes(bytes.fromhex("02 14000000 00 0A000000 00"))
        for book in (FIT[0], "house"):
            status, out, said = run_inside("ask", "--walk", book, str(pool), "segment(10, nil)")
            self.assertEqual((status, out[:10], out.count(b"\n"), said), (2, b"refusal 7:", 2, ""))


class Documented(unittest.TestCase):
    """What docs/WORKBENCH.md says about the walk."""

    TEXT = (ROOT / "docs/WORKBENCH.md").read_text()
    SEGMENT = "segment { a = b => segment(a, b) | a != b * a -> c * segment(c, b) => segment(a, b) } ; "
    TREE = "tree { a = nil => tree(a, up) | a != nil * a -> (up, l, r) * tree(l, a) * tree(r, a) => tree(a, up) } ; "

    def verdict(self, book_text: str, pool_text: str, question_text: str, plain: bool = True) -> str:
        """The walk's, which is the engine's, or none where the book is not plain."""
        book, pool = parse_book(book_text, "book"), parse_pool(pool_text, "pool")
        question = parse_question(question_text, book)
        found = walked(book, pool, question).kind
        self.assertEqual(not not_plain(book), plain)
        if plain:
            self.assertEqual(found, ask(asked(book, pool, question)).kind)
        return found

    def test_the_answer_shown(self):
        block = self.TEXT.split("### The quick walk\n\n")[1].split("\n\n")[0]
        with contextlib.chdir(ROOT):
            self.assertEqual(run_inside("ask", "--walk", *QUEUE)[1].decode(), textwrap.dedent(block) + "\n")

    def test_a_call_without_a_cell(self):
        rule = "a -> (nil, l, r) * tree(l, a) * tree(r, a) => root(a)"
        self.assertIn(f"`{rule}`", self.TEXT)
        pool = "10: nil, 20, 30\n20: 10, nil, nil\n30: 10, nil, nil"
        self.assertEqual(self.verdict(f"{self.TREE} root {{ tree(a, nil) => root(a) }}", pool, "root(10)", plain=False), NOT_ANSWERED)
        self.assertEqual(self.verdict(self.TREE, pool, "tree(10, nil)"), FITS)
        for root, due in ((10, FITS), (20, DOES_NOT_FIT)):
            self.assertEqual(self.verdict(f"{self.TREE} root {{ {rule} }}", pool, f"root({root})"), due)

    def test_a_variable_that_is_not_fixed(self):
        """By either of the ways that the table names, and a name that nothing uses."""
        lists = "list { a = nil => list(a) | a != nil * a -> n * list(n) => list(a) } ; "
        rule = "exists c: a -> b * list(b) * list(c) => and_another(a)"
        for words in (rule, "and_another(a, c)", "a -> (b, c)"):
            self.assertIn(f"`{words}`", self.TEXT)
        pool = "10: 20\n20: nil\n30: nil"
        self.assertEqual(self.verdict(f"{lists} and_another {{ {rule} }}", pool, "and_another(10)", plain=False), NOT_ANSWERED)
        by_argument = f"{lists} and_another {{ {rule.replace('exists c: ', '').replace('(a)', '(a, c)')} }}"
        for other, due in ((30, FITS), ("nil", DOES_NOT_FIT)):
            self.assertEqual(self.verdict(by_argument, pool, f"and_another(10, {other})"), due)
        by_field = f"{lists} and_another {{ {rule.replace('exists c: ', '').replace('-> b', '-> (b, c)')} }}"
        self.assertEqual(self.verdict(by_field, "10: 20, 30\n20: nil\n30: nil", "and_another(10)"), FITS)
        self.assertEqual(reason("p { exists z: a = nil => p(a) }"), "variable z of rule 1 of p (line 1) is not fixed")
        self.assertEqual(reason("p { a = nil => p(a) }"), "")

    def test_rules_that_the_head_keeps_apart(self):
        first, second = "a = nil => list(a)", "a -> next * list(next) => list(a)"
        self.assertIn(f"`{first}` with `{second}`: both are met by `list(nil)`", self.TEXT)
        self.assertRegex(reason(f"list {{ {first} | {second} }}"), r"by list\(nil\)$")
        self.assertEqual(self.verdict(f"list {{ {first} | a != nil * {second} }}", "10: 20\n20: nil", "list(10)"), FITS)

    def test_rules_that_differ_in_a_field(self):
        rule = "q -> (h, t) * body(h, t) => queue(q)"
        self.assertIn(f"`{rule}`", self.TEXT)
        cases = "%sh = nil * t = nil => %s | %sh != nil * t -> nil * segment(h, t) => %s"
        once = f"queue {{ {cases % ('q -> (h, t) * ', 'queue(q)', 'q -> (h, t) * ', 'queue(q)')} }}"
        handed_on = f"queue {{ {rule} }} ; body {{ {cases % ('', 'body(h, t)', '', 'body(h, t)')} }}"
        fit = "1: nil, nil", "1: 2, 2\n2: nil", "1: 2, 3\n2: 3\n3: nil"
        for pool, due in (*((each, FITS) for each in fit), ("1: 2, nil\n2: nil", DOES_NOT_FIT)):
            self.assertEqual(self.verdict(self.SEGMENT + handed_on, pool, "queue(1)"), due)
            self.assertEqual(self.verdict(self.SEGMENT + once, pool, "queue(1)", plain=False), NOT_ANSWERED)

    def test_rules_that_differ_in_a_code(self):
        cases = "a != nil * a -> 0x51, n * list(n) => list(a)", "a != nil * a -> 0x54, n * list(n) => list(a)"
        self.assertRegex(reason(f"list {{ a = nil => list(a) | {cases[0]} | {cases[1]} }}"), r"rules 2 and 3 of list .* for example by list\(1\)$")
        self.assertIn("`chain(a, type)` in `examples/plain/types.book`", self.TEXT)
        book = (ROOT / "examples/plain/types.book").read_text()
        for code, due in (("0x51", FITS), ("0x54", DOES_NOT_FIT), ("nil", DOES_NOT_FIT)):
            self.assertEqual(self.verdict(book, "10: 0x51, 20\n20: 0x51, nil", f"chain(10, {code})"), due)

    def test_rules_that_differ_in_a_size(self):
        self.assertRegex(reason("p { a -> n => p(a) | a -> (n, m) => p(a) }"), r"can both be met, for example by p\(1\)$")

    def test_a_ring(self):
        ring = "ring { a -> n * segment(n, a) => ring(a) }"
        self.assertIn(f"`{ring}`", self.TEXT)
        circle = "10: 20\n20: 10"
        self.assertEqual(self.verdict(self.SEGMENT + ring, circle, "segment(10, 10)"), DOES_NOT_FIT)
        self.assertEqual(self.verdict(self.SEGMENT + ring, circle, "ring(10)"), FITS)
        self.assertEqual(self.verdict(self.SEGMENT + ring, "10: 10", "ring(10)"), FITS)
        self.assertEqual(ask(asked(L, TWO, Question(0, (10, 10)))).kind, FITS)

    def test_rules_that_the_question_never_comes_to(self):
        book = f"{self.TREE} other {{ tree(a, nil) => other(a) }}"
        self.assertEqual(self.verdict(book, "10: nil, nil, nil\n20: nil, nil, nil", "tree(10, nil)", plain=False), NOT_ANSWERED)


def plain_book(chance: Random) -> Book:
    """Two predicates, each with a case without records and one or two with a cell, which its first condition keeps apart."""
    predicates = (Predicate("p", 2), Predicate("q", 1))
    constants = chance.choice(((), (), (3, 90, 3, 0)))
    fixed = [NIL, *range(FIRST_CONSTANT, FIRST_CONSTANT + len(constants))]
    rules = []
    for head, predicate in enumerate(predicates):
        first, second = (0, chance.choice((1, NIL)) if head == 0 else NIL), (1, chance.choice(fixed))
        same, other = Condition(EQUAL, *first), Condition(UNEQUAL, *first)
        rules.append(Rule(head, tuple("ab"[: predicate.arguments]), (same,)))
        # Two longer cases are told apart by the second argument.
        longer = [(other, Condition(kind, *second)) for kind in (EQUAL, UNEQUAL)] if head == 0 and chance.randrange(2) else [(other,)]
        for conditions in longer:
            bound = chance.randrange(1, 3)
            variables = tuple("abcd"[: predicate.arguments + bound])
            in_fields = [*range(predicate.arguments, len(variables))]
            terms = [*range(len(variables)), *chance.sample(fixed, min(2, len(fixed)))]
            fields = chance.sample(in_fields + chance.choices(terms, k=2 - bound), 2)
            calls = []
            for number in chance.choices((0, 1), k=chance.randrange(3)):
                calls.append(Call(number, tuple(chance.choices(terms + 2 * in_fields, k=predicates[number].arguments))))
            rules.append(Rule(head, variables, conditions, (Cell(0, tuple(fields)),), tuple(calls)))
    return Book(predicates, tuple(rules), constants)


class BesideTheEngine(unittest.TestCase):
    def verdicts(self, book: Book, pool: Pool, question: Question) -> tuple[int, int]:
        """The walk's and the engine's, of a plain book."""
        blocks = encode_book(book), encode_pool(pool), encode_question(question)
        refusal, walked = library.walk(*blocks)
        engine = library.decide(*blocks, 65_535)
        self.assertEqual((refusal, engine.refusal), (0, 0))
        return walked, engine.verdict

    def fitting(self, book: Book, pool: Pool, question: Question) -> Pool | None:
        """The part that the engine finds, as a pool of its own, since few whole ones fit."""
        part = ask(asked(book, pool, question, some_part=True)).part
        return Pool(tuple(record for record in pool.records if record.address in part.records)) if part else None

    def test_plain_books(self):
        """The verdicts are the same for books that the workbench takes for plain."""
        chance = Random(11)
        fits: Counter[int] = Counter()
        for case in range(2000):
            book, pool = (plain_book(chance), some_pool(chance)) if case % 3 else (PLAIN, some_chains(chance))
            question = Question(0, tuple(chance.choices([0, *(record.address for record in pool.records)], k=2)))
            self.assertEqual(not_plain(book), "")
            for each in filter(None, (pool, self.fitting(book, pool, question))):
                with self.subTest(case=case, records=len(each.records)):
                    walked, engine = self.verdicts(book, each, question)
                    self.assertEqual(walked, engine)
                    fits[len(each.records) if engine else -1] += 1
        self.assertTrue(all(fits[records] > 5 for records in range(-1, 5)), fits)

    def test_other_books_are_refused(self):
        chance = Random(13)
        for case in range(600):
            for book in (some_book(chance), H):
                with self.subTest(case=case):
                    blocks = encode_book(book), encode_pool(some_pool(chance)), encode_question(Question(0, tuple(chance.choices(range(7), k=2))))
                    self.assertEqual(library.walk(*blocks), (NOT_PLAIN, 0))
                    self.assertEqual(library.decide(*blocks, 65_535).refusal, 0)

    def test_its_refusals_are_the_engines(self):
        for blocks in repository_blocks():
            with self.subTest(blocks=[block.hex(" ") for block in blocks]):
                refusal, walked = library.walk(*blocks)
                engine = library.decide(*blocks, 65_535)
                # Where the engine's table is too short, the walk answers all the same.
                read = engine.refusal in (0, 11)
                self.assertEqual(refusal, (NOT_PLAIN if not_plain(explain_book(blocks[0])) else 0) if read else engine.refusal)
                if not (refusal or engine.refusal):
                    self.assertEqual(walked, engine.verdict)
