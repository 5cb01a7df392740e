import json
import unittest

from workbench.asking import ask, ask_next
from workbench.book_text import parse_book
from workbench.library import ROOT
from workbench.mistake import Mistake
from workbench.model import Pool, Question, Record
from workbench.pool_text import parse_pool
from workbench.report_json import not_read, report, result
from workbench.tests.engine_samples import FROM_TEN_TO_TEN, FROM_TEN_TO_TWENTY, H, L, TWO
from workbench.tests.test_render import asked

NO_HINTS = {"held": [], "unreached": [], "dangling": [], "outside": [], "part": None}


class Report(unittest.TestCase):
    def test_fits(self):
        found = result("two.pool", ask(asked(L, TWO, FROM_TEN_TO_TEN)))
        whole = json.loads(report("L.book", L, FROM_TEN_TO_TEN, False, [found]))
        self.assertEqual(list(whole), ["format", "book", "question", "about", "by", "plain", "results"])
        self.assertEqual((whole["format"], whole["book"], whole["about"]), (2, "L.book", "whole"))
        self.assertEqual((whole["by"], whole["plain"]), ("engine", None))
        self.assertEqual(whole["question"], {"predicate": "segment", "values": [10, 10]})
        self.assertEqual(whole["results"], [found])
        lines = found.pop("unfolding")
        self.assertEqual(
            found,
            {"pool": "two.pool", "answer": "fits", "refusal": 0, "message": "", "facts": 10, "rounds": 3, "part": None, "hints": NO_HINTS},
        )
        self.assertEqual(len(lines), 3)
        self.assertEqual(
            lines[1],
            {
                "line": 2,
                "predicate": "segment",
                "values": [20, 10],
                "records": [20],
                "rule": 2,
                "book_line": 4,
                "takes": [20],
                "variables": [{"name": "a", "value": 20}, {"name": "b", "value": 10}, {"name": "c", "value": 10}],
                "calls": [1],
            },
        )

    def test_does_not_fit(self):
        pool = Pool((Record(10, (30,)), Record(20, (30,)), Record(30, (7,)), Record(40, ())))
        found = result("p", ask(asked(H, pool, Question(2, (10, 20)))))
        self.assertEqual((found["answer"], found["unfolding"]), ("does not fit", []))
        self.assertEqual(
            found["hints"],
            {
                "held": [{"record": 30, "by": [{"record": 10, "field": 1}, {"record": 20, "field": 1}]}],
                "unreached": [{"record": 40, "by": []}],
                "dangling": [{"record": 30, "field": 1, "value": 7, "asked": False}],
                "outside": [],
                "part": None,
            },
        )

    def test_numbers_of_the_book(self):
        book = parse_book((ROOT / "examples/plain/types.book").read_text(), "types.book")
        fit = parse_pool((ROOT / "examples/types.pool").read_text(), "types.pool")
        found = result("types.pool", ask(asked(book, fit, Question(0, (0x10,)))))
        last = found["unfolding"][-1]
        self.assertEqual((found["answer"], last["predicate"], last["values"], last["book_line"]), ("fits", "desk", [0x10], 2))
        called = [found["unfolding"][number - 1] for number in last["calls"]]
        self.assertEqual([(line["predicate"], line["values"]) for line in called], [("chain", [0x20, 0x51]), ("chain", [0x40, 0x54])])
        mixed = parse_pool((ROOT / "examples/types-mixed.pool").read_text(), "types-mixed.pool")
        found = result("types-mixed.pool", ask(asked(book, mixed, Question(0, (0x10,)))))
        self.assertEqual((found["answer"], found["hints"]), ("does not fit", NO_HINTS))
        found = result("types-mixed.pool", ask(asked(book, mixed, Question(1, (0x10, 0x99)))))
        self.assertEqual(found["hints"], NO_HINTS | {"outside": [{"argument": 2, "value": 0x99}]})

    def test_a_part(self):
        found = result("two.pool", ask(asked(L, TWO, FROM_TEN_TO_TWENTY, some_part=True)))
        self.assertEqual(json.loads(report("L.book", L, FROM_TEN_TO_TWENTY, True, [found]))["about"], "part")
        self.assertEqual((found["answer"], found["part"], found["hints"]), ("fits", {"records": [10], "left_out": [20]}, NO_HINTS))
        self.assertEqual([line["records"] for line in found["unfolding"]], [[], [10]])

    def test_no_part(self):
        found = result("two.pool", ask(asked(L, TWO, Question(0, (10, 5)), some_part=True)))
        self.assertEqual((found["answer"], found["part"], found["unfolding"]), ("does not fit", None, []))
        self.assertEqual(found["hints"], NO_HINTS | {"outside": [{"argument": 2, "value": 5}]})

    def test_a_part_where_the_whole_does_not_fit(self):
        for question, due in (
            (FROM_TEN_TO_TWENTY, {"fits": True, "records": [10], "left_out": [20]}),
            (Question(0, (5, 5)), {"fits": True, "records": [], "left_out": [10, 20]}),
            (Question(0, (10, 5)), {"fits": False, "records": [], "left_out": []}),
        ):
            with self.subTest(question=question):
                answer = ask(asked(L, TWO, question))
                found = result("two.pool", answer, ask_next(answer))
                self.assertEqual((found["answer"], found["part"], found["hints"]["part"]), ("does not fit", None, due))

    def test_refused_and_not_read_have_the_same_keys(self):
        fits = result("p", ask(asked(L, TWO, FROM_TEN_TO_TEN)))
        mistaken = not_read("p", Mistake("there is no such file", "p"))
        self.assertEqual((list(mistaken), list(mistaken["hints"])), (list(fits), list(fits["hints"])))
        self.assertEqual((mistaken["answer"], mistaken["message"]), ("not read", "p: there is no such file"))

    def test_no_question(self):
        self.assertIsNone(json.loads(report("b", None, None, False, []))["question"])
