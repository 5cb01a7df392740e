import unittest

from workbench.book_text import parse_book
from workbench.library import ROOT
from workbench.notes import notes


def noted(case: str) -> list[str]:
    return notes(parse_book(f"q {{\n  emp => q(a, b) |\n  {case} }}", "f"), "f")


class Notes(unittest.TestCase):
    def test_a_misspelt_name(self):
        expected = "f:3: note: next stands once in this case, so any value that meets it will do: did you mean nxt? Else write exists next: in front if it is meant"
        self.assertEqual(noted("a -> nxt * q(next, b) => q(a, b)"), [expected])

    def test_a_name_that_is_like_no_other(self):
        expected = "f:3: note: other stands once in this case, so any value that meets it will do: write exists other: in front if it is meant"
        self.assertEqual(noted("a != other => q(a, b)"), [expected])

    def test_each_name_once(self):
        self.assertEqual(len(noted("q(c, d) * q(e, d) => q(a, b)")), 2)

    def test_what_is_no_slip(self):
        for case in (
            "q(c, c) => q(a, b)",  # twice
            "q(c, nil) * c != nil => q(a, b)",
            "a -> c => q(a, b)",  # a field that may be any value
            "c -> a => q(a, b)",
            "q(a, nil) => q(a, b)",  # an argument, and nil
            "q(a, 7) * b != 0x08 => q(a, b)",  # numbers
            "exists c: emp => q(a, b)",
            "exists other: a != other => q(a, b)",  # it is meant
        ):
            with self.subTest(case=case):
                self.assertEqual(noted(case), [])

    def test_the_examples_have_none(self):
        for path in sorted((ROOT / "examples").glob("*.book")):
            with self.subTest(book=path.name):
                self.assertEqual(notes(parse_book(path.read_text(), path.name), path.name), [])
