"""What a text of a book means, and how a book is written."""

import unittest
from dataclasses import replace
from textwrap import indent

from workbench.book_bytes import decode_book, encode_book
from workbench.book_text import parse_book, write_book, write_case
from workbench.model import EQUAL, NIL, UNEQUAL, Book, Call, Cell, Condition, Predicate, Rule
from workbench.tests.samples import HOUSE, ROOT

HOUSE_TEXT = """segment {
  a = b => segment(a, b) |
  a -> c * segment(c, b) => segment(a, b)
} ;
ring { a -> b * segment(b, a) => ring(a) } ;
queue_and_free { segment(a, nil) * segment(b, nil) => queue_and_free(a, b) } ;
"""


def one(case: str) -> Rule:
    """The only rule of a book."""
    return parse_book(f"p {{ {case} }}", "file").rules[0]


class Reading(unittest.TestCase):
    def test_the_house_book(self) -> None:
        book = parse_book("# H\n" + HOUSE_TEXT, "file")
        self.assertEqual(encode_book(book), HOUSE)
        self.assertEqual(book.predicates, (Predicate("segment", 2), Predicate("ring", 1), Predicate("queue_and_free", 2)))
        self.assertEqual([rule.line for rule in book.rules], [3, 4, 6, 7])
        self.assertEqual(book.rules[1].variables, ("a", "b", "c"))

    def test_the_house_book_of_the_examples(self) -> None:
        text = (ROOT / "examples" / "house.book").read_text(encoding="utf-8")
        self.assertEqual(write_book(parse_book(text, "file")), HOUSE_TEXT)

    def test_atoms(self) -> None:
        rule = one("emp * x = nil * y -> nil, z * nil != x * z -> () * w -> (x) * p(z, nil) * emp => p(x, y)")
        self.assertEqual(rule.variables, ("x", "y", "z", "w"))
        self.assertEqual(rule.conditions, (Condition(EQUAL, 0, NIL), Condition(UNEQUAL, NIL, 0)))
        self.assertEqual(rule.cells, (Cell(1, (NIL, 2)), Cell(2, ()), Cell(3, (0,))))
        self.assertEqual(rule.calls, (Call(0, (2, NIL)),))

    def test_no_atom(self) -> None:
        self.assertEqual(one("emp => p()"), Rule(0, (), line=1))

    def test_bound_variables_by_appearance(self) -> None:
        self.assertEqual(one("d -> c, a * b = e => p(a, b)").variables, ("a", "b", "d", "c", "e"))

    def test_listed_variables_come_first(self) -> None:
        self.assertEqual(one("exists e, f, c: d -> c, a * b = e => p(a, b)").variables, ("a", "b", "e", "f", "c", "d"))

    def test_a_name_can_be_predicate_and_variable(self) -> None:
        self.assertEqual(one("p -> q * p(p) => p(p)"), Rule(0, ("p", "q"), (), (Cell(0, (1,)),), (Call(0, (0,)),), 1))

    def test_a_case_starts_on_the_line_of_its_first_word(self) -> None:
        book = parse_book("p { # one\n\n  exists c:\n a = c\n => p(a) |\n\n\n a = a => p(a) }", "file")
        self.assertEqual([rule.line for rule in book.rules], [3, 8])

    def test_blocks_again_and_declared_ones(self) -> None:
        text = "q() { } ; p { q() => p(a) } ; q { emp => q() } ; p(b) { r(b, b) => p(b) } ; r(x, y) { }"
        book = parse_book(text, "file")
        self.assertEqual([(each.name, each.arguments) for each in book.predicates], [("q", 0), ("p", 1), ("r", 2)])
        self.assertEqual([rule.predicate for rule in book.rules], [1, 0, 1])

    def test_eight_names_are_read(self) -> None:
        self.assertEqual(len(one("a = b * c = d * e = f => p(g, h)").variables), 8)

    def test_each_limit_is_read(self) -> None:
        case = " * ".join(["a = b"] * 8 + ["a -> b, c, d, nil"] * 4 + ["p(a, b, c, d)"] * 3) + " => p(e, f, g, h)"
        text = "p { " + " | ".join([case] * 16) + " } ; " + " ; ".join(f"q{number}() {{ }}" for number in range(7))
        book = parse_book(text, "file")
        self.assertEqual((len(book.predicates), len(book.rules)), (8, 16))
        last = book.rules[15]
        found = (len(last.variables), len(last.conditions), len(last.cells), len(last.cells[3].fields), len(last.calls))
        self.assertEqual(found, (8, 8, 4, 4, 3))


class Numbers(unittest.TestCase):
    def test_in_every_place_of_a_term(self) -> None:
        book = parse_book("p { 7 = a * a != 8 * a -> 0x07, nil * p(9) * 7 = 8 => p(a) }", "file")
        self.assertEqual((book.constants, book.spellings), ((7, 8, 9), ()))
        rule = book.rules[0]
        self.assertEqual(rule.conditions, (Condition(EQUAL, 128, 0), Condition(UNEQUAL, 0, 129), Condition(EQUAL, 128, 129)))
        self.assertEqual((rule.cells, rule.calls), ((Cell(0, (128, NIL)),), (Call(0, (130,)),)))

    def test_by_first_occurrence_in_the_text(self) -> None:
        book = parse_book("p { a -> 3, 1 * a = 4 => p(a) | a = 0x1 * a = 5 => p(a) } ; q { p(9) * p(4) => q() }", "file")
        self.assertEqual(book.constants, (3, 1, 4, 5, 9))

    def test_0_is_nil_and_takes_no_constant(self) -> None:
        for zero in ("0", "0x0", "0X000", "0xFFFFFFFF", "4294967295"):
            book = parse_book(f"p {{ a = {zero} * a -> {zero} * p({zero}) => p(a) }}", "file")
            self.assertEqual(encode_book(book), encode_book(parse_book("p { a = nil * a -> nil * p(nil) => p(a) }", "file")))
        self.assertEqual(write_book(book), "p { a = nil * a -> nil * p(nil) => p(a) } ;\n")

    def test_the_largest(self) -> None:
        self.assertEqual(parse_book("p { a = 4294967294 * a != 0xFFFFFFFE => p(a) }", "file").constants, (2**32 - 2,))

    def test_eight_values_are_read(self) -> None:
        self.assertEqual(parse_book("p { a -> 1, 2, 3, 4 * b -> 5, 6, 7, 8 * a = 0 * b = 0x8 => p(a, b) }", "file").constants, tuple(range(1, 9)))

    def test_as_they_were_first_written(self) -> None:
        text = "p { a -> 0x07, 8 => p(a) | a -> 7, 0x8 => p(a) }"
        self.assertEqual(write_book(parse_book(text, "file")), "p {\n  a -> 0x07, 8 => p(a) |\n  a -> 0x07, 8 => p(a)\n} ;\n")
        self.assertEqual(write_book(decode_book(encode_book(parse_book(text, "file")))), "p0 {\n  a -> 7, 8 => p0(a) |\n  a -> 7, 8 => p0(a)\n} ;\n")

    def test_a_list(self) -> None:
        """It comes first, and further numbers after it."""
        book = parse_book("constants 7, 0x08, 7, nil, 0 ; p { a = 8 * a = 9 * a = @3 * a = @4 * a = 0 * a = 7 => p(a) }", "file")
        self.assertEqual((book.constants, book.spellings), ((7, 8, 7, 0, 0, 9), ((8, "0x08"),)))
        self.assertEqual([condition.right for condition in book.rules[0].conditions], [129, 133, 130, 131, NIL, 128])
        written = "constants 7, 0x08, 7, nil, nil, 9 ;\np { a = 0x08 * a = 9 * a = @3 * a = @4 * a = nil * a = 7 => p(a) } ;\n"
        self.assertEqual(write_book(book), written)
        self.assertEqual(parse_book(written, "file"), replace(book, rules=(replace(book.rules[0], line=2),)))

    def test_the_list_of_the_documents(self) -> None:
        """It is what `decode` writes."""
        text = "constants 7, 8, 7, nil ;\np0 { a -> @3, 8 => p0(a) } ;\n"
        self.assertIn(indent(text, "    "), (ROOT / "docs/WORKBENCH.md").read_text())
        book = parse_book(text, "file")
        self.assertEqual((book.constants, book.rules[0].cells), ((7, 8, 7, 0), (Cell(0, (130, 129)),)))
        self.assertEqual(write_book(decode_book(encode_book(book))), text)

    def test_a_list_only_where_it_is_needed(self) -> None:
        rows = [
            ((7, 8), (128, 129), "p { a = 7 * a = 8 => p(a) } ;\n"),
            ((7, 8), (129, 128), "constants 7, 8 ;\np { a = 8 * a = 7 => p(a) } ;\n"),
            ((7, 8), (128, 128), "constants 7, 8 ;\np { a = 7 * a = 7 => p(a) } ;\n"),
            ((7,), (), "constants 7 ;\np { emp => p(a) } ;\n"),
            ((7, 7), (128, 129), "constants 7, 7 ;\np { a = 7 * a = @2 => p(a) } ;\n"),
            ((0,), (NIL, 128), "constants nil ;\np { a = nil * a = @1 => p(a) } ;\n"),
        ]
        for constants, terms, text in rows:
            rule = Rule(0, ("a",), tuple(Condition(EQUAL, 0, term) for term in terms))
            book = Book((Predicate("p", 1),), (rule,), constants)
            self.assertEqual(write_book(book), text)
            self.assertEqual(encode_book(parse_book(text, "file")), encode_book(book))

    def test_a_predicate_may_be_called_constants(self) -> None:
        for text in ("constants { constants(7) => constants(a) }", "constants(a) { }", "p() { } ; constants { emp => constants() }"):
            book = parse_book(text, "file")
            self.assertEqual(encode_book(parse_book(write_book(book), "file")), encode_book(book))
        self.assertEqual(parse_book("constants 7 ; constants { emp => constants() }", "file").constants, (7,))


class Writing(unittest.TestCase):
    def test_the_house_book_from_bytes(self) -> None:
        text = HOUSE_TEXT.replace("queue_and_free", "p2").replace("segment", "p0").replace("ring", "p1")
        self.assertEqual(write_book(decode_book(HOUSE)), text)

    def test_the_house_book_from_text(self) -> None:
        self.assertEqual(write_book(parse_book(HOUSE_TEXT, "file")), HOUSE_TEXT)

    def test_interleaved_rules_and_predicates_without_rules(self) -> None:
        book = decode_book(bytes.fromhex("04 01 00 02 04 00 03  01 00 00 00 00  00 00 00 00 00  01 00 00 00 00"))
        text = "p0(a) { } ;\np1 { emp => p1() } ;\np0 { emp => p0(a) } ;\np1 { emp => p1() } ;\np2(a, b) { } ;\np3(a, b, c, d) { } ;\n"
        self.assertEqual(write_book(book), text)

    def test_a_list_only_where_it_is_needed(self) -> None:
        rule = Rule(0, ("a", "b", "c"), (), (Cell(0, (1, 2)),))
        book = Book((Predicate("p", 1),), (rule,))
        self.assertEqual(write_case(rule, book), "a -> b, c => p(a)")
        swapped = Rule(0, ("a", "b", "c"), (), (Cell(0, (2, 1)),))
        self.assertEqual(write_case(swapped, book), "exists b, c: a -> c, b => p(a)")
        unused = Rule(0, ("a", "b"), (), (Cell(0, ()),))
        self.assertEqual(write_case(unused, book), "exists b: a -> () => p(a)")

    def test_a_long_case_has_its_own_line(self) -> None:
        book = parse_book("p { " + " * ".join(["a != b"] * 8) + " * a -> a, a, a, a * b -> b, b, b, b => p(a, b) }", "file")
        self.assertEqual([len(line) > 50 for line in write_book(book).split("\n")], [False, True, False, False])


if __name__ == "__main__":
    unittest.main()
