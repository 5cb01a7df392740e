"""Plain books, and books that miss one of the three sentences by a little."""

import unittest
from collections.abc import Iterator
from dataclasses import replace
from itertools import product
from random import Random

from workbench.book_bytes import decode_book, encode_book
from workbench.book_text import parse_book
from workbench.library import ROOT
from workbench.model import EQUAL, FIRST_CONSTANT, NIL, UNEQUAL, Book, Cell, Condition, Predicate, Rule, fixed_value, is_variable
from workbench.plain import fixed_terms, met_by_both, names_apart, not_plain
from workbench.sources import read_book
from workbench.tests.engine_samples import H, L, PLAIN, S


def reason(text: str) -> str:
    return not_plain(parse_book(text, "book"))


# Equal ones, 0 and two values, which are the first numbers that would be tried.
CONSTANTS = (1, 2, 1, 0)


def some_rule(chance: Random, arguments: int, bound: int, constants: int = 0) -> Rule:
    """With a few conditions over its variables, nil and so many constants, and cells of any of them."""
    variables = arguments + bound
    terms = [*range(variables), *range(FIRST_CONSTANT, FIRST_CONSTANT + constants), NIL]
    conditions = [Condition(chance.randrange(2), *chance.choices(terms, k=2)) for _ in range(chance.randrange(4))]
    cells = [Cell(chance.randrange(variables), tuple(chance.choices(terms, k=2))) for _ in range(chance.randrange(3) if variables else 0)]
    return Rule(0, tuple("abcdefgh"[:variables]), tuple(conditions), tuple(cells))


class Books(unittest.TestCase):
    def test_samples(self):
        self.assertEqual(not_plain(PLAIN), "")
        both = "the conditions of rules 1 and 2 of segment (lines 3 and 4) can both be met, for example by segment(1, 1)"
        self.assertEqual(not_plain(L), both)
        self.assertEqual(not_plain(H), "rule 4 of queue calls segment and has no cell")
        self.assertEqual(not_plain(S), "rule 1 of P calls Q and has no cell")

    def test_examples(self):
        books = {str(path.relative_to(ROOT / "examples")): path for path in (ROOT / "examples").rglob("*.book") if "mistakes" not in path.parts}
        plain = [name for name, path in sorted(books.items()) if not not_plain(read_book(str(path))[0])]
        self.assertEqual(plain, [f"plain/{name}.book" for name in ("dll", "list", "lists", "parents", "segment", "tree", "types")])

    def test_near_misses_miss_one_sentence(self):
        """Each misses another one, and without the rule named there the rest is plain."""
        words = []
        for path in sorted((ROOT / "examples/near-misses").glob("*.book")):
            book = read_book(str(path))[0]
            words.append(not_plain(book).split(" of ")[0])
            self.assertEqual(not_plain(replace(book, rules=book.rules[:-1])), "")
        self.assertEqual(words, ["the conditions", "rule 3", "variable c"])

    def test_the_first_sentence_comes_first(self):
        text = "p { z != a => p(a) | emp => p(a) | %s => p(a) }"
        self.assertRegex(reason(text % "p(a)"), "^rule 3 of p .* has no cell$")
        self.assertRegex(reason(text % "emp"), "^variable z of rule 1 of p .* is not fixed$")
        self.assertRegex(reason(text.replace("z", "nil") % "emp"), "^the conditions of rules 1 and 2 of p .* p\\(1\\)$")

    def test_lines(self):
        self.assertIn("rules 1 and 2 of p (lines 2 and 4) ", reason("p {\nemp => p(a)\n|\nemp => p(a) }"))
        self.assertIn("rules 1 and 2 of p (line 1) ", reason("p { emp => p(a) | emp => p(a) }"))
        self.assertIn("rules 1 and 2 of p0 can ", not_plain(decode_book(encode_book(L))))

    def test_a_long_name_is_shortened(self):
        self.assertLess(len(reason(f"{'p' * 1000} {{ emp => {'p' * 1000}({'a' * 1000}) | emp => {'p' * 1000}(a) }}")), 200)

    def test_no_rules(self):
        self.assertEqual(reason("p(a) { }"), "")


class Calls(unittest.TestCase):
    def test_a_rule_with_calls_has_a_cell(self):
        self.assertEqual(reason("p { q() => p() } ; q { emp => q() }"), "rule 1 of p (line 1) calls q and has no cell")
        self.assertEqual(reason("p { a -> a * q() => p(a) } ; q { emp => q() }"), "")
        # A condition is no cell, whatever it says.
        self.assertEqual(reason("p { a != a * p(a) => p(a) }"), "rule 1 of p (line 1) calls p and has no cell")

    def test_a_rule_without_calls_need_not(self):
        self.assertEqual(reason("p { a = nil => p(a) }"), "")
        self.assertEqual(reason("p { emp => p() }"), "")


class Variables(unittest.TestCase):
    def is_fixed(self, atoms: str) -> None:
        with self.subTest(atoms=atoms):
            self.assertEqual(reason(f"p {{ {atoms} => p(a, b) }}"), "")

    def is_open(self, atoms: str, name: str = "z") -> None:
        with self.subTest(atoms=atoms):
            self.assertEqual(reason(f"p {{ {atoms} => p(a, b) }}"), f"variable {name} of rule 1 of p (line 1) is not fixed")

    def test_by_head_nil_or_field(self):
        for atoms in ("emp", "a != b", "z = nil", "nil = z", "z = a", "b = z", "a -> z", "a -> (nil, a, z)", "b -> (z, z)"):
            self.is_fixed(atoms)

    def test_by_a_constant(self):
        for atoms in ("z = 7", "0x07 = z", "z = 0", "y = 7 * z = y", "z = 7 * z = 8", "y = 7 * y -> z"):
            self.is_fixed(atoms)
        self.is_open("exists z: z != 7")
        self.is_open("exists z: 7 = 7 * a = 8")
        self.is_open("z -> 7")
        self.is_open("exists z: a -> b * p(z, 7)")

    def test_by_chains_either_way_and_in_any_order(self):
        for atoms in (
            "x = a * y = x * z = y",
            "z = y * y = x * x = a",
            "y = z * x = y * a = x",
            "y = x * z = x * b = y",
            "x = y * z = y * x = nil",
        ):
            self.is_fixed(atoms)

    def test_by_fields_of_fields(self):
        for atoms in ("a -> y * y -> z", "y -> z * a -> y", "a -> x * x = y * y -> z", "z -> y * x = y * x = z * z = nil", "x = a * x -> z"):
            self.is_fixed(atoms)

    def test_nowhere_used(self):
        self.is_open("exists z: emp")
        self.is_open("exists z: a -> b")

    def test_only_in_an_inequality_or_a_call(self):
        self.is_open("exists z: z != a")
        self.is_open("exists z: z != nil * a = b")
        self.is_open("exists z: a -> b * p(z, a)")

    def test_equal_to_open_ones(self):
        self.is_open("z = z")
        self.is_open("z = y * y = z * a = b")
        self.is_open("z = y * y != a")

    def test_fields_of_an_open_address(self):
        self.is_open("z -> a")
        self.is_open("exists z, y: z -> y")
        self.is_open("exists z, y: z -> y * y -> z")
        # Its field is fixed, and that does not lead back to the address.
        self.is_open("exists z, y: z -> y * a -> y")
        self.is_open("x -> z * x != nil", "x")

    def test_a_contradiction_fixes_nothing(self):
        self.is_open("exists z: a != a")
        self.is_open("exists z: a = nil * a != nil * a -> a")

    def test_the_first_of_several(self):
        self.is_open("exists y, z: a -> x * y != z", "y")

    def test_no_order_and_no_side_matters(self):
        chance = Random(3)
        for _ in range(500):
            arguments = chance.randrange(3)
            rule = some_rule(chance, arguments, chance.randrange(1, 5), chance.randrange(3))
            turned = [replace(each, left=each.right, right=each.left) for each in chance.sample(rule.conditions, len(rule.conditions))]
            other = replace(rule, conditions=tuple(turned), cells=tuple(chance.sample(rule.cells, len(rule.cells))))
            self.assertEqual(fixed_terms(rule, arguments), fixed_terms(other, arguments))


class Pairs(unittest.TestCase):
    def apart(self, first: str, second: str) -> None:
        for one, other in ((first, second), (second, first)):
            with self.subTest(one=one, other=other):
                self.assertEqual(reason(f"p {{ {one} => p(a, b, c) | {other} => p(a, b, c) }}"), "")

    def together(self, first: str, second: str, example: str) -> None:
        for one, other in ((first, second), (second, first)):
            with self.subTest(one=one, other=other):
                both = f"the conditions of rules 1 and 2 of p (line 1) can both be met, for example by {example}"
                self.assertEqual(reason(f"p {{ {one} => p(a, b, c) | {other} => p(a, b, c) }}"), both)

    def test_one_against_the_other(self):
        self.apart("a = nil", "a != nil")
        self.apart("a = b", "b != a")
        self.apart("nil = c", "a = b * c != nil")

    def test_constants(self):
        self.apart("a = 7", "a != 7")
        self.apart("a = 7", "a = 8")
        self.apart("a = 7", "0x08 = a")
        self.apart("a = 7 * b = 7", "a != b")
        self.apart("a = b * b = 7", "a = 8")
        self.apart("a = x * x = 7", "y = a * y = b * b = 8")
        self.apart("a = 7", "a = nil")
        self.apart("a = 0", "a != nil")
        self.together("a = 7", "b = 8", "p(7, 8, 1)")
        self.assertRegex(reason("p { a = 0x07 => p(a, b) | b = 7 => p(a, b) }"), r"by p\(0x07, 0x07\)$")
        self.together("a != 1", "b != 2 * a != 0", "p(3, 4, 5)")
        self.together("a -> 7", "a -> 8", "p(1, 2, 3)")
        said = "(x is not in the head and may have another value in each)"
        self.together("a -> x * x = 7", "a -> x * x = 8", f"p(1, 2, 3) {said}")

    def test_constants_are_their_values(self):
        """Equal ones are the same, and 0 is nil, whatever their places."""
        text = "constants 7, 7, 0, 8 ; p { %s => p(a) | %s => p(a) }"
        for first, second in (("a = @1", "a != @2"), ("a = @3", "a != nil"), ("a = @2", "a = @4"), ("a = @3", "a = 7")):
            self.assertEqual(reason(text % (first, second)), "")
        for first, second, example in (("a = @1", "a = @2", "7"), ("a = @3", "a = nil", "nil"), ("a != 8", "a != nil", "1")):
            self.assertRegex(reason(text % (first, second)), rf"by p\({example}\)$")

    def test_a_contradiction_between_constants(self):
        for atoms in ("7 = 8", "7 != 7", "a = 7 * a = 8", "a = 7 * a = nil", "a = b * b = c * a = 7 * c = 8"):
            self.apart(atoms, "emp")
            self.apart(atoms, atoms)
        self.together("7 = 7 * 7 != 8", "emp", "p(1, 2, 3)")

    def test_cells_do_not_keep_rules_apart(self):
        self.together("a = nil", "a -> b", "p(nil, 1, 2)")
        self.together("a -> b", "a -> (b, c)", "p(1, 2, 3)")

    def test_chains(self):
        self.apart("a = b * b = c", "a != c")
        self.apart("a = b", "b = c * a != c")
        self.apart("a = b * c = nil", "b = c * a != nil")
        self.together("a = b * b = c", "a != nil", "p(1, 1, 1)")
        self.together("a = b", "b != c", "p(1, 1, 2)")
        self.together("a != b", "b != c", "p(1, 2, 3)")
        self.together("a = b", "c = nil", "p(1, 1, nil)")

    def test_chains_by_way_of_bound_variables(self):
        self.apart("a = x * x = b", "a != b")
        self.apart("a = x * x = nil", "y = a * y != nil")
        self.together("a = x * x = b", "y = a * c = y", "p(1, 1, 1)")

    def test_bound_variables_of_one_rule_are_not_those_of_the_other(self):
        said = "(x is not in the head and may have another value in each)"
        self.together("a -> x * x = nil", "a -> x * x != nil", f"p(1, 2, 3) {said}")
        self.together("a -> x * x = a", "a -> x * x != a", f"p(1, 2, 3) {said}")
        self.together("a -> (x, y) * x = nil * y = b", "a -> (x, y) * nil != x", f"p(1, 2, 3) {said}")

    def test_several_bound_variables(self):
        said = "(x and y are not in the head and may have other values in each)"
        self.together("a -> (x, y) * x = nil * y = b", "a -> (x, y) * y != b * x != nil", f"p(1, 2, 3) {said}")
        # Only both together keep the rules apart.
        self.together("a -> (x, y) * x = y", "a -> (x, y) * x != y", f"p(1, 2, 3) {said}")
        said = "(x, y and z are not in the head and may have other values in each)"
        self.together("a -> (x, y, z) * x = y * y = z", "a -> (x, y, z) * x = y * x != z", f"p(1, 2, 3) {said}")

    def test_nothing_is_said_of_names_that_make_no_difference(self):
        # Two names; a name in one rule's conditions alone; one that has the same value in both; one that is met by the same value.
        self.together("a -> x * x = nil", "a -> y * y != nil", "p(1, 2, 3)")
        self.together("a -> x * x = nil", "a -> x", "p(1, 2, 3)")
        self.together("x = a * x = nil", "x = a * b = x", "p(nil, nil, 1)")
        self.together("a -> x * x != a", "a -> x * x != nil", "p(1, 2, 3)")
        self.apart("x = a * x = nil", "x = a * x != nil")

    def test_a_name_of_a_head_is_not_bound(self):
        """One rule has it in the head, the other has not."""
        self.assertRegex(reason("p { a -> x * x = nil => p(a) | x != nil => p(x) }"), r"by p\(1\)$")

    def test_names_of_bytes(self):
        book = decode_book(encode_book(parse_book("p { a -> h * h = nil => p(a) | a -> h * h != nil => p(a) }", "book")))
        both = "the conditions of rules 1 and 2 of p0 can both be met, for example by p0(1)"
        self.assertEqual(not_plain(book), f"{both} (b is not in the head and may have another value in each)")

    def test_a_rule_that_cannot_be_met(self):
        for atoms in ("a != a", "a = nil * nil != a", "a = b * b = c * c != a", "a -> x * x != x", "x = nil * x != nil"):
            self.apart(atoms, "emp")
            self.apart(atoms, atoms)

    def test_a_rule_written_twice(self):
        self.together("emp", "emp", "p(1, 2, 3)")
        self.together("a = nil", "a = nil", "p(nil, 1, 2)")

    def test_nil_beside_nil(self):
        for kind, due in ((EQUAL, (1,)), (UNEQUAL, None)):
            rule = Rule(0, ("a",), (Condition(kind, NIL, NIL),))
            self.assertEqual(met_by_both(rule, Rule(0, ("a",)), 1), due)

    def test_no_arguments(self):
        self.assertRegex(reason("p { emp => p() | emp => p() }"), r"by p\(\)$")

    def test_other_predicates_and_later_pairs(self):
        self.assertEqual(reason("p { emp => p(a) } ; q { emp => q(a) }"), "")
        text = "p { a = nil => p(a) } ; q { emp => q() } ; p { a != nil * a = a => p(a) | a != nil => p(a) }"
        self.assertRegex(reason(text), "^the conditions of rules 3 and 4 of p ")


def bound_values(rule: Rule, arguments: tuple[int, ...], most: int) -> Iterator[dict[str, int]]:
    """Numbers up to `most` for the bound variables that meet the conditions, by trying all."""

    def holds(values: tuple[int, ...]) -> bool:
        def value(term: int) -> int:
            return values[term] if is_variable(term) else fixed_value(term, CONSTANTS)

        pairs = [(each.kind, value(each.left), value(each.right)) for each in rule.conditions]
        return all((left == right) == (kind == EQUAL) for kind, left, right in pairs)

    for bound in product(range(most + 1), repeat=len(rule.variables) - len(arguments)):
        if holds(arguments + bound):
            yield dict(zip(rule.variables[len(arguments) :], bound))


def met(rule: Rule, arguments: tuple[int, ...], most: int) -> bool:
    return any(True for _ in bound_values(rule, arguments, most))


class ByTrying(unittest.TestCase):
    def test_the_third_sentence(self):
        """Where there are n variables and the constants are 1 and 2, numbers up to n + 2 are enough, since no more are ever different from one
        another, from these and from nil."""
        chance = Random(4)
        seen = {(met, some): 0 for met in (True, False) for some in (True, False)}
        for case in range(900):
            arguments = chance.randrange(3)
            constants = len(CONSTANTS) if case % 2 else 0
            first, second = (some_rule(chance, arguments, chance.randrange(3), constants) for _ in range(2))
            most = len(first.variables) + len(second.variables) - arguments + 2 * bool(constants)
            found = met_by_both(first, second, arguments, CONSTANTS[:constants])
            seen[found is not None, bool(constants)] += 1
            with self.subTest(case=case):
                if found is None:
                    for values in product(range(most + 1), repeat=arguments):
                        self.assertFalse(met(first, values, most) and met(second, values, most), values)
                else:
                    self.assertEqual(len(found), arguments)
                    self.assertTrue(met(first, found, most) and met(second, found, most), found)
                self.assertEqual(met_by_both(second, first, arguments, CONSTANTS[:constants]) is None, found is None)
                book = Book((Predicate("p", arguments),), (replace(first, cells=()), replace(second, cells=())), CONSTANTS[:constants])
                if all(set(range(len(rule.variables))) <= fixed_terms(rule, arguments) for rule in book.rules):
                    self.assertEqual(not_plain(book) == "", found is None)
        self.assertGreater(min(seen.values()), 100, seen)

    def test_names_that_may_have_another_value_in_each(self):
        """They are named exactly where no arguments would meet both conditions if each of the names in both had one value, and each may have
        two."""
        chance = Random(5)
        named = [0, 0]
        for case in range(1000):
            arguments = chance.randrange(3 - case % 2)
            constants = case % 2
            first, second = (some_rule(chance, arguments, chance.randrange(1, 3), constants) for _ in range(2))
            most = len(first.variables) + len(second.variables) - arguments + constants
            in_conditions = [{term for each in rule.conditions for term in (each.left, each.right)} for rule in (first, second)]
            shared = [name for term, name in enumerate(first.variables) if term >= arguments and all(term in terms for terms in in_conditions)]
            met_so = [
                [one[name] != other[name] for name in shared]
                for values in product(range(most + 1), repeat=arguments)
                for one, other in product(*(list(bound_values(rule, values, most)) for rule in (first, second)))
            ]
            with self.subTest(case=case):
                due = [] if [False] * len(shared) in met_so else [name for i, name in enumerate(shared) if any(so[i] for so in met_so)]
                self.assertEqual(names_apart(first, second, arguments, CONSTANTS[:constants]), due)
                named[bool(due)] += 1
        self.assertGreater(min(named), 20, named)
