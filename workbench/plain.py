"""Why a book is not plain: a rule that calls has no cell, a variable is left to guess, or some arguments meet the conditions of two rules. The
quick walk tests the same, proved, and refuses such a book with 12; this test is the workbench's own, and finds the words."""

from collections.abc import Iterable, Iterator
from itertools import chain, combinations, count

from workbench.lexer import shorten
from workbench.model import EQUAL, FIRST_CONSTANT, NIL, UNEQUAL, Book, Rule, fixed_value, is_variable
from workbench.values import write_value


def not_plain(book: Book) -> str:
    """The first reason why the book is not plain, or an empty text where it is."""
    return next(chain(_calls_without_cell(book), _open_variables(book), _met_together(book)), "")


def _calls_without_cell(book: Book) -> Iterator[str]:
    for number, rule in enumerate(book.rules):
        if rule.calls and not rule.cells:
            called = book.predicates[rule.calls[0].predicate].name
            yield f"{_rules(book, number)} calls {shorten(called)} and has no cell"


def _open_variables(book: Book) -> Iterator[str]:
    """Whether a variable is used makes no difference."""
    for number, rule in enumerate(book.rules):
        fixed = fixed_terms(rule, book.predicates[rule.predicate].arguments)
        for variable, name in enumerate(rule.variables):
            if variable not in fixed:
                yield f"variable {shorten(name)} of {_rules(book, number)} is not fixed"


def _met_together(book: Book) -> Iterator[str]:
    """Rules are told apart by their numbers, so that one that is written twice must exclude itself."""
    for (i, first), (j, second) in combinations(enumerate(book.rules), 2):
        predicate = book.predicates[first.predicate]
        if first.predicate == second.predicate:
            arguments = met_by_both(first, second, predicate.arguments, book.constants)
            if arguments is not None:
                example = f"{shorten(predicate.name)}({', '.join(write_value(value, book.spellings) for value in arguments)})"
                apart = _other_values(names_apart(first, second, predicate.arguments, book.constants))
                yield f"the conditions of {_rules(book, i, j)} can both be met, for example by {example}{apart}"


def _other_values(names: list[str]) -> str:
    """What is easily overlooked where one name stands in both rules."""
    if len(names) < 2:
        return f" ({shorten(names[0])} is not in the head and may have another value in each)" if names else ""
    *ahead, last = map(shorten, names)
    return f" ({', '.join(ahead)} and {last} are not in the head and may have other values in each)"


def fixed_terms(rule: Rule, arguments: int) -> set[int]:
    """nil, constants and the head's variables, and step by step what these fix: along an equality either way round, and from a cell's address
    to its fields. How the rule is written decides: conditions that contradict one another fix nothing by that."""
    fixed = {*range(arguments), *range(FIRST_CONSTANT, NIL + 1)}
    while True:
        ends = [{each.left, each.right} for each in rule.conditions if each.kind == EQUAL]
        more = set[int]().union(*(both for both in ends if both & fixed), *(cell.fields for cell in rule.cells if cell.address in fixed))
        if more <= fixed:
            return fixed
        fixed |= more


# A term of one of two rules: FIXED and the value for nil and constants, HEAD and the term for the head's variables, which both have, and the
# rule's own number, 1 or 2, with the term for a bound variable.
_Term = tuple[int, int]
FIXED, HEAD = -1, 0


class _Classes:
    """Terms that equalities make the same. A fixed value stands for its class; `torn` where two different ones are made the same."""

    def __init__(self) -> None:
        self._above: dict[_Term, _Term] = {}
        self.torn = False

    def of(self, term: _Term) -> _Term:
        """The one term that stands for its class."""
        while term in self._above:
            term = self._above[term]
        return term

    def join(self, left: _Term, right: _Term) -> None:
        left, right = self.of(left), self.of(right)
        if left != right:
            if left[0] == FIXED:
                left, right = right, left
            self.torn |= left[0] == FIXED
            self._above[left] = right


def met_by_both(first: Rule, second: Rule, arguments: int, constants: tuple[int, ...] = ()) -> tuple[int, ...] | None:
    """Arguments for which the conditions of either rule can be met, with any whole numbers for its bound variables; None where there are
    none."""
    classes = _classes(first, second, arguments, constants)
    if classes is None:
        return None
    heads = [classes.of((HEAD, argument)) for argument in range(arguments)]
    others = (number for number in count(1) if number not in constants)
    numbers = {(kind, value): value if kind == FIXED else next(others) for kind, value in dict.fromkeys(heads)}
    return tuple(numbers[each] for each in heads)


def names_apart(first: Rule, second: Rule, arguments: int, constants: tuple[int, ...] = ()) -> list[str]:
    """The bound names in the conditions of both rules that may have another value in each, where this alone lets the conditions of both be
    met; else none."""
    classes = _classes(first, second, arguments, constants)
    if classes is None:
        return []
    found = {}
    for name in first.variables[arguments:]:
        if name in second.variables[arguments:]:
            both = (1, first.variables.index(name)), (2, second.variables.index(name))
            if all(_stands_in_condition(rule, term) for rule, (_, term) in zip((first, second), both)) and len(set(map(classes.of, both))) == 2:
                found[name] = both
    return [] if _classes(first, second, arguments, constants, found.values()) else list(found)


def _stands_in_condition(rule: Rule, term: int) -> bool:
    return any(term in (each.left, each.right) for each in rule.conditions)


def _classes(
    first: Rule, second: Rule, arguments: int, constants: tuple[int, ...], same: Iterable[tuple[_Term, _Term]] = ()
) -> _Classes | None:
    """The classes where the conditions of both rules are met and the terms of `same` are the same; None where that cannot be. Nothing but
    two fixed values in one class, or an inequality between terms of one class, is in the way: there are numbers enough for each class to
    have its own."""

    def placed(own: int, term: int) -> _Term:
        if not is_variable(term):
            return FIXED, fixed_value(term, constants)
        return (HEAD if term < arguments else own), term

    def pairs(kind: int) -> Iterator[tuple[_Term, _Term]]:
        for own, rule in ((1, first), (2, second)):
            for each in rule.conditions:
                if each.kind == kind:
                    yield placed(own, each.left), placed(own, each.right)

    classes = _Classes()
    for left, right in chain(pairs(EQUAL), same):
        classes.join(left, right)
    return None if classes.torn or any(classes.of(left) == classes.of(right) for left, right in pairs(UNEQUAL)) else classes


def _rules(book: Book, *numbers: int) -> str:
    """Such as `rule 2 of segment (line 4)`, or two rules of one predicate. A book that is bytes has no lines."""
    name = shorten(book.predicates[book.rules[numbers[0]].predicate].name)
    lines = list(dict.fromkeys(book.rules[number].line for number in numbers))
    where = f" ({_counted('line', lines)})" if all(lines) else ""
    return f"{_counted('rule', [number + 1 for number in numbers])} of {name}{where}"


def _counted(what: str, numbers: list[int]) -> str:
    return f"{what}{'s' * (len(numbers) > 1)} {' and '.join(map(str, numbers))}"
