"""Numbers as the user wrote them, predicates and variables as the book names them."""

from collections.abc import Iterable

from workbench.asking import Asked
from workbench.unfolding import Line, known_values, named_values


class Names:
    """For an asked question whose book, pool and question are well-formed."""

    def __init__(self, asked: Asked):
        assert asked.book and asked.pool and asked.question
        self.book, self.pool, self.question = asked.book, asked.pool, asked.question
        self._spellings = dict(asked.pool.spellings) | dict(asked.question.spellings)
        self._known = known_values(self.book, self.pool, self.question)
        # How the book writes a number says nothing about an address that happens to be the same one.
        named = named_values(self.pool, self.question)
        self._spellings |= {value: text for value, text in self.book.spellings if value not in named}

    def value(self, value: int) -> str:
        return "nil" if value == 0 else self._spellings.get(value, str(value))

    def values(self, values: Iterable[int]) -> str:
        return ", ".join(map(self.value, values))

    def is_spare(self, value: int) -> bool:
        return value not in self._known

    def holding(self, predicate: int, values: Iterable[int]) -> str:
        return f"{self.book.predicates[predicate].name}({self.values(values)})"

    def asked(self) -> str:
        return self.holding(self.question.predicate, self.question.values)

    def rule(self, number: int) -> str:
        line = self.book.rules[number].line
        return f"rule {number + 1}" + (f" (line {line})" if line else "")

    def bound(self, line: Line) -> list[tuple[str, int]]:
        """The variables of a line's rule that are no arguments of its predicate, with their values."""
        rule = self.book.rules[line.rule]
        return list(zip(rule.variables, line.values))[self.book.predicates[rule.predicate].arguments :]
