"""Books, pools and questions, once read: what text and bytes have in common. A value is a number. A term is the number of one of its
rule's variables, NIL, or from FIRST_CONSTANT on the place of one of the book's constants."""

from dataclasses import dataclass, field

# The format's limits (docs/FORMAT.md).
MOST_PREDICATES = 8
MOST_ARGUMENTS = 4
MOST_CONSTANTS = 8
MOST_RULES = 16
MOST_VARIABLES = 8
MOST_CONDITIONS = 8
MOST_CELLS = 4
MOST_FIELDS = 4
MOST_CALLS = 3
MOST_RECORDS = 16
MOST_VALUE = 2**32 - 2
# Nil as the current controllers write it, in fields, values of a question and constants; older ones write 0.
END_MARK = 2**32 - 1

FIRST_CONSTANT = 128
NIL = 255
EQUAL = 0
UNEQUAL = 1


@dataclass(frozen=True)
class Predicate:
    name: str
    arguments: int


@dataclass(frozen=True)
class Condition:
    kind: int
    left: int
    right: int


@dataclass(frozen=True)
class Cell:
    address: int
    fields: tuple[int, ...]


@dataclass(frozen=True)
class Call:
    predicate: int
    terms: tuple[int, ...]


@dataclass(frozen=True)
class Rule:
    """`variables` are the names, the head's arguments first; `line` is the rule's line in the text, 0 where there is none, and `listed`
    are the names after its `exists`, which make no other rule of it."""

    predicate: int
    variables: tuple[str, ...]
    conditions: tuple[Condition, ...] = ()
    cells: tuple[Cell, ...] = ()
    calls: tuple[Call, ...] = ()
    line: int = 0
    listed: tuple[str, ...] = field(default=(), compare=False)


@dataclass(frozen=True)
class Book:
    """`constants` may be equal, 0 or used nowhere. `spellings` has those that were not written in base ten, as they were written."""

    predicates: tuple[Predicate, ...]
    rules: tuple[Rule, ...]
    constants: tuple[int, ...] = ()
    spellings: tuple[tuple[int, str], ...] = ()


def is_variable(term: int) -> bool:
    return term < FIRST_CONSTANT


def fixed_value(term: int, constants: tuple[int, ...]) -> int:
    """The value of a term that is no variable."""
    return 0 if term == NIL else constants[term - FIRST_CONSTANT]


def terms_of(rule: Rule) -> list[int]:
    """All terms of the rule, in the order of its bytes; addresses are terms too."""
    terms = [term for each in rule.conditions for term in (each.left, each.right)]
    terms += [term for each in rule.cells for term in (each.address, *each.fields)]
    return terms + [term for each in rule.calls for term in each.terms]


@dataclass(frozen=True)
class Record:
    address: int
    fields: tuple[int, ...]


@dataclass(frozen=True)
class Pool:
    """The records by ascending address. `spellings` has the numbers that were not written in base ten, as they were written."""

    records: tuple[Record, ...]
    spellings: tuple[tuple[int, str], ...] = ()


@dataclass(frozen=True)
class Question:
    predicate: int
    values: tuple[int, ...]
    spellings: tuple[tuple[int, str], ...] = ()
