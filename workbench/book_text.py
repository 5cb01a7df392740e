"""Books as text: `parse_book` gives predicates, names and constants their numbers, `write_book` writes any book."""

from itertools import groupby

from workbench.book_syntax import CONSTANTS, ORDINALS, Block, Case, parse_blocks
from workbench.lexer import Token, Tokens, shown
from workbench.mistake import Mistake
from workbench.model import (
    EQUAL, FIRST_CONSTANT, MOST_CONSTANTS, MOST_PREDICATES, MOST_RULES, NIL, UNEQUAL, Book, Call, Cell, Condition, Predicate, Rule,
    fixed_value, is_variable, terms_of,
)
from workbench.values import read_value, spellings_of, write_value
from workbench.wording import count, suggestion

KINDS = {"=": EQUAL, "!=": UNEQUAL}

# A block with one case stands on one line up to this length.
ONE_LINE = 100


def parse_book(text: str, source: str) -> Book:
    tokens = Tokens(text, source)
    listed, blocks = parse_blocks(tokens)
    predicates = _predicates(tokens, blocks)
    constants = _Constants(tokens, listed, [token for block in blocks for case in block.cases for token in case.numbers])
    numbers = {name: number for number, name in enumerate(predicates)}
    rules: list[Rule] = []
    for block in blocks:
        for case in block.cases:
            if len(rules) == MOST_RULES:
                ordinal = ORDINALS[MOST_RULES + 1]
                raise tokens.mistake(f"this is the {ordinal} case of the book: a book has at most {MOST_RULES} cases", case.start)
            rules.append(_rule(tokens, case, numbers[block.name.text], numbers, predicates, constants))
    found = tuple(Predicate(name, len(first)) for name, first in predicates.items())
    return Book(found, tuple(rules), tuple(constants.values), spellings_of(constants.read))


class _Constants:
    """The values of the constants: those listed, and then the other numbers of the cases as they first come."""

    def __init__(self, tokens: Tokens, listed: list[Token], tokens_in_cases: list[Token]):
        self.tokens = tokens
        self.read = [(read_value(tokens, token), token) for token in listed]
        self.values = [value for value, _ in self.read]
        self.listed = len(listed)
        for token in tokens_in_cases:
            if token.kind == "number":
                self._add(read_value(tokens, token), token)

    def _add(self, value: int, token: Token) -> None:
        """0 is nil and takes no constant."""
        self.read.append((value, token))
        if value == 0 or value in self.values:
            return
        if len(self.values) == MOST_CONSTANTS:
            raise self.tokens.mistake(self._one_too_many(token), token)
        self.values.append(value)

    def _one_too_many(self, token: Token) -> str:
        ninth = ORDINALS[MOST_CONSTANTS + 1]
        if self.listed:
            limit = f"a book has at most {MOST_CONSTANTS}, and each of the list counts, equal ones and 0 too"
            return f"{shown(token)} would be a {ninth} constant: {limit}; shorten the list, or make {shown(token)} an argument of the predicate"
        limit = f"a book has at most {MOST_CONSTANTS} different ones; make it an argument of the predicate, which the question then gives"
        return f"this book has a {ninth} number, {shown(token)}: {limit}"

    def term(self, token: Token) -> int:
        if token.kind == "number":
            value = read_value(self.tokens, token)
            return FIRST_CONSTANT + self.values.index(value) if value else NIL
        place = token.text.removeprefix("@")
        if not self._is_place(place):
            raise self.tokens.mistake(self._no_place(token), token)
        return FIRST_CONSTANT + int(place) - 1

    def _is_place(self, text: str) -> bool:
        return text in map(str, range(1, self.listed + 1))

    def _no_place(self, token: Token) -> str:
        # A place is at most 8, which is the same digit in base sixteen.
        meant = token.text.lstrip("@0xX")
        if self._is_place(meant):
            return f"write the place in base ten without a 0 in front: @{meant}"
        known = f"{count(self.listed, 'constant')} {'is' if self.listed == 1 else 'are'} listed ahead of the blocks"
        instead = f"write @1{f' to @{self.listed}' * (self.listed > 1)}" if self.listed else "write a number"
        return f"{shown(token)} names no constant, since {known}: {instead}"


def _predicates(tokens: Tokens, blocks: list[Block]) -> dict[str, list[Token]]:
    """The predicates in the order of their first blocks, each with its arguments where they first stand."""
    found: dict[str, list[Token]] = {}
    for block in blocks:
        name = block.name.text
        if name not in found and len(found) == MOST_PREDICATES:
            limit = f"a book has at most {MOST_PREDICATES} predicates"
            raise tokens.mistake(f"this book has a {ORDINALS[MOST_PREDICATES + 1]} predicate, {shown(block.name)}: {limit}", block.name)
        heads = ([] if block.arguments is None else [block.arguments]) + [case.head for case in block.cases]
        for head in heads:
            first = found.setdefault(name, head)
            if len(head) != len(first):
                raise _other_count(tokens, block.name, head, first)
    return found


def _other_count(tokens: Tokens, name: Token, head: list[Token], first: list[Token]) -> Mistake:
    line = f" (line {first[0].line})" if first else ""
    message = f"{shown(name)} has {count(len(first), 'argument')}{line}, and {len(head) or 'none'} here: write the same number everywhere"
    return tokens.mistake(message, head[0] if head else name)


def _rule(
    tokens: Tokens, case: Case, predicate: int, numbers: dict[str, int], predicates: dict[str, list[Token]], constants: _Constants
) -> Rule:
    arguments = [token.text for token in case.head]
    for token in case.listed:
        if token.text in arguments:
            raise tokens.mistake(f"{shown(token)} is an argument of the head, and no name of exists: take it off the list", token)
    variables = tuple(arguments + [name for name in case.names if name not in arguments])

    def term(token: Token) -> int:
        if token.kind != "name":
            return constants.term(token)
        return NIL if token.text == "nil" else variables.index(token.text)

    for name, terms in case.calls:
        _check_call(tokens, name, terms, predicates)
    return Rule(
        predicate,
        variables,
        tuple(Condition(KINDS[kind], term(left), term(right)) for kind, left, right in case.conditions),
        tuple(Cell(term(address), tuple(map(term, fields))) for address, fields in case.cells),
        tuple(Call(numbers[name.text], tuple(map(term, terms))) for name, terms in case.calls),
        case.start.line,
        tuple(token.text for token in case.listed),
    )


def _check_call(tokens: Tokens, name: Token, terms: list[Token], predicates: dict[str, list[Token]]) -> None:
    if name.text not in predicates:
        raise tokens.mistake(f"there is no predicate {shown(name)} in this book: {suggestion(name.text, list(predicates))}", name)
    due = len(predicates[name.text])
    if len(terms) != due:
        message = f"{shown(name)} has {count(due, 'argument')}, and this call has {len(terms) or 'none'}: write {due or 'none'}"
        raise tokens.mistake(message, name)


def write_book(book: Book) -> str:
    blocks = _list_of_constants(book)
    begun = 0  # predicates with a block so far: a later one must not come before them
    for predicate, rules in groupby(book.rules, key=lambda rule: rule.predicate):
        blocks += [_declaration(book.predicates[number]) for number in range(begun, predicate)]
        begun = max(begun, predicate + 1)
        blocks.append(_block(book.predicates[predicate].name, [write_case(rule, book) for rule in rules]))
    blocks += [_declaration(predicate) for predicate in book.predicates[begun:]]
    return "\n".join(blocks) + "\n"


def _list_of_constants(book: Book) -> list[str]:
    """Where the numbers in the cases would give other constants: some are equal, 0, used nowhere or used in another order."""
    in_cases = (fixed_value(term, book.constants) for rule in book.rules for term in terms_of(rule) if not is_variable(term))
    if book.constants == tuple(dict.fromkeys(filter(None, in_cases))):
        return []
    return [f"{CONSTANTS} {', '.join(write_value(value, book.spellings) for value in book.constants)} ;"]


def _declaration(predicate: Predicate) -> str:
    return f"{predicate.name}({', '.join('abcd'[: predicate.arguments])}) {{ }} ;"


def _block(name: str, cases: list[str]) -> str:
    line = f"{name} {{ {cases[0]} }} ;"
    if len(cases) == 1 and len(line) <= ONE_LINE:
        return line
    return f"{name} {{\n  " + " |\n  ".join(cases) + "\n} ;"


def write_case(rule: Rule, book: Book) -> str:
    """A rule as a case, on one line."""
    predicate = book.predicates[rule.predicate]
    head = f"{predicate.name}({', '.join(rule.variables[: predicate.arguments])})"
    return f"{_exists(rule, predicate.arguments)}{' * '.join(write_atoms(rule, book)) or 'emp'} => {head}"


def write_atoms(rule: Rule, book: Book) -> list[str]:
    """The rule's conditions, cells and calls."""

    def term(number: int) -> str:
        if is_variable(number):
            return rule.variables[number]
        return "nil" if number == NIL else _write_constant(number - FIRST_CONSTANT, book)

    atoms = [f"{term(each.left)} {'=' if each.kind == EQUAL else '!='} {term(each.right)}" for each in rule.conditions]
    atoms += [f"{term(each.address)} -> {', '.join(map(term, each.fields)) or '()'}" for each in rule.cells]
    atoms += [f"{book.predicates[each.predicate].name}({', '.join(map(term, each.terms))})" for each in rule.calls]
    return atoms


def _write_constant(place: int, book: Book) -> str:
    """A number stands for the first constant of its value, and 0 for none."""
    value = book.constants[place]
    return write_value(value, book.spellings) if value and book.constants.index(value) == place else f"@{place + 1}"


def _exists(rule: Rule, arguments: int) -> str:
    """The list of the bound variables, where their order in the atoms would give them other numbers."""
    appearing = [term for term in dict.fromkeys(terms_of(rule)) if is_variable(term) and term >= arguments]
    if appearing == list(range(arguments, len(rule.variables))):
        return ""
    return f"exists {', '.join(rule.variables[arguments:])}: "
