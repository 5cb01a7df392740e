"""Books as bytes. A book of bytes has no names, so that `decode_book` calls its predicates p0, p1 .. and the variables of a rule a, b .."""

from dataclasses import dataclass

from workbench.byte_reader import ByteReader, value_bytes
from workbench.mistake import Mistake
from workbench.model import (
    EQUAL, FIRST_CONSTANT, MOST_ARGUMENTS, MOST_CALLS, MOST_CELLS, MOST_CONDITIONS, MOST_CONSTANTS, MOST_FIELDS, MOST_PREDICATES, MOST_RULES,
    MOST_VARIABLES, NIL, UNEQUAL, Book, Call, Cell, Condition, Predicate, Rule, is_variable,
)
from workbench.wording import count


def encode_book(book: Book, nil: int = 0) -> bytes:
    arguments = [predicate.arguments for predicate in book.predicates]
    found = bytes([len(arguments), *arguments, len(book.constants)]) + value_bytes(book.constants, nil) + bytes([len(book.rules)])
    return found + b"".join(_encode_rule(rule, len(rule.variables) - arguments[rule.predicate]) for rule in book.rules)


def _encode_rule(rule: Rule, bound: int) -> bytes:
    found = [rule.predicate, bound, len(rule.conditions)]
    for condition in rule.conditions:
        found += [condition.kind, condition.left, condition.right]
    found.append(len(rule.cells))
    for cell in rule.cells:
        found += [cell.address, len(cell.fields), *cell.fields]
    found.append(len(rule.calls))
    for call in rule.calls:
        found += [call.predicate, *call.terms]
    return bytes(found)


def decode_book(data: bytes) -> Book | None:
    """None where the bytes are no well-formed book."""
    try:
        return _book(data, "")
    except Mistake:
        return None


def explain_book(data: bytes, source: str = "") -> Book:
    """The book, or a mistake that names the first byte at fault. Books from before there were constants lack the byte that counts them."""
    try:
        return _book(data, source)
    except Mistake as mistake:
        end = 1 + sum(data[:1])
        older = decode_book(data[:end] + b"\0" + data[end:])
        if not (older and older.rules):
            raise
        advice = f"is it from before there were constants? with 00 put in as byte {end}, after the numbers of arguments, it can be read"
        raise Mistake(f"{mistake.message}; {advice}", source) from None


def _book(data: bytes, source: str) -> Book:
    reader = ByteReader(data, "book", source)
    arguments = []
    for _ in range(reader.count("the number of predicates", MOST_PREDICATES, 1)):
        arguments.append(reader.count("a number of arguments", MOST_ARGUMENTS))
    constants = [reader.value("a constant") for _ in range(reader.count("the number of constants", MOST_CONSTANTS))]
    rules = [_rule(reader, arguments, len(constants)) for _ in range(reader.count("the number of rules", MOST_RULES))]
    reader.finish()
    return Book(tuple(Predicate(f"p{number}", count) for number, count in enumerate(arguments)), tuple(rules), tuple(constants))


@dataclass(frozen=True)
class _Scope:
    """What a term can name: so many variables of its rule and so many constants of the book."""

    variables: int
    constants: int


def _rule(reader: ByteReader, arguments: list[int], constants: int) -> Rule:
    predicate = _predicate(reader, "the predicate of a rule", len(arguments))
    own = arguments[predicate]
    variables = own + reader.count("the number of bound variables", MOST_VARIABLES - own)
    scope = _Scope(variables, constants)
    conditions = [_condition(reader, scope) for _ in range(reader.count("the number of conditions", MOST_CONDITIONS))]
    cells = [_cell(reader, scope) for _ in range(reader.count("the number of cells", MOST_CELLS))]
    calls = [_call(reader, scope, arguments) for _ in range(reader.count("the number of calls", MOST_CALLS))]
    return Rule(predicate, tuple("abcdefgh"[:variables]), tuple(conditions), tuple(cells), tuple(calls))


def _predicate(reader: ByteReader, due: str, predicates: int) -> int:
    found = reader.byte(due)
    if found >= predicates:
        raise reader.mistake(f"{found} stands for {due}, and the last predicate is {predicates - 1}", reader.at - 1)
    return found


def _variable(reader: ByteReader, due: str, scope: _Scope) -> int:
    found = reader.byte(due)
    if not is_variable(found):
        raise reader.mistake(f"{'nil' if found == NIL else found} stands for {due}, which must be a variable", reader.at - 1)
    if found >= scope.variables:
        raise reader.mistake(f"{found} stands for {due}, and the rule has {count(scope.variables, 'variable')}", reader.at - 1)
    return found


def _term(reader: ByteReader, due: str, scope: _Scope) -> int:
    found = reader.byte(due)
    if found < scope.variables or FIRST_CONSTANT <= found < FIRST_CONSTANT + scope.constants or found == NIL:
        return found
    known = f"the rule has {count(scope.variables, 'variable')}"
    if not is_variable(found):
        known = f"the book has {count(scope.constants, 'constant')}" + f", from {FIRST_CONSTANT} on" * bool(scope.constants)
    raise reader.mistake(f"{found} stands for {due}, and {known}", reader.at - 1)


def _condition(reader: ByteReader, scope: _Scope) -> Condition:
    kind = reader.byte("the kind of a condition")
    if kind not in (EQUAL, UNEQUAL):
        raise reader.mistake(f"{kind} stands for the kind of a condition, which is 0 for equal or 1 for unequal", reader.at - 1)
    return Condition(kind, _term(reader, "a term of a condition", scope), _term(reader, "a term of a condition", scope))


def _cell(reader: ByteReader, scope: _Scope) -> Cell:
    address = _variable(reader, "the address of a cell", scope)
    fields = reader.count("the number of fields", MOST_FIELDS)
    return Cell(address, tuple(_term(reader, "a field", scope) for _ in range(fields)))


def _call(reader: ByteReader, scope: _Scope, arguments: list[int]) -> Call:
    predicate = _predicate(reader, "the predicate of a call", len(arguments))
    return Call(predicate, tuple(_term(reader, "an argument of a call", scope) for _ in range(arguments[predicate])))
