"""From the tokens of a book to its blocks and cases, with the place of every name; what a case may have at most is seen to here."""

from dataclasses import dataclass, field
from itertools import count, takewhile
from string import ascii_lowercase

from workbench.lexer import RESERVED, TERMS, Token, Tokens, shorten, shown
from workbench.mistake import Mistake
from workbench.model import MOST_ARGUMENTS, MOST_CALLS, MOST_CELLS, MOST_CONDITIONS, MOST_CONSTANTS, MOST_FIELDS, MOST_VARIABLES
from workbench.values import base_sixteen, is_bare_mark, is_nil

# Begins the list of constants. It is not reserved: a predicate of this name is followed by {, or by ( and no number.
CONSTANTS = "constants"
LATE_LIST = "a list of constants stands once and ahead of all blocks: move it there"
SECOND_LIST = "there is a list of constants already: write one list with the constants of both, ahead of all blocks"
NO_BLOCK = "there is no block here: a book has at least one, such as p { emp => p() }"
# What follows the name or number with which an atom begins.
AFTER_FIRST = ("=", "!=", "->", "(")
ORDINALS = {4: "fourth", 5: "fifth", 9: "ninth", 17: "seventeenth"}


@dataclass
class Case:
    """A term is the token of its name, of nil, of a number or of a place in the list of constants. `names` has the first token of each name,
    and `numbers` the tokens of all numbers and places, in the order of the text."""

    start: Token
    listed: list[Token] = field(default_factory=list)
    conditions: list[tuple[str, Token, Token]] = field(default_factory=list)
    cells: list[tuple[Token, list[Token]]] = field(default_factory=list)
    calls: list[tuple[Token, list[Token]]] = field(default_factory=list)
    head: list[Token] = field(default_factory=list)
    names: dict[str, Token] = field(default_factory=dict)
    numbers: list[Token] = field(default_factory=list)


@dataclass
class Block:
    """`arguments` stand in the block's own line where it has some, else None."""

    name: Token
    arguments: list[Token] | None
    cases: list[Case]


def parse_blocks(tokens: Tokens) -> tuple[list[Token], list[Block]]:
    """The constants that are listed ahead of the blocks, and the blocks."""
    _refuse_other_texts(tokens)
    listed = _constants(tokens) if _lists_constants(tokens) else []
    blocks = []
    if tokens.peek().kind == "end":
        raise tokens.mistake(NO_BLOCK, tokens.peek())
    while tokens.peek().kind != "end":
        if _lists_constants(tokens):
            raise tokens.mistake(SECOND_LIST if listed else LATE_LIST, tokens.peek())
        blocks.append(_block(tokens))
        if not tokens.take(";") and tokens.peek().kind != "end":
            raise _after_block(tokens)
    return listed, blocks


def _lists_constants(tokens: Tokens) -> bool:
    first, second, third = (tokens.peek(ahead) for ahead in range(3))
    return first.text == CONSTANTS and second.kind != "{" and (second.kind != "(" or third.kind == "number")


def _constants(tokens: Tokens) -> list[Token]:
    tokens.next()
    listed: list[Token] = []
    while True:
        token = tokens.next()
        if token.kind != "number" and token.text != "nil":
            raise tokens.mistake(_no_constant(token, tokens.peek()), token)
        _limit(tokens, listed, MOST_CONSTANTS, token, "constant", "constants", "a book")
        listed.append(token)
        if tokens.take(";"):
            return listed
        if not tokens.take(","):
            after = tokens.peek()
            missing = "," if after.kind == "number" else ";"
            raise tokens.mistake(f"{missing} is missing before {shown(after)}: write {CONSTANTS} 7, 8 ; and then the blocks", after)


def _no_constant(token: Token, after: Token) -> str:
    if token.kind == "name" and after.kind not in ("{", "("):
        return f"constants have no names: write the number in the cases{base_sixteen(token)}"
    if token.kind == "(":
        return f"a list of constants has no parentheses: write {CONSTANTS} 7, 8 ; and then the blocks"
    return f"a number is missing before {shown(token)}: write {CONSTANTS} 7, 8 ; and then the blocks"


def _after_block(tokens: Tokens) -> Mistake:
    token = tokens.peek()
    if token.kind in ("}", ")"):
        return tokens.mistake(f"{shown(token)} closes nothing: take it away", token)
    return tokens.mistake(f"; is missing: write ; between two blocks, before {shown(token)}", token)


def _refuse_other_texts(tokens: Tokens) -> None:
    first, second = tokens.peek(), tokens.peek(1)
    if first.kind == "end":
        raise tokens.mistake(NO_BLOCK, first)
    if (first.kind == "number" and second.kind == ":") or (first.text == "emp" and second.kind == "end"):
        raise tokens.mistake("this is a pool and no book: a book has blocks such as p { emp => p() }", first)
    if first.kind == "name" and second.kind == "(" and not any(token.kind == "{" for token in tokens.all):
        raise tokens.mistake("this is a question and no book: a book has blocks such as p { emp => p() }", first)


def _block(tokens: Tokens) -> Block:
    name = tokens.next()
    _refuse_number(tokens, name)
    if name.kind != "name":
        raise tokens.mistake(f"{shown(name)} begins no block: write the name of a predicate, as in p {{ emp => p() }}", name)
    _refuse_reserved(tokens, name, "predicate")
    p = shorten(name.text)
    arguments = _arguments(tokens, None) if tokens.peek().kind == "(" else None
    if not tokens.take("{"):
        raise _no_cases(tokens, p, name)
    if tokens.take("}"):
        if arguments is None:
            raise tokens.mistake(f"this block has no case: write a case, or {p}(a, b) {{ }} with the arguments that {p} has", name)
        return Block(name, arguments, [])
    cases = [_case(tokens, p, name.text)]
    while tokens.take("|"):
        cases.append(_case(tokens, p, name.text))
    if not tokens.take("}"):
        raise _after_head(tokens, p, name)
    return Block(name, arguments, cases)


def _no_cases(tokens: Tokens, p: str, name: Token) -> Mistake:
    token = tokens.peek()
    if token.kind == "number" and tokens.peek(-1) == name and p.lower() in ("constant", "constants", "const", "consts"):
        return tokens.mistake(f"{p} begins no list of constants: write {CONSTANTS}, as in {CONSTANTS} {shown(token)} ;", name)
    return tokens.mistake(f"{{ is missing after {p}: write {p} {{ atoms => {p}(a, b) }}", token)


def _after_head(tokens: Tokens, p: str, name: Token) -> Mistake:
    token = tokens.peek()
    if token.kind == "end":
        message = f"}} is missing: write }} after the last case of {p}, whose block begins on line {name.line}"
    elif token.kind == ";":
        message = f"}} is missing: write }} before ; to close the block of {p}"
    elif token.kind == "name" and tokens.peek(1).kind == "{":
        message = f"}} and ; are missing: write }} ; before the block of {shown(token)}"
    elif token.kind in (*TERMS, "("):
        message = f"| is missing: write | between two cases, before {shown(token)}"
    elif token.kind in ("*", ","):
        message = f"nothing is joined to a head: write all atoms of the case before => {p}(..)"
    else:
        message = f"{shown(token)} cannot follow a head: write | and another case, or }} to close the block of {p}"
    return tokens.mistake(message, token)


def _case(tokens: Tokens, p: str, predicate: str) -> Case:
    case = Case(tokens.peek())
    if case.start.kind in ("}", "|", "end"):
        otherwise = ", or take away the | before it" if tokens.peek(-1).kind == "|" else f", such as emp => {p}()"
        raise tokens.mistake(f"a case is missing before {shown(case.start)}: write one{otherwise}", case.start)
    if case.start.text == "exists":
        _listed(tokens, case)
    _atom(tokens, case)
    while tokens.take("*"):
        _atom(tokens, case)
    if not tokens.take("=>"):
        raise _after_atoms(tokens, p)
    _head(tokens, case, p, predicate)
    return case


def _listed(tokens: Tokens, case: Case) -> None:
    tokens.next()
    while True:
        token = tokens.next()
        if token.kind in ("number", "place"):
            raise tokens.mistake(f"{shown(token)} is a number, which needs no exists: list names only", token)
        if token.kind != "name":
            raise tokens.mistake(f"a name is missing before {shown(token)}: write exists c, d: and then the atoms", token)
        _refuse_no_variable(tokens, token)
        if token.text in case.names:
            raise tokens.mistake(f"{shown(token)} is listed twice: take one of them away", token)
        _note(tokens, case, token)
        case.listed.append(token)
        if tokens.take(":"):
            return
        if not tokens.take(","):
            raise tokens.mistake(f": is missing before {shown(tokens.peek())}: write exists c, d: and then the atoms", tokens.peek())


def _after_atoms(tokens: Tokens, p: str) -> Mistake:
    token = tokens.peek()
    if token.kind == ",":
        message = "write * and not , between atoms"
    elif token.kind in ("|", "}", ";", "end"):
        message = f"=> is missing before {shown(token)}: write => and the head, such as {p}(a), after the atoms of a case"
    elif token.kind in (*TERMS, "("):
        message = f"* or => is missing before {shown(token)}: write * between atoms, and => before the head"
    else:
        message = f"{shown(token)} cannot follow an atom: write * and another atom, or => and the head"
    return tokens.mistake(message, token)


def _atom(tokens: Tokens, case: Case) -> None:
    token, after = tokens.peek(), tokens.peek(1)
    if token.kind == "(":
        raise tokens.mistake("( begins no atom: write atoms without parentheses around them", token)
    if token.kind not in TERMS:
        raise tokens.mistake(f"an atom is missing before {shown(token)}: write one, or emp where there is none", token)
    if token.text == "exists":
        raise tokens.mistake("exists stands at the beginning of a case only: list all names there", token)
    if token.text == "emp" and after.kind not in AFTER_FIRST:
        tokens.next()
    elif after.kind in ("=", "!="):
        _condition(tokens, case)
    elif after.kind == "->":
        _cell(tokens, case)
    elif after.kind == "(":
        _call(tokens, case)
    else:
        raise tokens.mistake(_lonely(token), token)


def _lonely(token: Token) -> str:
    if token.text == "nil" or token.kind != "name":
        return f"{shown(token)} alone is no atom: write emp for nothing, or a condition such as a = {shown(token)}"
    hint = "; the empty part is emp" if token.text.lower() in ("empty", "true", "emp", "e") else ""
    return f"{shown(token)} alone is no atom: write {shown(token)}() for a predicate without arguments, or =, != or -> after it{hint}"


def _condition(tokens: Tokens, case: Case) -> None:
    left = _term(tokens, case)
    kind = tokens.next().kind
    _limit(tokens, case.conditions, MOST_CONDITIONS, left, "condition", "conditions")
    case.conditions.append((kind, left, _term(tokens, case)))


def _cell(tokens: Tokens, case: Case) -> None:
    address = tokens.peek()
    if is_nil(address):
        raise tokens.mistake(f"{shown(address)} is no address: the address of a cell must be a name", address)
    if address.kind != "name":
        message = f"{shown(address)} is a number, and the address of a cell must be a name: {_name_for(tokens, address)}"
        raise tokens.mistake(message, address)
    _limit(tokens, case.cells, MOST_CELLS, address, "cell", "cells")
    _term(tokens, case)
    tokens.next()
    fields = _terms(tokens, case, "field") if tokens.take("(") else _open_fields(tokens, case)
    case.cells.append((address, fields))


def _open_fields(tokens: Tokens, case: Case) -> list[Token]:
    """Fields without parentheses end where no comma follows."""
    fields, comma = [], None
    while True:
        if tokens.peek().kind not in TERMS:
            message = f"a field is missing before {shown(tokens.peek())}: write a name, a number or nil; a cell without fields is a -> ()"
            raise tokens.mistake(message, tokens.peek())
        if tokens.peek(1).kind in AFTER_FIRST:
            raise _atom_for_field(tokens, comma)
        _limit(tokens, fields, MOST_FIELDS, tokens.peek(), "field", "fields", "a cell")
        fields.append(_term(tokens, case))
        comma = tokens.take(",")
        if not comma:
            _refuse_no_comma(tokens)
            return fields


def _refuse_no_comma(tokens: Tokens) -> None:
    """What follows a field and begins no atom may be another field."""
    token = tokens.peek()
    if token.kind in TERMS and token.text not in ("emp", "exists") and tokens.peek(1).kind not in AFTER_FIRST:
        instead = "write , between fields, * between atoms, and => before the head"
        raise tokens.mistake(f", * or => is missing before {shown(token)}: {instead}", token)


def _atom_for_field(tokens: Tokens, comma: Token | None) -> Mistake:
    if comma:
        return tokens.mistake("write * and not , between atoms", comma)
    message = f"{shown(tokens.peek())} begins another atom where a field is due: write a -> c * and then that atom"
    return tokens.mistake(message, tokens.peek())


def _call(tokens: Tokens, case: Case) -> None:
    name = tokens.next()
    _refuse_number(tokens, name)
    _refuse_reserved(tokens, name, "predicate")
    _limit(tokens, case.calls, MOST_CALLS, name, "call", "calls")
    tokens.next()
    case.calls.append((name, _terms(tokens, case, "argument")))


def _terms(tokens: Tokens, case: Case, what: str) -> list[Token]:
    """The terms after an opened parenthesis."""
    terms: list[Token] = []
    if tokens.take(")"):
        return terms
    while True:
        owner = "a cell" if what == "field" else "a predicate"
        _limit(tokens, terms, MOST_FIELDS if what == "field" else MOST_ARGUMENTS, tokens.peek(), what, what + "s", owner)
        terms.append(_term(tokens, case))
        if tokens.take(")"):
            return terms
        if not tokens.take(","):
            raise tokens.unseparated(what + "s")


def _term(tokens: Tokens, case: Case) -> Token:
    token = tokens.next()
    if token.kind not in TERMS:
        raise tokens.mistake(f"a term is missing before {shown(token)}: write a name, a number or nil", token)
    if token.kind != "name":
        case.numbers.append(token)
    elif token.text != "nil":
        _refuse_no_variable(tokens, token)
        _note(tokens, case, token)
    return token


def _head(tokens: Tokens, case: Case, p: str, predicate: str) -> None:
    name = tokens.next()
    if name.kind != "name":
        raise tokens.mistake(f"the head is missing before {shown(name)}: write {p}(a, b) with the arguments of {p}", name)
    _refuse_reserved(tokens, name, "predicate")
    if name.text != predicate:
        raise tokens.mistake(f"a case in the block of {p} has {p} as its head: write {p}, or begin a block {shown(name)} {{ .. }}", name)
    if tokens.peek().kind != "(":
        raise tokens.mistake(f"the arguments of {p} are missing: write {p}() where there are none", tokens.peek())
    case.head = _arguments(tokens, case)


def _arguments(tokens: Tokens, case: Case | None) -> list[Token]:
    """The different names in the parentheses of a head, or of a block's own line, which is in no case."""
    tokens.next()
    arguments: list[Token] = []
    if tokens.take(")"):
        return arguments
    while True:
        token = tokens.next()
        _check_argument(tokens, token, arguments)
        _limit(tokens, arguments, MOST_ARGUMENTS, token, "argument", "arguments", "a predicate")
        if case:
            _note(tokens, case, token)
        arguments.append(token)
        if tokens.take(")"):
            return arguments
        if not tokens.take(","):
            raise tokens.unseparated("arguments")


def _check_argument(tokens: Tokens, token: Token, before: list[Token]) -> None:
    if token.kind not in TERMS:
        raise tokens.mistake(f"a name is missing before {shown(token)}: the arguments of a head are different names", token)
    if token.text == "nil" or token.kind != "name":
        raise tokens.mistake(f"{shown(token)} cannot be an argument of a head: {_name_for(tokens, token)}", token)
    _refuse_no_variable(tokens, token)
    if any(token.text == other.text for other in before):
        name = _free_name(tokens, token)
        other = f"write another name {name} there, and the condition {shown(token)} = {name}"
        raise tokens.mistake(f"{shown(token)} stands twice in the head: {other}", token)


def _name_for(tokens: Tokens, token: Token) -> str:
    """What to write for a number or nil where only a name can be."""
    name = _free_name(tokens, token)
    return f"write a name {name} there, and the condition {name} = {shown(token)}"


def _free_name(tokens: Tokens, token: Token) -> str:
    """The first of a, b, c and so on that does not stand in the token's case, which may not have been read to its end."""
    at = tokens.all.index(token)
    before = takewhile(lambda each: each.kind not in ("{", "|", ";"), reversed(tokens.all[:at]))
    after = takewhile(lambda each: each.kind not in ("}", "|"), tokens.all[at:])
    taken = {each.text for each in (*before, *after)}
    names = (letter + "'" * primes for primes in count() for letter in ascii_lowercase)
    return next(name for name in names if name not in taken)


def _note(tokens: Tokens, case: Case, token: Token) -> None:
    if token.text not in case.names and len(case.names) == MOST_VARIABLES:
        limit = f"a case has at most {MOST_VARIABLES} names, its arguments included"
        raise tokens.mistake(f"this case has a {ORDINALS[MOST_VARIABLES + 1]} name, {shown(token)}: {limit}", token)
    case.names.setdefault(token.text, token)


def _limit(tokens: Tokens, found: list, most: int, token: Token, one: str, many: str, owner: str = "a case") -> None:
    if len(found) == most:
        this = owner.replace("a ", "this ", 1)
        raise tokens.mistake(f"{this} has a {ORDINALS[most + 1]} {one}: {owner} has at most {most} {many}", token)


def _refuse_number(tokens: Tokens, token: Token) -> None:
    if token.kind in ("number", "place"):
        raise tokens.mistake(f"{shown(token)} is a number and no name of a predicate: write another name", token)


def _refuse_reserved(tokens: Tokens, token: Token, what: str) -> None:
    if token.text in RESERVED:
        raise tokens.mistake(f"{token.text} is a reserved word and no name of a {what}: write another name", token)


def _refuse_no_variable(tokens: Tokens, token: Token) -> None:
    """What would be read as a variable, which has any value, and is plainly meant otherwise."""
    _refuse_reserved(tokens, token, "variable")
    if token.text.lower() in ("nil", "null"):
        raise tokens.mistake(f"{token.text} is no variable: write nil, or another name", token)
    if is_bare_mark(token):
        raise tokens.mistake(f"{token.text} is no variable: write nil or 0x{token.text} for the end mark, or another name", token)
    if token.text == "_":
        raise tokens.mistake("_ alone is no name: write a name of its own for each value that may be any", token)
