"""Pools as text: one record to a line, such as `10: 20`, and `emp` for the pool with no record."""

from workbench.lexer import TERMS, Token, Tokens, shown
from workbench.mistake import Mistake
from workbench.model import MOST_FIELDS, MOST_RECORDS, Pool, Record
from workbench.values import base_sixteen, is_bare_mark, is_nil, read_value, spellings_of, write_value

SUCH_AS = "a pool has lines such as 10: 20, or the word emp for no record"


def parse_pool(text: str, source: str) -> Pool:
    tokens = Tokens(text, source)
    _refuse_other_texts(tokens)
    if tokens.peek().text == "emp":
        return _empty(tokens)
    records: dict[int, Record] = {}
    lines: dict[int, int] = {}
    read: list[tuple[int, Token]] = []
    while tokens.peek().kind != "end":
        place = tokens.peek()
        record = _record(tokens, read)
        if record.address in records:
            raise tokens.mistake(f"the address {shown(place)} is on line {lines[record.address]} already: an address has one record", place)
        if len(records) == MOST_RECORDS:
            raise tokens.mistake(f"this is a seventeenth record: a pool has at most {MOST_RECORDS} records", place)
        records[record.address], lines[record.address] = record, place.line
    return Pool(tuple(records[address] for address in sorted(records)), spellings_of(read))


def _refuse_other_texts(tokens: Tokens) -> None:
    first, second = tokens.peek(), tokens.peek(1)
    if first.kind == "end":
        raise tokens.mistake("there is no record here: write emp for a pool with no record", first)
    if first.kind == "name" and first.text not in ("emp", "nil"):
        if second.kind == "{" or any(token.kind in ("{", "=>") for token in tokens.all):
            raise tokens.mistake(f"this is a book and no pool: {SUCH_AS}", first)
        if second.kind == "(":
            raise tokens.mistake(f"this is a question and no pool: {SUCH_AS}", first)


def _empty(tokens: Tokens) -> Pool:
    tokens.next()
    if tokens.peek().kind != "end":
        raise tokens.mistake(f"{shown(tokens.peek())} follows emp: emp stands alone, for a pool with no record", tokens.peek())
    return Pool(())


def _record(tokens: Tokens, read: list[tuple[int, Token]]) -> Record:
    place = tokens.next()
    if place.text == "emp":
        raise tokens.mistake("emp stands alone, for a pool with no record: take it away", place)
    if place.kind == "name" and place.text != "nil" and not is_bare_mark(place):
        raise tokens.mistake(f"{shown(place)} is no address: {SUCH_AS}; names stand in books only{base_sixteen(place)}", place)
    if place.kind not in TERMS:
        raise tokens.mistake(f"{shown(place)} begins no record: {SUCH_AS}", place)
    if is_bare_mark(place) or is_nil(place):
        what = "0 is" if place.text == "nil" or not place.text.strip("0xX") else "it is the end mark, so"
        raise tokens.mistake(f"{shown(place)} is no address: {what} nil, where no record can be; correct it, or leave the line out", place)
    address = read_value(tokens, place)
    read.append((address, place))
    _colon(tokens, place)
    return Record(address, tuple(_fields(tokens, place.line, read)))


def _colon(tokens: Tokens, place: Token) -> None:
    token = tokens.peek()
    if token.kind == ":" and token.line == place.line:
        tokens.next()
    elif token.line == place.line and token.kind != "end":
        raise tokens.mistake(f"write : after the address {shown(place)}, and not {shown(token)}", token)
    else:
        raise tokens.mistake(f": is missing after the address {shown(place)}: write {shown(place)}: and the fields on the same line", place)


def _fields(tokens: Tokens, line: int, read: list[tuple[int, Token]]) -> list[int]:
    """The fields on the rest of the line, within parentheses or without."""

    def more() -> bool:
        return tokens.peek().kind != "end" and tokens.peek().line == line

    fields: list[int] = []
    opened = tokens.take("(") if more() else None
    while more() and tokens.peek().kind != ")":
        if len(fields) == MOST_FIELDS:
            raise tokens.mistake(f"this record has a fifth field: a record has at most {MOST_FIELDS} fields", tokens.peek())
        fields.append(_field(tokens, read))
        comma = tokens.take(",") if more() else None
        if not comma:
            break
        if not more() or tokens.peek().kind == ")":
            raise tokens.mistake("a field is missing after this comma: write one on the same line, or take the comma away", comma)
    if opened and not more():
        raise tokens.mistake("( is not closed on its line: write ) after the last field", opened)
    if opened and not tokens.take(")"):
        raise tokens.unseparated("fields")
    if more():
        raise _after_fields(tokens)
    return fields


def _field(tokens: Tokens, read: list[tuple[int, Token]]) -> int:
    token = tokens.next()
    if token.kind not in TERMS:
        raise tokens.mistake(f"a field is missing before {shown(token)}: write a number or nil", token)
    value = read_value(tokens, token)
    read.append((value, token))
    return value


def _after_fields(tokens: Tokens) -> Mistake:
    token = tokens.peek()
    if token.kind in ("number", "name"):
        message = f"write , before {shown(token)} if it is a field, and a new line if it begins a record"
    elif token.kind == ":":
        message = "a second : on this line: write each record on a line of its own"
    else:
        message = f"{shown(token)} cannot follow a record: write each record on a line of its own, and nothing after it"
    return tokens.mistake(message, token)


def write_pool(pool: Pool) -> str:
    if not pool.records:
        return "emp\n"
    return "".join(_line(record, pool) for record in pool.records)


def _line(record: Record, pool: Pool) -> str:
    fields = ", ".join(write_value(field, pool.spellings) for field in record.fields)
    return f"{write_value(record.address, pool.spellings)}: {fields or '()'}\n"
