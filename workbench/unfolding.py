"""An unfolding's words, read into lines. The words may come from a file and be damaged: what cannot be read is a Mistake."""

from collections.abc import Iterator, Sequence
from dataclasses import dataclass

from workbench.mistake import Mistake
from workbench.model import Book, Pool, Question, Rule
from workbench.part import part_of

WORDS_PER_LINE = 3
BYTES_PER_WORD = 8
# A tree of more nodes than this shows a subtree that comes again only once.
MOST_NODES = 400


@dataclass(frozen=True)
class Line:
    """`number` and `calls` count lines from 1, `predicate` and `rule` from 0. `records` are the addresses of all records that the line
    has, `takes` of those that its own cells take, and `values` has a value for each variable of the rule."""

    number: int
    predicate: int
    arguments: tuple[int, ...]
    records: tuple[int, ...]
    rule: int
    values: tuple[int, ...]
    takes: tuple[int, ...]
    calls: tuple[int, ...]


@dataclass(frozen=True)
class Node:
    """A place in the tree. `as_above` is true where what is under the line was shown already and is left out here."""

    line: Line
    depth: int
    as_above: bool


def named_values(pool: Pool, question: Question) -> set[int]:
    """Nil, and what the question and the pool name."""
    named = {0, *question.values}
    for record in pool.records:
        named |= {record.address, *record.fields}
    return named


def known_values(book: Book, pool: Pool, question: Question) -> set[int]:
    """These and the book's constants, used or not."""
    return named_values(pool, question) | set(book.constants)


def kept_values(book: Book, pool: Pool, question: Question) -> tuple[int, ...]:
    """The known values and the spares, ascending: a position in an unfolding is one in these."""
    known = known_values(book, pool, question)
    spares = max((len(rule.variables) for rule in book.rules), default=0)
    kept, candidate = set(known), 0
    while len(kept) < len(known) + spares:
        kept.add(candidate)
        candidate += 1
    return tuple(sorted(kept))


def words_to_bytes(words: Sequence[int]) -> bytes:
    return b"".join(word.to_bytes(BYTES_PER_WORD, "little") for word in words)


def words_from_bytes(data: bytes, source: str) -> tuple[int, ...]:
    if len(data) % BYTES_PER_WORD:
        raise Mistake(f"no unfolding: its {len(data)} bytes are no whole number of words, which have {BYTES_PER_WORD} each", source)
    return tuple(int.from_bytes(data[at : at + BYTES_PER_WORD], "little") for at in range(0, len(data), BYTES_PER_WORD))


def read_lines(words: Sequence[int], book: Book, pool: Pool, question: Question) -> list[Line]:
    """The lines in order; a Mistake where a line names something that is not there. That a line's conditions hold is not looked at."""
    if len(words) % WORDS_PER_LINE:
        raise Mistake(f"{len(words)} words are no whole number of lines, which have {WORDS_PER_LINE} words each")
    kept = kept_values(book, pool, question)
    cut = [words[at : at + WORDS_PER_LINE] for at in range(0, len(words), WORDS_PER_LINE)]
    return [_line(number, line, book, pool, kept) for number, line in enumerate(cut, 1)]


def _line(number: int, words: Sequence[int], book: Book, pool: Pool, kept: tuple[int, ...]) -> Line:
    fact, positions, last = words
    predicate, rule_number = _bits(fact, 44, 20), _bits(last, 0, 8)
    if predicate >= len(book.predicates):
        raise Mistake(f"line {number} of the unfolding is for predicate {predicate}, which the book does not have")
    if rule_number >= len(book.rules):
        raise Mistake(f"line {number} of the unfolding is by rule {rule_number + 1}, which the book does not have")
    rule = book.rules[rule_number]
    arguments = [_bits(fact, 16 + 7 * i, 7) for i in range(book.predicates[predicate].arguments)]
    values = _values(number, [_bits(positions, 8 * i, 8) for i in range(len(rule.variables))], kept)
    return Line(
        number=number,
        predicate=predicate,
        arguments=_values(number, arguments, kept),
        records=_addresses(number, _bits(fact, 0, 16), pool),
        rule=rule_number,
        values=values,
        takes=tuple(values[cell.address] for cell in rule.cells),
        calls=_calls(number, last, rule),
    )


def _bits(word: int, low: int, count: int) -> int:
    return word >> low & (1 << count) - 1


def _values(number: int, positions: list[int], kept: tuple[int, ...]) -> tuple[int, ...]:
    for position in positions:
        if position >= len(kept):
            raise Mistake(f"line {number} of the unfolding has the value at position {position}, and only {len(kept)} values are kept")
    return tuple(kept[position] for position in positions)


def _addresses(number: int, records: int, pool: Pool) -> tuple[int, ...]:
    if records >> len(pool.records):
        raise Mistake(f"line {number} of the unfolding has record {records.bit_length()}, and the pool has only {len(pool.records)}")
    return part_of(records, pool).records


def _calls(number: int, word: int, rule: Rule) -> tuple[int, ...]:
    calls = tuple(_bits(word, 8 + 16 * i, 16) for i in range(len(rule.calls)))
    for called in calls:
        if not 1 <= called < number:
            raise Mistake(f"line {number} of the unfolding calls line {called}, which is no earlier one")
    return calls


def tree(lines: Sequence[Line], most_nodes: int = MOST_NODES) -> Iterator[Node]:
    """The nodes from the last line down, each before those under it. Lines are never nested calls of this function: a chain of calls may
    be longer than Python's own stack."""
    if not lines:
        return
    whole = _is_small(lines, most_nodes)
    shown: set[int] = set()
    waiting = [(lines[-1], 0)]
    while waiting:
        line, depth = waiting.pop()
        as_above = not whole and bool(line.calls) and line.number in shown
        shown.add(line.number)
        yield Node(line, depth, as_above)
        if not as_above:
            waiting += [(lines[called - 1], depth + 1) for called in reversed(line.calls)]


def _is_small(lines: Sequence[Line], most: int) -> bool:
    """Whether the tree has at most that many nodes: a line is one, and each of its calls is a tree of its own. Larger sizes are not told
    apart, since the size may double with each line."""
    sizes: list[int] = []
    for line in lines:
        sizes.append(min(most + 1, 1 + sum(sizes[called - 1] for called in line.calls)))
    return sizes[-1] <= most
