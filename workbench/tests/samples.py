"""Books, pools and questions for the tests: those of the repository, and random ones that reach every limit."""

import re
from pathlib import Path
from random import Random

from workbench.bench_bytes import decode_bench
from workbench.model import (
    FIRST_CONSTANT, MOST_ARGUMENTS, MOST_CALLS, MOST_CELLS, MOST_CONDITIONS, MOST_CONSTANTS, MOST_FIELDS, MOST_PREDICATES, MOST_RECORDS,
    MOST_RULES, MOST_VALUE, MOST_VARIABLES, NIL, Book, Call, Cell, Condition, Pool, Predicate, Question, Record, Rule,
)

ROOT = Path(__file__).resolve().parent.parent.parent
HOUSE = bytes.fromhex(
    "03 02 01 02 00 04 00 00 01 00 00 01 00 00 00 01 00 01 00 01 02 01 00 02 01"
    "01 01 00 01 00 01 01 01 00 01 00 02 00 00 00 02 00 00 FF 00 01 FF"
)
LETTERS = ("a", "b", "n", "x", "Z", "_", "λ", "é", "数")


def sections(data: bytes, many: int) -> list[list[bytes]]:
    """The sections of a test program's input, each after its length, `many` to a case."""
    found = []
    while data:
        length = int.from_bytes(data[:2], "little")
        found.append(data[2 : 2 + length])
        data = data[2 + length :]
    return [found[start : start + many] for start in range(0, len(found), many)]


def program_cases(program: str, many: int) -> list[tuple[int, bytes, bytes, bytes]]:
    """The cases of crates/faults (four sections) or crates/cases (five), each with the refusal that the program must print."""
    folder = ROOT / "crates" / program
    cases = sections((folder / "stdin").read_bytes(), many)
    expected = (folder / "stdout").read_text(encoding="utf-8")
    if program == "faults":
        refusals = [int(number) for line in expected.splitlines() for number in line.rsplit(":", 1)[1].split()]
    else:
        refusals = [int(number) for number in re.findall(r"^.*?refusal (\d+)", expected, re.MULTILINE)]
        cases = [case for case in cases if b"refusal" in case[0]]
    return [(refusal, *case[-3:]) for refusal, case in zip(refusals, cases, strict=True)]


def repository_blocks() -> list[tuple[bytes, bytes, bytes]]:
    """Every book, snapshot and question that the repository has, well-formed or not."""
    files = sorted([*(ROOT / "compare" / "hostile").glob("*.bin"), *(ROOT / "examples" / "bench").glob("*.in")])
    found = [decode_bench(file.read_bytes()) for file in files]
    found.append(decode_bench((ROOT / "crates" / "bench" / "stdin").read_bytes()))
    found += [case[1:] for case in program_cases("faults", 4) + program_cases("cases", 5)]
    return [(book or HOUSE, snapshot, question) for book, snapshot, question in found]


def _many(random: Random, most: int, least: int = 0) -> int:
    """A count that is often at one of its ends."""
    return random.choice((least, most, random.randint(least, most)))


def _names(random: Random, many: int, plain: str) -> list[str]:
    """Different names: the ones of a decoded book, or any."""
    if random.random() < 0.3:
        return [plain[number] if len(plain) > 1 else f"{plain}{number}" for number in range(many)]
    found: dict[str, None] = {}
    while len(found) < many:
        name = random.choice(LETTERS) + "".join(random.choice(LETTERS + ("'", "0", "9")) for _ in range(random.randint(0, 3)))
        if name != "_":  # which is no variable
            found[name] = None
    return list(found)


def random_book(random: Random) -> Book:
    names = _names(random, _many(random, MOST_PREDICATES, 1), "p")
    predicates = tuple(Predicate(name, _many(random, MOST_ARGUMENTS)) for name in names)
    # Often none, equal ones or 0.
    constants = tuple(_value(random) for _ in range(_many(random, MOST_CONSTANTS)))
    rules = [_random_rule(random, predicates, len(constants)) for _ in range(_many(random, MOST_RULES))]
    if random.random() < 0.5:
        rules.sort(key=lambda rule: rule.predicate)
    return Book(predicates, tuple(rules), constants)


def _random_rule(random: Random, predicates: tuple[Predicate, ...], constants: int) -> Rule:
    predicate = random.randrange(len(predicates))
    variables = _names(random, _many(random, MOST_VARIABLES, predicates[predicate].arguments), "abcdefgh")
    terms = [*range(len(variables)), *range(FIRST_CONSTANT, FIRST_CONSTANT + constants), NIL]

    def some(many: int) -> tuple[int, ...]:
        return tuple(random.choice(terms) for _ in range(many))

    conditions = [Condition(random.randrange(2), *some(2)) for _ in range(_many(random, MOST_CONDITIONS))]
    # Without variables there is no address.
    addresses = [random.randrange(len(variables)) for _ in range(_many(random, MOST_CELLS) if variables else 0)]
    cells = [Cell(address, some(_many(random, MOST_FIELDS))) for address in addresses]
    called = [random.randrange(len(predicates)) for _ in range(_many(random, MOST_CALLS))]
    calls = [Call(number, some(predicates[number].arguments)) for number in called]
    return Rule(predicate, tuple(variables), tuple(conditions), tuple(cells), tuple(calls))


def _value(random: Random, least: int = 0) -> int:
    return random.choice((least, MOST_VALUE, random.randint(least, 40), random.randint(least, MOST_VALUE)))


def random_pool(random: Random) -> Pool:
    addresses: set[int] = set()
    many = _many(random, MOST_RECORDS)
    while len(addresses) < many:
        addresses.add(_value(random, 1))
    return Pool(tuple(Record(each, tuple(_value(random) for _ in range(_many(random, MOST_FIELDS)))) for each in sorted(addresses)))


def random_question(random: Random, book: Book) -> Question:
    predicate = random.randrange(len(book.predicates))
    return Question(predicate, tuple(_value(random) for _ in range(book.predicates[predicate].arguments)))
