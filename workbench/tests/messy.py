"""Texts as people write them, with atoms mixed, comments, odd spaces and bases; and damaged ones."""

from random import Random

from workbench.model import EQUAL, FIRST_CONSTANT, NIL, Book, Pool, Rule, is_variable

SPACES = (" ", " ", "  ", "\t", "\n", "\r\n", " # a => b | } ;\n")
ODD = "abcp01x9'_ \n\t#{}(),;|*=!->=>:.≠→&@\"[]-é\u200b²\x00"


def messy_book(book: Book, random: Random, listed: bool) -> str:
    """A text for the book. Where bound variables and constants are not listed, their numbers may be others. Constants of one value, or 0,
    can only be told apart by a list."""
    listing = book.constants and (listed or len({0, *book.constants}) <= len(book.constants))
    blocks = [["constants", *_separated([messy_value(value, random) for value in book.constants], ",")]] if listing else []
    for predicate in book.predicates:
        names = [f"n{place}" for place in range(predicate.arguments)]
        blocks.append([predicate.name, "(", *_separated(names, ","), ")", "{", "}"])
    for place, rule in enumerate(book.rules):
        case = _case(book, rule, random, listed, bool(listing))
        if place and book.rules[place - 1].predicate == rule.predicate and random.random() < 0.5:
            blocks[-1][-1:] = ["|", *case, "}"]
        else:
            blocks.append([book.predicates[rule.predicate].name, "{", *case, "}"])
    tokens = _separated(blocks, [";"]) + random.choice(([], [";"]))
    return "".join(token + random.choice(SPACES) for token in tokens)


def _separated(parts: list, between: list | str) -> list[str]:
    found: list[str] = []
    for place, part in enumerate(parts):
        found += [*(between if place else ()), *([part] if isinstance(part, str) else part)]
    return found


def _case(book: Book, rule: Rule, random: Random, listed: bool, places: bool) -> list[str]:
    predicate = book.predicates[rule.predicate]
    bound = list(rule.variables[predicate.arguments :])
    kinds = _atoms(book, rule, random, places)
    order = [kind for kind, atoms in enumerate(kinds) for _ in atoms]
    random.shuffle(order)
    atoms = [kinds[kind].pop(0) for kind in order]
    if not atoms or random.random() < 0.2:
        atoms.insert(random.randint(0, len(atoms)), ["emp"])
    begin = ["exists", *_separated(bound, ","), ":"] if bound and listed else []
    head = [predicate.name, "(", *_separated(list(rule.variables[: predicate.arguments]), ","), ")"]
    return [*begin, *_separated(atoms, ["*"]), "=>", *head]


def _atoms(book: Book, rule: Rule, random: Random, places: bool) -> list[list[list[str]]]:
    def written(term: int) -> str:
        if is_variable(term):
            return rule.variables[term]
        if term == NIL:
            return messy_value(0, random)
        place = term - FIRST_CONSTANT
        value = book.constants[place]
        if places and (value == 0 or value in book.constants[:place] or random.random() < 0.2):
            return f"@{place + 1}"
        return messy_value(value, random)

    def terms(numbers: tuple[int, ...]) -> list[str]:
        return _separated(list(map(written, numbers)), ",")

    def fields(numbers: tuple[int, ...]) -> list[str]:
        return terms(numbers) if numbers and random.random() < 0.5 else ["(", *terms(numbers), ")"]

    conditions = [[*terms((each.left,)), "=" if each.kind == EQUAL else "!=", *terms((each.right,))] for each in rule.conditions]
    cells = [[*terms((each.address,)), "->", *fields(each.fields)] for each in rule.cells]
    calls = [[book.predicates[each.predicate].name, "(", *terms(each.terms), ")"] for each in rule.calls]
    return [conditions, cells, calls]


def messy_value(value: int, random: Random) -> str:
    spellings = [str(value), hex(value), f"0X{value:08X}", f"0x{value:x}"]
    return random.choice([*spellings, "nil"] if value == 0 else spellings)


def messy_pool(pool: Pool, random: Random) -> str:
    lines = []
    for record in random.sample(pool.records, len(pool.records)):
        fields = ", ".join(messy_value(field, random) for field in record.fields)
        fields = f"({fields})" if random.random() < 0.3 else fields
        lines.append(f"{random.choice(SPACES[:4])}{messy_value(record.address, random)} :{fields}{random.choice(('', ' # 1: 2'))}\n")
    return "".join(lines) or "# nothing\n\nemp"


def damaged(text: str, random: Random) -> str:
    """Some characters deleted, inserted, exchanged or doubled, or the end cut off."""
    for _ in range(random.randint(1, 4)):
        place = random.randint(0, len(text))
        other = random.randint(0, len(text))
        start, end = min(place, other), max(place, other)
        match random.randrange(6):
            case 0:
                text = text[:place] + text[place + random.randint(1, 5) :]
            case 1:
                text = text[:place] + random.choice(ODD) + text[place:]
            case 2:
                text = text[:start] + text[start + 1 : start + 2] + text[start : start + 1] + text[start + 2 :]
            case 3:
                text = text[:place] + random.choice(ODD) + text[place + 1 :]
            case 4 if end - start < 40:
                text = text[:end] + text[start:end] + text[end:]
            case 5 if random.random() < 0.2:
                text = text[:place]
    return text
