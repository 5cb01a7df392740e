"""Answers as text for people. What it says of verdict, part and tree is the library's; hints and the reason why a book is not plain are the
workbench's own, and it says so."""

from collections.abc import Iterable

from workbench.asking import DOES_NOT_FIT, FITS, NOT_ANSWERED, REFUSED, Answer
from workbench.hints import Held, Hints, Place, Unreached
from workbench.names import Names
from workbench.refusals import sentence
from workbench.unfolding import Node, tree
from workbench.wording import count

# Deeper nodes stand no further to the right and have their depth in front.
MOST_INDENTED = 30
HINTS_AHEAD = "Hints on where to look. They come from the pool and the question's values alone; the verdict is the engine's."
WALK_HINTS_AHEAD = "Hints on where to look. They come from the pool and the question's values alone; the verdict is the walk's."
NO_HINTS = (
    "No hints: every field and every value of the question is nil or names a record, the question's values lead to every record, and",
    "no record is held in two places, apart from records that point to one another.",
)
PART_HINTS_AHEAD = (
    "Hints on where to look. They come from the question's values and the records to which these lead; the verdict is the engine's."
)
NO_PART_HINTS = (
    "No hints: every value of the question and every field of the records to which these lead is nil or names a record, and these",
    "fields hold no record in two places, apart from records that point to one another.",
)
WITH_NUMBERS = "Numbers that stand in the book, such as type codes, are passed over where they name no record."
CODES_NOT_COMPARED = "No hint compares type codes: see whether each record has the code that its place asks for."
NO_FIND = "the question holds without any record, which says nothing about the pool; a shape that needs a record tells more"
LARGER = "larger parts may fit as well; whether all records do is asked without --part"
WALK_YES = "The walk gives no unfolding to show or to save. To have one, ask the engine:"
WALK_NO = ("The walk's no is as strong as the engine's, since it refuses a book that is not plain. To ask the engine all the same:",)
WALK_NOT_ANSWERED = (
    " may fit or not: the walk answers for plain books alone, and refuses this book (refusal 12).",
    "The first reason why it is not plain, in the workbench's own words:",
)
ASK_THE_ENGINE = "To ask the engine:"
WHAT_IS_PLAIN = "docs/WORKBENCH.md, The quick walk, says what a plain book is and how a book becomes one."
ORDINALS = ("first", "second", "third", "fourth")


def answer_text(answer: Answer) -> str:
    if answer.kind == REFUSED:
        return refusal_text(answer.reply.refusal, answer.detail, answer.asked.some_part) + "\n"
    rows = _part_rows(answer) + _tree_rows(answer) if answer.kind == FITS else _hint_rows(answer)
    return "".join(row + "\n" for row in [verdict(answer), *rows])


def verdict(answer: Answer) -> str:
    """A few words for an answer that is no refusal."""
    if not answer.asked.some_part:
        return answer.kind
    if answer.part is None:
        return "no part fits, not even the empty one"
    return "a part fits" if answer.part.records else "the empty part fits"


def next_text(found: Answer, command: str) -> str:
    """What is said of the answer about some part where the whole pool does not fit. The command shows the unfolding of that part."""
    if found.part is None:
        return "No part of it fits either, not even the empty one.\n"
    if not found.part.records:
        return f"The empty part fits: {NO_FIND}.\n"
    rows = ["A part of it fits, as the engine finds:", *_part_rows(found, ["  its unfolding", command])]
    return "".join(row + "\n" for row in rows)


def walk_text(answer: Answer, command: str, pool: str = "The pool") -> str:
    """What an answer of the walk is worth, so that nobody takes it for more. The command asks the engine. `pool` begins a sentence about
    one that is not answered."""
    if answer.kind == NOT_ANSWERED:
        may, finds = WALK_NOT_ANSWERED
        rows = [pool + may, finds, f"  {answer.not_plain}", ASK_THE_ENGINE, f"  {command}", WHAT_IS_PLAIN]
    else:
        rows = [*(WALK_NO if answer.kind == DOES_NOT_FIT else [WALK_YES]), f"  {command}"]
    return "".join(row + "\n" for row in rows)


def _part_rows(answer: Answer, *more: list[str]) -> list[str]:
    """Which records are in the part and which are not. The empty part is no find, and nobody should take it for one, nor stop there."""
    if answer.part is None:
        return []
    names = Names(answer.asked)
    records, left_out = names.values(answer.part.records), names.values(answer.part.left_out)
    rows = aligned([["  in it", records or "nothing"], ["  left out", left_out or "nothing"], *more])
    return rows + ([f"  {NO_FIND}", f"  {LARGER}"] if left_out and not records else [])


def refusal_text(refusal: int, detail: str = "", some_part: bool = False) -> str:
    return f"refusal {refusal}: {sentence(refusal, some_part)}" + (f"\n  {detail}" if detail else "")


def short_text(answer: Answer) -> str:
    """One line, for a row among those of other pools."""
    if answer.kind == REFUSED:
        return refusal_text(answer.reply.refusal, some_part=answer.asked.some_part)
    if answer.part is None or not answer.part.records:
        return verdict(answer)
    names = Names(answer.asked)
    many = f"{len(answer.part.records)} of {count(len(names.pool.records), 'record')}"
    return f"{verdict(answer)}, {many}: {names.values(answer.part.records)}"


def sum_text(kinds: list[str], some_part: bool = False, empty: int = 0) -> str:
    """What came of all pools, by kind; kinds of which there is none are left out, except that of a pool that fits. Of so many the part is
    the empty one, which is no find."""
    fit, not_fit, not_answered, refused = (kinds.count(kind) for kind in (FITS, DOES_NOT_FIT, NOT_ANSWERED, REFUSED))
    not_read = len(kinds) - fit - not_fit - not_answered - refused
    if some_part:
        said = [f"{fit} with a part that fits" + f" ({empty} of them with the empty one)" * bool(empty)] + [f"{not_fit} without"] * bool(not_fit)
    else:
        said = [f"{fit} fits" if fit == 1 else f"{fit} fit"]
        said += [f"{not_fit} does not" if not_fit == 1 else f"{not_fit} do not"] * bool(not_fit)
    said += [f"{not_answered} not answered"] * bool(not_answered)
    said += [f"{refused} refused"] * bool(refused) + [f"{not_read} not read"] * bool(not_read)
    return f"{count(len(kinds), 'pool')}: {', '.join(said)}"


def _tree_rows(answer: Answer) -> list[str]:
    if answer.asked.by_walk:
        return []
    names = Names(answer.asked)
    return aligned(_node_cells(node, names) for node in tree(answer.lines))


def _node_cells(node: Node, names: Names) -> list[str]:
    line = node.line
    deep = f"({node.depth}) " if node.depth > MOST_INDENTED else ""
    head = "  " * min(node.depth, MOST_INDENTED) + deep + names.holding(line.predicate, line.arguments)
    if node.as_above:
        return [head, names.rule(line.rule), "as above"]
    bound = ", ".join(f"{name} = {names.value(value)}{' (spare)' * names.is_spare(value)}" for name, value in names.bound(line))
    return [head, names.rule(line.rule), f"takes {names.values(line.takes) or 'nothing'}", bound]


def aligned(rows: Iterable[list[str]]) -> list[str]:
    """Cells in columns, each as wide as its widest cell, three spaces apart."""
    table = list(rows)
    widths = [max(len(row[i]) for row in table if i < len(row)) for i in range(max(map(len, table), default=0))]
    return ["   ".join(cell.ljust(width) for cell, width in zip(row, widths)).rstrip() for row in table]


def _hint_rows(answer: Answer) -> list[str]:
    """None where it is not said that the pool does not fit."""
    if answer.kind == NOT_ANSWERED:
        return []
    some_part, names = answer.asked.some_part, Names(answer.asked)
    numbers = [WITH_NUMBERS] * bool(names.book.constants)
    if not answer.hints:
        return [*(NO_PART_HINTS if some_part else NO_HINTS), *numbers, *[CODES_NOT_COMPARED] * len(numbers)]
    ahead = PART_HINTS_AHEAD if some_part else WALK_HINTS_AHEAD if answer.asked.by_walk else HINTS_AHEAD
    return [ahead, *numbers, *(f"  {row}" for row in hint_sentences(answer.hints, names))]


def hint_sentences(found: Hints, names: Names) -> list[str]:
    value = names.value
    rows = [_held(held, names) for held in found.held]
    rows += [_unreached(lost, names) for lost in found.unreached]
    for loose in found.dangling:
        asked = ", which names no record (the question names it too)" if loose.asked else ", which is not nil and names no record"
        rows.append(f"{_places([loose.place], names)} holds {value(loose.value)}{asked}")
    for outside in found.outside:
        rows.append(f"the question's {ORDINALS[outside.argument - 1]} value {value(outside.value)} is not nil and names no record")
    return rows


def _held(held: Held, names: Names) -> str:
    """A constant may be a record's address by chance: then nobody knows of a field which of the two it holds."""
    record = names.value(held.record)
    also = f" ({record} is also a number of the book: some of these fields may be codes)" if held.record in names.book.constants else ""
    return f"{record} is held by {len(held.places)} fields: {_places(held.places, names)}{also}"


def _places(places: Iterable[Place], names: Names) -> str:
    return ", ".join(f"field {place.field} of {names.value(place.record)}" for place in places)


def _unreached(lost: Unreached, names: Names) -> str:
    if not lost.by:
        return f"{names.value(lost.record)} is held by no other record, and the question does not name it"
    return f"{names.value(lost.record)} cannot be reached from the question's values; held by {names.values(lost.by)}"
