"""What each refusal means, for someone who writes shapes or looks at a pool and does not think in bytes."""

SENTENCES = {
    1: "the book ends too early: look for a lost end, or for a count that announces more than there is",
    2: "a count in the book is out of its range: keep to 1 to 8 predicates of at most 4 arguments, 8 constants, 16 rules, and in a rule to 8 variables "
    "(arguments included), 8 conditions, 4 cells of 4 fields, 3 calls",
    3: "the book names something that is not there: use the book's own predicates and constants, equal or unequal, and the rule's own "
    "variables or nil; a cell's address is a variable and never nil or a constant",
    4: "the book goes on after its last rule: look for a count that announces less than there is",
    5: "the snapshot ends too early: look for a lost end, or for a count that announces more than there is",
    6: "the pool is too large: at most 16 records, each with at most 4 fields",
    7: "an address is nil (0 or FFFFFFFF), or the addresses do not ascend: sort the records by address, and give no two the same",
    8: "the snapshot goes on after its last record: look for a count that announces less than there is",
    9: "the question is not one about this book: name one of its predicates, with as many values as that has arguments and nothing more",
    10: "the memory lent does not fit together: lend a table of 1 to 65,535 words and an unfolding space of three times as many",
    11: "there are more than 65,535 facts: see whether a rule leaves an argument of its predicate free, which then takes every kept value",
    12: "the book is not plain, and the walk answers for plain books alone: ask without --walk, or change the book",
}
# What else helps where all records were asked about. About some part the walk cannot be asked.
WITHOUT_A_TABLE = {11: "; or ask with --walk, which needs no table and answers if the book is plain"}


def sentence(refusal: int, some_part: bool = False) -> str:
    """What to say where the whole pool or some part of it was asked about."""
    found = SENTENCES.get(refusal, "a number that this workbench does not know; it and the library are not of one version")
    return found if some_part else found + WITHOUT_A_TABLE.get(refusal, "")
