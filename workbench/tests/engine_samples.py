"""Books, pools and questions that several tests use, as objects and as bytes, so that these tests need no reader of text."""

from dataclasses import replace

from workbench.model import EQUAL, NIL, UNEQUAL, Book, Call, Cell, Condition, Pool, Predicate, Question, Record, Rule

SEGMENT_RULES = (
    Rule(0, ("a", "b"), conditions=(Condition(EQUAL, 0, 1),), line=3),
    Rule(0, ("a", "b", "c"), cells=(Cell(0, (2,)),), calls=(Call(0, (2, 1)),), line=4),
)
L = Book((Predicate("segment", 2),), SEGMENT_RULES)
L_BYTES = bytes.fromhex("01 02 00 02 00 00 01 00 00 01 00 00 00 01 00 01 00 01 02 01 00 02 01")

# The same where the second rule has a != b too: a plain book, which L is not.
PLAIN = Book((Predicate("segment", 2),), (SEGMENT_RULES[0], replace(SEGMENT_RULES[1], conditions=(Condition(UNEQUAL, 0, 1),))))
PLAIN_BYTES = bytes.fromhex("01 02 00 02 00 00 01 00 00 01 00 00 00 01 01 01 00 01 01 00 01 02 01 00 02 01")

# P(a) if b is not a and Q(a, b); Q(a, b) of no record. The bound variable b takes a spare.
S = Book(
    (Predicate("P", 1), Predicate("Q", 2)),
    (
        Rule(0, ("a", "b"), conditions=(Condition(UNEQUAL, 1, 0),), calls=(Call(1, (0, 1)),)),
        Rule(1, ("a", "b")),
    ),
)
S_BYTES = bytes.fromhex("02 01 02 00 02 00 01 01 01 01 00 00 01 01 00 01 01 00 00 00 00")

H = Book(
    (Predicate("segment", 2), Predicate("ring", 1), Predicate("queue", 2)),
    SEGMENT_RULES
    + (
        Rule(1, ("a", "b"), cells=(Cell(0, (1,)),), calls=(Call(0, (1, 0)),)),
        Rule(2, ("a", "b"), calls=(Call(0, (0, NIL)), Call(0, (1, NIL)))),
    ),
)

TWO = Pool((Record(10, (20,)), Record(20, (10,))))
TWO_BYTES = bytes.fromhex("02 0A000000 01 14000000 14000000 01 0A000000")
FROM_TEN_TO_TEN = Question(0, (10, 10))
FROM_TEN_TO_TEN_BYTES = bytes.fromhex("00 02 0A000000 0A000000")

CHAIN = Pool((Record(10, (20,)), Record(20, (0,))))
CHAIN_BYTES = bytes.fromhex("02 0A000000 01 14000000 14000000 01 00000000")
FROM_TEN_TO_NIL = Question(0, (10, 0))
FROM_TEN_TO_NIL_BYTES = bytes.fromhex("00 02 0A000000 00000000")

# Which fits no more than the first of the two records.
FROM_TEN_TO_TWENTY = Question(0, (10, 20))
FROM_TEN_TO_TWENTY_BYTES = bytes.fromhex("00 02 0A000000 14000000")

NOTHING = Pool(())
NOTHING_BYTES = bytes([0])

# The lines of segment(10, 10) over TWO, as README.md has them; the kept values are 0 1 2 3 10 20.
TWO_WORDS = (
    4 << 16 | 4 << 23, 4 | 4 << 8, 0,
    1 << 1 | 5 << 16 | 4 << 23, 5 | 4 << 8 | 4 << 16, 1 | 1 << 8,
    1 << 0 | 1 << 1 | 4 << 16 | 4 << 23, 4 | 4 << 8 | 5 << 16, 1 | 2 << 8,
)  # fmt: skip

# The lines of segment(10, 20) over the record 10 alone, with the same kept values.
TEN_WORDS = (
    5 << 16 | 5 << 23, 5 | 5 << 8, 0,
    1 << 0 | 4 << 16 | 5 << 23, 4 | 5 << 8 | 5 << 16, 1 | 1 << 8,
)  # fmt: skip
