#!/usr/bin/env python3
"""Asks the shared library whether two records that point to one another are a list segment from the first to itself, reads the unfolding
and has it checked; then the same for some part of the records; last, the quick walk, of a plain book and of
the first one, which is not plain. target/libshapes.so is made by the first `./shapes ask`."""
from ctypes import CDLL, byref, c_size_t, c_uint8, c_uint16, c_uint64
from pathlib import Path

BOOK = bytes.fromhex("01 02 00 02  00 00 01 00 00 01 00 00  00 01 00 01 00 01 02 01 00 02 01")  # the rules of examples/segment.book
SNAPSHOT = bytes.fromhex("02  0A000000 01 14000000  14000000 01 0A000000")  # 10: 20 and 20: 10
QUESTION = bytes.fromhex("00 02 0A000000 0A000000")  # segment(10, 10)
TO_20 = bytes.fromhex("00 02 0A000000 14000000")  # segment(10, 20)
PLAIN = bytes.fromhex("01 02 00 02  00 00 01 00 00 01 00 00  00 01 01 01 00 01 01 00 01 02 01 00 02 01")  # those of examples/plain/segment.book
CHAIN = bytes.fromhex("02  0A000000 01 14000000  14000000 01 1E000000")  # 10: 20 and 20: 30
TO_30 = bytes.fromhex("00 02 0A000000 1E000000")  # segment(10, 30)
KEPT = (0, 1, 2, 3, 10, 20)  # nil, three spares since the largest rule has three variables, and what snapshot and question name
LINES = 1024


def lent(*blocks: bytes) -> list:
    return [piece for block in blocks for piece in ((c_uint8 * len(block))(*block), c_size_t(len(block)))]


path = Path(__file__).resolve().parent.parent / "target" / "libshapes.so"
if not path.exists():
    raise SystemExit("target/libshapes.so is not there yet: the first ./shapes ask makes it")
library = CDLL(str(path))
if not hasattr(library, "shapes_walk"):
    raise SystemExit("target/libshapes.so is of an older version: the next ./shapes ask makes it again")
for entry in (library.shapes_decide, library.shapes_check, library.shapes_part, library.shapes_check_part, library.shapes_walk):
    entry.restype = c_uint64

table, space = (c_uint64 * LINES)(), (c_uint64 * (3 * LINES))()
memory = table, c_size_t(LINES), space, c_size_t(3 * LINES)
verdict, facts, rounds, lines, taken = (c_uint64() for _ in range(5))
asked = lent(BOOK, SNAPSHOT, QUESTION)
refusal = library.shapes_decide(*asked, *memory, byref(verdict), byref(facts), byref(rounds), byref(lines))
print(f"refusal {refusal} verdict {verdict.value} facts {facts.value} rounds {rounds.value} lines {lines.value}")

for line in range(lines.value):
    fact, _, rule = space[3 * line : 3 * line + 3]
    first, second = KEPT[fact >> 16 & 127], KEPT[fact >> 23 & 127]
    print(f"line {line + 1}: segment({first}, {second}) of records {fact & 65535:02b}, by rule {rule & 255}, calls {rule >> 8 & 65535}")

for words in (3 * lines.value, 3 * lines.value - 1):
    refusal = library.shapes_check(*asked, space, c_size_t(words), byref(taken))
    print(f"check of {words} words: refusal {refusal} taken {taken.value}")

asked, part = lent(BOOK, SNAPSHOT, TO_20), c_uint16()
refusal = library.shapes_part(*asked, *memory, byref(verdict), byref(part), byref(facts), byref(rounds), byref(lines))
print(f"some part: refusal {refusal} verdict {verdict.value} records {part.value:02b} lines {lines.value}")
refusal = library.shapes_check_part(*asked, part, space, c_size_t(3 * lines.value), byref(taken))
print(f"check of this part: refusal {refusal} taken {taken.value}")

for blocks in ((PLAIN, CHAIN, TO_30), (PLAIN, CHAIN, TO_20), (BOOK, SNAPSHOT, QUESTION)):
    refusal = library.shapes_walk(*lent(*blocks), byref(verdict))
    print(f"walk: refusal {refusal} verdict {verdict.value}" + " (not plain: ask shapes_decide)" * (refusal == 12))
