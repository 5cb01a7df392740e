#!/usr/bin/env python3
"""sharing.py words | lines: the input of the program sharing, or what it must print.

A word stands for a set of records: its last binary digit is for record 0, its first for record 15. Two words share a record if the two sets
have a common one, which is looked up here in the sets, digit by digit; no words are compared.

The words are 0, 1, 8000 and FFFF in base sixteen, each with its neighbours, each record alone, and the complement of each of these.
"""
import sys

EDGES = [0x0000, 0x0001, 0x8000, 0xFFFF]
MOST = 0xFFFF


def words():
    near = {word + step for word in EDGES for step in (-1, 0, 1)} | {2**record for record in range(16)}
    chosen = {word for word in near if 0 <= word <= MOST}
    return sorted(chosen | {MOST - word for word in chosen})


def records(word):
    return {15 - place for place, digit in enumerate(f"{word:016b}") if digit == "1"}


def lines():
    for word in words():
        sharing = [other for other in words() if any(record in records(other) for record in records(word))]
        yield f"{word:04x}:" + "".join(f" {other:04x}" for other in sharing) + "\n"


if sys.argv[1:] == ["words"]:
    sys.stdout.buffer.write(b"".join(word.to_bytes(2, "little") for word in words()))
elif sys.argv[1:] == ["lines"]:
    sys.stdout.write("".join(lines()))
else:
    sys.exit(__doc__)
