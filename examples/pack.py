#!/usr/bin/env python3
"""pack.py FILE: the inputs of a test program, from a text to the bytes of its file stdin.

A line of the text is a block with a name, or a case; an indented line goes on with the block above; # starts a comment.

    NAME: bytes
    text | operation | book | snapshot | question
    text | check or check-part | book | snapshot | question | words

Bytes are in base sixteen. (n) is the number n in four bytes, the lowest first; a NAME stands for its block, NAME[:n] for the first n bytes
of it, and 00*n for n such bytes. Words are 64-bit numbers in base sixteen.

A case becomes sections, each after its length in two bytes, the lower first, as the bench program has them.

For the program faults: text, book, snapshot, question.
    read            as it stands
    cut BLOCK       a case for each beginning of the block book, snapshot or question: the empty one first, the whole one last
    spoil book      a case for each place of the book, which has the byte C8 there and ends with it
A text begins a new line of the output; the further cases of an operation, and cases without a text, go on with the line.

For the program cases: text, words, book, snapshot, question. A word has eight bytes, the lowest first. In the text, which goes on with what
is printed of the operation, a byte of 128 or more is the place of a number that the program finds.
    decide          the engine, with 1,024 lines: its reply. Words 0 1024 3072
    lend T S        the engine, with T words of table and S of unfolding space, and how many of them are not 0 afterwards. Words 0 T S
    last T S        the same, with the last fact of the table in place of those
    check           the check of the words, which follow on a word 1
    find T S        as lend, asked about some part, and whether the check takes what was written. Words 2 T S; 1024 3072 where none are given
    check-part P    the check of the words for a part, in base sixteen. They follow on a word 3 and the part
    walk            the quick walk, and the engine with 1,024 lines beside it. Words 4 0 0
    damage          the check of the engine's certificate, whole and damaged. No words
"""
import re
import sys

PLACES = {"book": 0, "snapshot": 1, "question": 2}
REPLY = "refusal @0 verdict @1 facts @2 rounds @3 lines @4"
PRINTED = {
    "decide": REPLY,
    "lend": REPLY + ", left: table @5 space @6",
    "last": REPLY + ", last fact @7",
    "check": "refusal @0 taken @1",
    "find": "refusal @0 verdict @1 part @2 facts @3 rounds @4 lines @5, taken @8, left: table @6 space @7",
    "check-part": "refusal @0 taken @1",
    "walk": "refusal @0 verdict @1, engine: refusal @2 verdict @3",
    "damage": "whole @0, bits @1 of @2, words @3 of @4, a line less @5, a word less @6, a line of 0 more @7, the last line again @8",
}
SPOILT = 0xC8


def bytes_of(text, names):
    found = b""
    for word in text.split():
        if m := re.fullmatch(r"\((\d+)\)", word):
            found += int(m[1]).to_bytes(4, "little")
        elif m := re.fullmatch(r"([0-9A-F]{2})(?:\*(\d+))?", word):
            found += bytes([int(m[1], 16)]) * int(m[2] or 1)
        elif m := re.fullmatch(r"(\w+)(?:\[:(\d+)\])?", word):
            block = names[m[1]]
            found += block[: int(m[2])] if m[2] else block
        else:
            raise ValueError(word)
    return found


def section(block):
    return len(block).to_bytes(2, "little") + block


def faults(text, operation, blocks, first):
    """The sections of one line for the program faults."""
    if operation[0] == "read":
        cases = [blocks]
    else:
        place = PLACES[operation[1]]
        whole = blocks[place]
        if operation[0] == "cut":
            others = [whole[:n] for n in range(len(whole) + 1)]
        else:
            others = [whole[:n] + bytes([SPOILT]) for n in range(len(whole))]
        cases = [blocks[:place] + [other] + blocks[place + 1 :] for other in others]
    texts = [("" if first or not text else "\n") + text] + [""] * (len(cases) - 1)
    return b"".join(section(t.encode()) + b"".join(map(section, case)) for t, case in zip(texts, cases))


def cases(text, operation, blocks, words):
    """The sections of one line for the program cases."""
    kind, *lent = operation
    if kind == "damage":
        tried = []
    elif kind in ("check", "check-part"):
        tried = [3 if lent else 1] + [int(word, 16) for word in lent + words]
    elif kind == "walk":
        tried = [4, 0, 0]
    else:
        tried = [2 * (kind == "find")] + ([int(number) for number in lent] or [1024, 3072])
    line = re.sub(rb"@(\d)", lambda m: bytes([128 + int(m[1])]), f"{text}: {PRINTED[kind]}\n".encode())
    packed = b"".join(word.to_bytes(8, "little") for word in tried)
    return b"".join(map(section, [line, packed, *blocks]))


def pack(lines):
    names, name, packed = {}, "", b""
    for line in lines:
        line = line.split("#")[0].rstrip()
        if not line:
            continue
        if "|" in line:
            text, operation, *fields = [field.strip() for field in line.split("|")]
            blocks = [bytes_of(field, names) for field in fields[:3]]
            operation = operation.split()
            if operation[0] in PRINTED:
                packed += cases(text, operation, blocks, " ".join(fields[3:]).split())
            else:
                packed += faults(text, operation, blocks, not packed)
        elif line[0] == " ":
            names[name] += bytes_of(line, names)
        else:
            name, block = line.split(":", 1)
            names[name] = bytes_of(block, names)
    return packed


sys.stdout.buffer.write(pack(open(sys.argv[1], encoding="utf-8")))
