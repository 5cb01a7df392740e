"""The verbs `encode` and `decode`."""

import argparse

from workbench import coding
from workbench.model import END_MARK
from workbench.operands import one_standard_input, parsed, parser
from workbench.output import is_terminal, say_bytes, write_file
from workbench.status import YES
from workbench.wording import nearest

ENCODED = "book BOOK | snapshot POOL | question BOOK QUESTION | bench BOOK POOL QUESTION"
DECODED = "book FILE | snapshot FILE | question BOOK FILE | bench FILE"
# What -o may be for it.
STANDARD_OUTPUT = (None, "-")


def encode_verb(arguments: list[str]) -> int:
    made = parser(
        "encode",
        f"{ENCODED} [-o FILE] [--hex] [--mark]",
        "Writes the bytes of a book, a snapshot or a question, or all three as the bench program reads them.\n"
        "On a terminal they are shown in base sixteen. Nil is written as 0, as older controllers do, or with --mark as FFFFFFFF.",
        "./shapes encode bench house examples/queue.pool 'queue_and_free(0x10, 0x40)' | crates/bench/out/bench",
    )
    made.add_argument("-o", metavar="FILE", help="where to write; otherwise to standard output")
    made.add_argument("--hex", action="store_true", help="write base sixteen as text instead of bytes")
    made.add_argument("--mark", action="store_true", help="write nil as FFFFFFFF in fields, values of the question and constants")
    options = parsed(made, arguments, 2, 4)
    data = _of_kind(made, options.operands, coding.ENCODERS, END_MARK if options.mark else 0)
    as_hex = options.hex or (options.o in STANDARD_OUTPUT and is_terminal())
    _write_out(options.o, coding.hex_text(data).encode() if as_hex else data)
    return YES


def decode_verb(arguments: list[str]) -> int:
    made = parser(
        "decode",
        f"{DECODED} [-o FILE]",
        "Writes the text of a book, a snapshot or a question given as bytes, or of the bench program's input.\n"
        "Nil is `nil` there, whether the bytes have 0 or FFFFFFFF.",
        "./shapes decode bench crates/bench/stdin",
    )
    made.add_argument("-o", metavar="FILE", help="where to write; otherwise to standard output")
    options = parsed(made, arguments, 2, 3)
    text = _of_kind(made, options.operands, coding.DECODERS)
    _write_out(options.o, text.encode())
    return YES


def _of_kind(made: argparse.ArgumentParser, operands: list[str], kinds: dict, *more: int):
    kind, *rest = operands
    if kind not in kinds:
        near = nearest(kind, list(kinds))
        made.error(f"{kind!r} is none of {', '.join(kinds)}" + (f": did you mean {near}?" if near else ""))
    function, due = kinds[kind]
    if len(rest) != len(due):
        made.error(f"{kind} is followed by {' '.join(due)}")
    one_standard_input([operand for operand, name in zip(rest, due) if name != "QUESTION"])
    return function(*rest, *more)


def _write_out(path: str | None, data: bytes) -> None:
    if path in STANDARD_OUTPUT:
        say_bytes(data)
    else:
        write_file(path, data)
