"""What is given to the verbs: how it is parsed, and files and questions read."""

import argparse
import os
from collections.abc import Sequence

from workbench.asking import Asked
from workbench.mistake import Mistake, printable
from workbench.model import Book, Question
from workbench.notes import notes
from workbench.output import say, say_wrong
from workbench.question_bytes import encode_question
from workbench.question_text import parse_question
from workbench.sources import read_book, read_pool

OPERANDS = """BOOK is a file with rules, as text or as bytes; the word house stands for the house book. POOL is a file with records, as
text or as a snapshot's bytes. One of the files may be -, for standard input. A QUESTION is text, such as 'segment(10, nil)'."""


class _Parser(argparse.ArgumentParser):
    def print_help(self, file=None) -> None:
        """As every output, so that a full disk is noticed."""
        say(self.format_help())


def parser(verb: str, usage: str, what: str, example: str) -> argparse.ArgumentParser:
    made = _Parser(
        prog=f"./shapes {verb}",
        usage=f"./shapes {verb} {usage}",
        description=what,
        epilog=f"{OPERANDS}\n\nExample:\n  {example}",
        formatter_class=argparse.RawDescriptionHelpFormatter,
    )
    made.add_argument("operands", nargs="*", help=argparse.SUPPRESS)
    return made


def parsed(made: argparse.ArgumentParser, arguments: list[str], fewest: int, most: int | None) -> argparse.Namespace:
    """The arguments; argparse ends the program with status 2 and the usage where there are too few or too many."""
    # What stands after -- is taken away first, since argparse, which reads intermixed arguments twice, may forget that.
    end = arguments.index("--") if "--" in arguments else len(arguments)
    options = made.parse_intermixed_args(arguments[:end])
    # Of -- in --save=-- it makes no value but an empty list.
    if any(value == [] for name, value in vars(options).items() if name != "operands"):
        made.error("-- is no value of an option: name a file ./-- if it is called so")
    options.operands += arguments[end + 1 :]
    count = len(options.operands)
    if count < fewest or (most is not None and count > most):
        due = f"{fewest}" if most == fewest else f"at least {fewest}"
        made.error(f"{due} arguments are due, and here are {count}")
    return options


def one_standard_input(files: Sequence[str]) -> None:
    if list(files).count("-") > 1:
        raise Mistake("only one of the files can be -, since standard input can be read only once: give the others as files")


def read_noted_book(file: str) -> tuple[Book | None, bytes, str]:
    """The book, and on standard error what in it may be a slip."""
    book, data, name = read_book(file)
    for note in notes(book, name) if book else ():
        say_wrong(f"{printable(note)}\n")
    return book, data, name


def read_question(text: str, book: Book | None) -> tuple[Question | None, bytes]:
    """No question where the bytes of the book are not well-formed: the engine refuses the book before it looks at the question."""
    if book is None:
        return None, b""
    try:
        question = parse_question(text, book)
    except Mistake:
        if os.path.isfile(text):
            raise Mistake("this is a file where a question such as 'segment(10, nil)' is due: see to the order, with --help", text) from None
        raise
    return question, encode_question(question)


def read_asked(book_file: str, pool_file: str, question_text: str) -> Asked:
    one_standard_input((book_file, pool_file))
    book, book_bytes, _ = read_noted_book(book_file)
    question, question_bytes = read_question(question_text, book)
    pool, pool_bytes, _ = read_pool(pool_file)
    return Asked(book_bytes, pool_bytes, question_bytes, book, pool, question)
