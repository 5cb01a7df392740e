"""One pool asked about: what goes to the engine, and what comes back from it in the book's own names."""

from dataclasses import dataclass, replace

from workbench import library
from workbench.book_bytes import explain_book
from workbench.hints import Hints, hints, part_hints
from workbench.mistake import Mistake
from workbench.model import Book, Pool, Question
from workbench.part import Part, part_of
from workbench.plain import not_plain
from workbench.pool_bytes import explain_pool
from workbench.unfolding import Line, read_lines

FIRST_LINES = 1_024
TABLE_TOO_SHORT = 11

FITS = "fits"
DOES_NOT_FIT = "does not fit"
REFUSED = "refused"
NOT_ANSWERED = "not answered"
# The refusal of a book that is not plain, and what is said where the workbench's own test finds no reason for it.
NOT_PLAIN = 12
NO_REASON = "the library and the workbench do not agree on this book: they are not of one version"


@dataclass(frozen=True)
class Asked:
    """Book, pool and question as bytes, which the library gets, and as they read, or None where the bytes are not well-formed. It is about
    the whole pool or about some part of it, and for the engine or, about the whole pool alone, for the quick walk."""

    book_bytes: bytes
    pool_bytes: bytes
    question_bytes: bytes
    book: Book | None
    pool: Pool | None
    question: Question | None
    some_part: bool = False
    by_walk: bool = False


@dataclass(frozen=True)
class Answer:
    """`lines` are there where the pool or a part fits by the engine, `hints` where neither does, and `detail` where bytes are refused: the
    first at fault. `part` is the one that fits, where some part was asked about. `not_plain` is there where the walk refuses a book that is
    not plain: why it is not."""

    asked: Asked
    reply: library.Reply
    lines: tuple[Line, ...] = ()
    hints: Hints = Hints()
    detail: str = ""
    part: Part | None = None
    not_plain: str = ""

    @property
    def kind(self) -> str:
        if self.reply.refusal:
            return NOT_ANSWERED if self.reply.refusal == NOT_PLAIN else REFUSED
        return FITS if self.reply.verdict else DOES_NOT_FIT


def ask(asked: Asked) -> Answer:
    reply = _reply(asked)
    if reply.refusal == NOT_PLAIN:
        return Answer(asked, reply, not_plain=(asked.book and not_plain(asked.book)) or NO_REASON)
    if reply.refusal:
        return Answer(asked, reply, detail=detail(asked))
    if asked.book is None or asked.pool is None or asked.question is None:
        raise Mistake("the library reads what the workbench could not: they are not of one version")
    if not reply.verdict:
        return Answer(asked, reply, hints=(part_hints if asked.some_part else hints)(asked.pool, asked.question, asked.book.constants))
    if asked.by_walk:
        return Answer(asked, reply)
    lines = tuple(read_lines(reply.words, asked.book, asked.pool, asked.question))
    return Answer(asked, reply, lines, part=part_of(reply.part, asked.pool) if asked.some_part else None)


def ask_next(answer: Answer) -> Answer | None:
    """What to try where the whole pool does not fit: the answer about some part of it. It takes a table, for which nobody waits who asked
    for the walk."""
    if answer.kind != DOES_NOT_FIT or answer.asked.some_part or answer.asked.by_walk:
        return None
    found = ask(replace(answer.asked, some_part=True))
    # The same table was long enough before. Were there a refusal all the same, the pool has its answer already.
    return None if found.kind == REFUSED else found


def _reply(asked: Asked) -> library.Reply:
    if asked.by_walk:
        return library.Reply(*library.walk(asked.book_bytes, asked.pool_bytes, asked.question_bytes))

    def with_table(lines: int) -> library.Reply:
        return library.decide(asked.book_bytes, asked.pool_bytes, asked.question_bytes, lines, asked.some_part)

    reply = with_table(FIRST_LINES)
    return with_table(library.MOST_LINES) if reply.refusal == TABLE_TOO_SHORT else reply


def detail(asked: Asked) -> str:
    """The first byte at fault, where bytes are refused."""
    try:
        if asked.book is None:
            explain_book(asked.book_bytes)
        elif asked.pool is None:
            explain_pool(asked.pool_bytes)
    except Mistake as mistake:
        return mistake.message
    return ""
