"""Questions as bytes."""

from workbench.byte_reader import ByteReader, value_bytes
from workbench.mistake import Mistake
from workbench.model import Book, Question
from workbench.wording import count


def encode_question(question: Question, nil: int = 0) -> bytes:
    return bytes([question.predicate, len(question.values)]) + value_bytes(question.values, nil)


def decode_question(data: bytes, book: Book) -> Question | None:
    """None where the bytes are no question about this book."""
    try:
        return explain_question(data, book)
    except Mistake:
        return None


def explain_question(data: bytes, book: Book, source: str = "") -> Question:
    """The question, or a mistake that names the first byte at fault."""
    reader = ByteReader(data, "question", source)
    predicate = reader.byte("the predicate")
    if predicate >= len(book.predicates):
        raise reader.mistake(f"{predicate} stands for the predicate, and the last one of the book is {len(book.predicates) - 1}", 0)
    due = book.predicates[predicate].arguments
    found = reader.byte("the number of values")
    if found != due:
        name = book.predicates[predicate].name
        raise reader.mistake(f"{found} stands for the number of values, and {name} has {count(due, 'argument')}", 1)
    values = tuple(reader.value("a value") for _ in range(due))
    reader.finish()
    return Question(predicate, values)
