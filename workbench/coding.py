"""From text to bytes and back, by the kind of what is in the file."""

from workbench.bench_bytes import decode_bench, encode_bench
from workbench.book_bytes import encode_book, explain_book
from workbench.book_text import write_book
from workbench.mistake import Mistake
from workbench.model import Book
from workbench.pool_bytes import encode_pool, explain_pool
from workbench.pool_text import write_pool
from workbench.question_bytes import encode_question, explain_question
from workbench.question_text import parse_question, write_question
from workbench.sources import HOUSE, is_text, read_book, read_bytes, read_pool, refuse_base_sixteen, source_name

BYTES_IN_A_ROW = 16


def hex_text(data: bytes) -> str:
    rows = [data[at : at + BYTES_IN_A_ROW] for at in range(0, len(data), BYTES_IN_A_ROW)]
    return "".join(row.hex(" ").upper() + "\n" for row in rows)


def well_formed_book(path: str) -> Book:
    book, data, name = read_book(path)
    return book or explain_book(data, name)


# What encodes takes how nil is written, 0 or the end mark, last. Bytes are encoded anew too, so that they have one of both.
def encode_book_file(path: str, nil: int = 0) -> bytes:
    return encode_book(well_formed_book(path), nil)


def encode_pool_file(path: str, nil: int = 0) -> bytes:
    pool, data, name = read_pool(path)
    return encode_pool(pool or explain_pool(data, name), nil)


def encode_question_text(book_path: str, text: str, nil: int = 0) -> bytes:
    return encode_question(parse_question(text, well_formed_book(book_path)), nil)


def encode_bench_files(book_path: str, pool_path: str, text: str, nil: int = 0) -> bytes:
    book = well_formed_book(book_path)
    return encode_bench(encode_book(book, nil), encode_pool_file(pool_path, nil), encode_question(parse_question(text, book), nil))


def _bytes_of(path: str) -> bytes:
    data = read_bytes(path)
    refuse_base_sixteen(data, source_name(path))
    if data and is_text(data):
        raise Mistake("this is text already: decode takes bytes, such as encode writes", source_name(path))
    return data


def decode_book_file(path: str) -> str:
    return write_book(explain_book(_bytes_of(path), source_name(path)))


def decode_pool_file(path: str) -> str:
    return write_pool(explain_pool(_bytes_of(path), source_name(path)))


def decode_question_file(book_path: str, path: str) -> str:
    book = well_formed_book(book_path)
    return _line(write_question(explain_question(_bytes_of(path), book, source_name(path)), book))


def decode_bench_file(path: str) -> str:
    """Three parts under a comment each. An empty book stands for the house book, as in the bench program."""
    name = source_name(path)
    book_bytes, pool_bytes, question_bytes = decode_bench(_bytes_of(path))
    book = explain_book(book_bytes, name) if book_bytes else well_formed_book(HOUSE)
    pool = explain_pool(pool_bytes, name)
    question = explain_question(question_bytes, book, name)
    title = "# book" if book_bytes else "# book: none is given, which stands for the house book"
    parts = [f"{title}\n{_line(write_book(book))}", f"# pool\n{_line(write_pool(pool))}", f"# question\n{write_question(question, book)}\n"]
    return "\n".join(parts)


def _line(text: str) -> str:
    return text if text.endswith("\n") else text + "\n"


# For each kind what does it, and what is given after the kind.
ENCODERS = {
    "book": (encode_book_file, ("BOOK",)),
    "snapshot": (encode_pool_file, ("POOL",)),
    "question": (encode_question_text, ("BOOK", "QUESTION")),
    "bench": (encode_bench_files, ("BOOK", "POOL", "QUESTION")),
}
DECODERS = {
    "book": (decode_book_file, ("FILE",)),
    "snapshot": (decode_pool_file, ("FILE",)),
    "question": (decode_question_file, ("BOOK", "FILE")),
    "bench": (decode_bench_file, ("FILE",)),
}
