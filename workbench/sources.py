"""What a user names: a file, `-` for standard input, or `house` for the house book; text or bytes, told by the content."""

import os
import re
import sys
from collections.abc import Callable
from pathlib import Path

from workbench.book_bytes import decode_book, encode_book
from workbench.book_text import parse_book
from workbench.mistake import Mistake
from workbench.model import Book, Pool
from workbench.wording import nearest
from workbench.pool_bytes import decode_pool, encode_pool
from workbench.pool_text import parse_pool

HOUSE = "house"
HOUSE_FILE = Path(__file__).resolve().parent.parent / "examples" / "house.book"
MOST_BYTES = 2**20

# Bytes that no text has, and every book and snapshot has one of: a book begins with 1 to 8, a snapshot has a count of 0 to 4 in it.
NO_TEXT = frozenset(range(9)) | frozenset(range(14, 32))
PRINTABLE = frozenset(range(32, 127)) | {9, 10, 13}
# Bytes as `encode --hex` writes them. No text of a book is so, and of a pool none but one without its colons.
BASE_SIXTEEN = re.compile(rb"\s*[0-9A-Fa-f]{2}(\s+[0-9A-Fa-f]{2})+\s*")


def read_bytes(path: str, most: int = MOST_BYTES) -> bytes:
    name = source_name(path)
    try:
        data = _standard_input(most) if path == "-" else _file(path, most)
    except FileNotFoundError:
        raise Mistake(f"there is no such file{_near_file(path)}", name) from None
    except IsADirectoryError:
        raise Mistake("this is a directory: name a file in it", name) from None
    except PermissionError:
        raise Mistake("this file may not be read: see to its permissions", name) from None
    except (OSError, ValueError) as fault:
        raise Mistake(f"this cannot be read ({getattr(fault, 'strerror', None) or fault}): name another file", name) from None
    if len(data) > most:
        what = "book or pool" if most == MOST_BYTES else "unfolding"
        raise Mistake(f"this is larger than {most >> 20} MB, as no {what} is: name another file", name)
    return data


def source_name(path: str) -> str:
    """How messages call it."""
    return {"-": "standard input", "": "''"}.get(path, path)


def _standard_input(most: int) -> bytes:
    if sys.stdin is None:
        raise OSError("standard input is closed")
    return sys.stdin.buffer.read(most + 1)


def _file(path: str, most: int) -> bytes:
    with open(path, "rb") as file:
        return file.read(most + 1)


def _near_file(path: str) -> str:
    try:
        # Of a directory with very many files, some: the comparison must not take longer than a person waits.
        near = nearest(os.path.basename(path), sorted(os.listdir(os.path.dirname(path) or "."))[:2000])
    except (OSError, ValueError):
        return ": see to the directory"
    return f": did you mean {os.path.join(os.path.dirname(path), near)}?" if near else ": see to the name"


def is_text(data: bytes) -> bool:
    return NO_TEXT.isdisjoint(data) and _utf8_fault(data) is None


def _utf8_fault(data: bytes) -> int | None:
    """The place of the first byte that is not UTF-8."""
    try:
        data.decode("utf-8")
    except UnicodeDecodeError as fault:
        return fault.start
    return None


def refuse_base_sixteen(data: bytes, source: str, meant: Callable[[bytes], object] = bool) -> None:
    """A mistake where the text is bytes in base sixteen, if they are meant by it."""
    if BASE_SIXTEEN.fullmatch(data) and meant(bytes.fromhex(data.decode())):
        instead = "encode writes those without --hex, and `xxd -r -p` makes them of this"
        raise Mistake(f"these are bytes as text in base sixteen, and the bytes themselves are due: {instead}", source)


def read_text(data: bytes, source: str) -> str | None:
    """The text, or None where these are bytes. What is plainly text in another encoding is a mistake."""
    if is_text(data):
        return data.decode("utf-8-sig")
    if _wide(data):
        raise Mistake("this text is in UTF-16: save it as UTF-8", source)
    fault = _utf8_fault(data)
    mostly = sum(byte in PRINTABLE for byte in data) * 4 > len(data) * 3
    if fault is not None and mostly and NO_TEXT.isdisjoint(data):
        raise _not_utf8(data, fault, source)
    return None


def _wide(data: bytes) -> bool:
    """Text of two bytes to a character: every other byte is 0, and the others print. No well-formed book or snapshot is like that."""
    body = data[2:] if data[:2] in (b"\xff\xfe", b"\xfe\xff") else data
    halves = (body[::2], body[1::2])
    return len(body) >= 4 and any(not any(zeros) and PRINTABLE.issuperset(others) for zeros, others in (halves, halves[::-1]))


def _not_utf8(data: bytes, fault: int, source: str) -> Mistake:
    before = data[:fault].decode("utf-8").split("\n")
    text = data.decode("utf-8", "replace").split("\n")[len(before) - 1]
    message = f"the byte {data[fault]:02X} here is not UTF-8: save the file as UTF-8"
    return Mistake(message, source, len(before), len(before[-1]) + 1, text)


def read_book(path: str) -> tuple[Book | None, bytes, str]:
    """The book, its bytes, and how messages call it. Bytes that are no well-formed book have no book: the engine says what is wrong."""
    file = str(HOUSE_FILE) if path == HOUSE else path
    data, name = read_bytes(file), source_name(file)
    if not data:
        raise Mistake("there is nothing in it: a book has at least one block, such as p { emp => p() }", name)
    refuse_base_sixteen(data, name)
    text = read_text(data, name)
    if text is None:
        return decode_book(data), data, source_name(path)
    book = parse_book(text, name)
    return book, encode_book(book), source_name(path)


def read_pool(path: str) -> tuple[Pool | None, bytes, str]:
    """The pool, its bytes, and how messages call it, in the same way."""
    data, name = read_bytes(path), source_name(path)
    if not data:
        raise Mistake("there is nothing in it: write emp for a pool with no record, or lines such as 10: 20", name)
    refuse_base_sixteen(data, name, decode_pool)
    text = read_text(data, name)
    if text is None:
        return decode_pool(data), data, name
    pool = parse_pool(text, name)
    return pool, encode_pool(pool), name
