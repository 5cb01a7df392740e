"""The input of the bench program: book, snapshot and question, each after its length in two bytes, the lower first."""

from workbench.mistake import Mistake

# What the bench program reads, the lengths included.
MOST_BYTES = 4096


def encode_bench(book: bytes, snapshot: bytes, question: bytes) -> bytes:
    """An empty book stands for the house book."""
    size = len(book) + len(snapshot) + len(question) + 6
    if size > MOST_BYTES:
        raise Mistake(f"book, snapshot and question take {size:,} bytes with their lengths: the bench program reads {MOST_BYTES:,}")
    return b"".join(len(part).to_bytes(2, "little") + part for part in (book, snapshot, question))


def decode_bench(data: bytes) -> tuple[bytes, bytes, bytes]:
    """Any bytes have three sections, as the bench program reads them: what is missing is 0 or not there, and what is more is ignored."""
    book, rest = _section(data[:MOST_BYTES])
    snapshot, rest = _section(rest)
    question, _ = _section(rest)
    return book, snapshot, question


def _section(data: bytes) -> tuple[bytes, bytes]:
    length = int.from_bytes(data[:2], "little")
    return data[2 : 2 + length], data[2 + length :]
