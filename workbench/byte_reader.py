"""Bytes read front to back. A fault is a mistake that names the byte, counted from 0, and what is due there."""

from collections.abc import Iterable

from workbench.mistake import Mistake
from workbench.model import END_MARK
from workbench.wording import count


class ByteReader:
    """`block` is what the bytes are meant to be: the book, the snapshot or the question."""

    def __init__(self, data: bytes, block: str, source: str):
        self.data = data
        self.block = block
        self.source = source
        self.at = 0

    def mistake(self, message: str, offset: int) -> Mistake:
        return Mistake(f"byte {offset} of the {self.block}: {message}", self.source)

    def byte(self, due: str) -> int:
        if self.at >= len(self.data):
            raise self.mistake(f"the {self.block} ends where {due} is due", self.at)
        self.at += 1
        return self.data[self.at - 1]

    def count(self, due: str, most: int, least: int = 0) -> int:
        found = self.byte(due)
        if not least <= found <= most:
            raise self.mistake(f"{found} stands for {due}, which is {least} to {most}", self.at - 1)
        return found

    def number(self, due: str) -> int:
        """Four bytes, the lowest first."""
        return sum(self.byte(due) << (8 * place) for place in range(4))

    def value(self, due: str) -> int:
        """A number whose end mark is nil."""
        found = self.number(due)
        return 0 if found == END_MARK else found

    def finish(self) -> None:
        more = len(self.data) - self.at
        if more:
            raise self.mistake(f"the {self.block} is complete before this byte: {count(more, 'byte')} too many", self.at)


def number_bytes(value: int) -> bytes:
    return value.to_bytes(4, "little")


def value_bytes(values: Iterable[int], nil: int) -> bytes:
    """Values one after the other; `nil` is 0 or the end mark."""
    return b"".join(number_bytes(value or nil) for value in values)
