"""A part of a pool: some of its records, as the number that the engine has for it, as addresses, and as text such as `0x10,0x20`."""

from collections.abc import Callable, Collection
from dataclasses import dataclass

from workbench.lexer import Tokens, shown
from workbench.model import Pool
from workbench.values import base_sixteen, read_value, write_value

NONE = "emp"


@dataclass(frozen=True)
class Part:
    """The addresses of its records, and those of the pool's other records."""

    records: tuple[int, ...]
    left_out: tuple[int, ...]


def part_of(number: int, pool: Pool) -> Part:
    """In the number bit i stands for record i, counted from 0 by ascending address."""
    inside = [bool(number >> i & 1) for i in range(len(pool.records))]
    records, left_out = (tuple(record.address for record, here in zip(pool.records, inside) if here is side) for side in (True, False))
    return Part(records, left_out)


def number_of(addresses: Collection[int], pool: Pool) -> int:
    return sum(1 << i for i, record in enumerate(pool.records) if record.address in addresses)


def parse_part(text: str, pool: Pool, source: str = "part") -> int:
    """The number of the part that these addresses name."""
    tokens = Tokens(text, source)
    if tokens.peek().kind == "end":
        raise tokens.mistake("there is no address here: write addresses such as 10,20, or emp for the empty part", tokens.peek())
    addresses: list[int] = []
    if tokens.peek().text == NONE:
        tokens.next()
    else:
        addresses.append(_address(tokens, pool, addresses))
        while tokens.take(","):
            addresses.append(_address(tokens, pool, addresses))
    if tokens.peek().kind != "end":
        raise tokens.mistake(f"{shown(tokens.peek())} cannot follow: write addresses with , between them, or emp alone", tokens.peek())
    return number_of(addresses, pool)


def _address(tokens: Tokens, pool: Pool, before: list[int]) -> int:
    token = tokens.next()
    if token.kind != "number":
        wrong = f"{shown(token)} is no address" if token.kind == "name" else f"an address is missing before {shown(token)}"
        raise tokens.mistake(f"{wrong}: write addresses such as 10,20, or emp alone{base_sixteen(token)}", token)
    address = read_value(tokens, token)
    if address not in {record.address for record in pool.records}:
        raise tokens.mistake(f"the pool has no record at {shown(token)}: {_known(pool)}", token)
    if address in before:
        raise tokens.mistake(f"{shown(token)} stands here twice: name each record once", token)
    return address


def _known(pool: Pool) -> str:
    known = ", ".join(write_value(record.address, pool.spellings) for record in pool.records)
    return f"its records are {known}" if known else "it has none, so write emp"


def write_part(records: Collection[int], shown_as: Callable[[int], str]) -> str:
    return ",".join(map(shown_as, records)) or NONE
