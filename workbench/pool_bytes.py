"""Pools as bytes: snapshots."""

from workbench.byte_reader import ByteReader, number_bytes, value_bytes
from workbench.mistake import Mistake
from workbench.model import END_MARK, MOST_FIELDS, MOST_RECORDS, Pool, Record


def encode_pool(pool: Pool, nil: int = 0) -> bytes:
    found = bytes([len(pool.records)])
    for record in pool.records:
        found += number_bytes(record.address) + bytes([len(record.fields)]) + value_bytes(record.fields, nil)
    return found


def decode_pool(data: bytes) -> Pool | None:
    """None where the bytes are no well-formed snapshot."""
    try:
        return explain_pool(data)
    except Mistake:
        return None


def explain_pool(data: bytes, source: str = "") -> Pool:
    """The pool, or a mistake that names the first byte at fault."""
    reader = ByteReader(data, "snapshot", source)
    records: list[Record] = []
    for _ in range(reader.count("the number of records", MOST_RECORDS)):
        records.append(_record(reader, records[-1].address if records else 0))
    reader.finish()
    return Pool(tuple(records))


def _record(reader: ByteReader, before: int) -> Record:
    place = reader.at
    address = reader.number("an address")
    if address == 0:
        raise reader.mistake("the address is 0, which is nil and never an address", place)
    if address == END_MARK:
        raise reader.mistake("the address is FFFFFFFF, which is the end mark, so nil and never an address", place)
    if address <= before:
        raise reader.mistake(f"the address {address} follows {before}, and addresses must ascend", place)
    fields = reader.count("the number of fields", MOST_FIELDS)
    return Record(address, tuple(reader.value("a field") for _ in range(fields)))
