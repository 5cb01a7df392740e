"""Where a person would look first when a pool does not fit. This looks at the pool, the question's values and the book's constants and at no
rule, so it says nothing about the verdict."""

from collections import Counter
from collections.abc import Collection, Iterable
from dataclasses import dataclass, replace

from workbench.model import Pool, Question


@dataclass(frozen=True)
class Place:
    """A field of a record, counted from 1."""

    record: int
    field: int


@dataclass(frozen=True)
class Held:
    """A record that two or more fields hold."""

    record: int
    places: tuple[Place, ...]


@dataclass(frozen=True)
class Unreached:
    """A record to which no way leads from the question's values; `by` are the other records that point to it."""

    record: int
    by: tuple[int, ...]


@dataclass(frozen=True)
class Dangling:
    """A field whose value is not nil, no constant and no record's address; `asked` is true where the question names that value too."""

    place: Place
    value: int
    asked: bool


@dataclass(frozen=True)
class Outside:
    """A value of the question, counted from 1, that is not nil, no constant and no record's address."""

    argument: int
    value: int


@dataclass(frozen=True)
class Hints:
    held: tuple[Held, ...] = ()
    unreached: tuple[Unreached, ...] = ()
    dangling: tuple[Dangling, ...] = ()
    outside: tuple[Outside, ...] = ()

    def __bool__(self) -> bool:
        return bool(self.held or self.unreached or self.dangling or self.outside)


def hints(pool: Pool, question: Question, constants: Collection[int] = ()) -> Hints:
    """A constant, such as a type code, is meant to be there and to name no record."""
    places = _places(pool)
    meant = {0, *constants, *(record.address for record in pool.records)}
    return Hints(
        held=tuple(_held(pool, places)),
        unreached=tuple(_unreached(pool, question, places)),
        dangling=tuple(
            Dangling(place, value, value in question.values)
            for value, held_at in places.items()
            if value not in meant
            for place in held_at
        ),
        outside=tuple(Outside(i, value) for i, value in enumerate(question.values, 1) if value not in meant),
    )


def part_hints(pool: Pool, question: Question, constants: Collection[int] = ()) -> Hints:
    """Where no part fits: of the records to which the question's values lead alone. A part may leave the others out, so that neither they
    nor what they hold are a reason; none of those looked at is unreached."""
    reached = reached_from(question.values, pool)
    return hints(replace(pool, records=tuple(record for record in pool.records if record.address in reached)), question, constants)


def _places(pool: Pool) -> dict[int, list[Place]]:
    """For each value the fields that hold it."""
    places: dict[int, list[Place]] = {}
    for record in pool.records:
        for i, value in enumerate(record.fields, 1):
            places.setdefault(value, []).append(Place(record.address, i))
    return places


def _held(pool: Pool, places: dict[int, list[Place]]) -> Iterable[Held]:
    for record in pool.records:
        held_at = places.get(record.address, [])
        # Two records that point to one another are how a doubly linked list looks, and no reason to look closer.
        one_way = Counter(place.record for place in held_at) - Counter(record.fields)
        if len(held_at) > 1 and one_way:
            yield Held(record.address, tuple(held_at))


def _unreached(pool: Pool, question: Question, places: dict[int, list[Place]]) -> Iterable[Unreached]:
    reached = reached_from(question.values, pool)
    for record in pool.records:
        if record.address not in reached:
            by = sorted({place.record for place in places.get(record.address, [])} - {record.address})
            yield Unreached(record.address, tuple(by))


def reached_from(values: Iterable[int], pool: Pool) -> list[int]:
    """The addresses of the records to which fields lead from the values, nearest first."""
    fields = {record.address: record.fields for record in pool.records}
    reached: list[int] = []
    waiting = list(values)
    for value in waiting:
        if value in fields and value not in reached:
            reached.append(value)
            waiting += fields[value]
    return reached
