"""A pool as a graph in DOT, the language of Graphviz: a box for each record, an arrow for each field that names one. Colours never stand
alone: whatever a colour says is also there as words, a border or a dashed line."""

import shutil
import subprocess
from html import escape
from pathlib import Path

from workbench.asking import FITS, Answer
from workbench.mistake import Mistake
from workbench.model import Record
from workbench.names import Names
from workbench.render import verdict
from workbench.wording import count

# Light tints of the palette of Okabe and Ito, which colour-blind people can tell apart, one for each predicate that a book can have.
FILLS = ("#A9D6F2", "#F6D28B", "#98D7C2", "#F7F0A3", "#E7C1D7", "#F2BC98", "#A3BCDB", "#CFCFCF")
PLAIN = "#F2F2F2"
HELD = "#F6D28B"
OUTSIDE = "#FFFFFF"
LOOSE = "#C04A00"
INK = "#222222"
DASHED = 'BORDER="2" STYLE="dashed"'
MOST_LABEL = 100


def dot_text(answer: Answer) -> str:
    """The picture of a pool that fits or does not; a refusal has none."""
    return "\n".join(_Picture(answer).lines()) + "\n"


class _Picture:
    def __init__(self, answer: Answer):
        self.names = Names(answer.asked)
        self.pool, self.question = self.names.pool, self.names.question
        self.fits = answer.kind == FITS
        self.verdict = f": {verdict(answer)}" if answer.asked.some_part else f" {verdict(answer)}"
        self.left_out = answer.part.left_out if answer.part else ()
        self.taken_by = {address: line.predicate for line in answer.lines for address in line.takes}
        self.held = {held.record: len(held.places) for held in answer.hints.held}
        self.unreached = {lost.record: lost.by for lost in answer.hints.unreached}
        self.addresses = {record.address for record in self.pool.records}
        self.led: dict[int, list[int]] = {address: [] for address in self.addresses}
        self.chains = self._chains()
        self.starts = [chain[0] for chain in self.chains]
        self.downward = any(self._branches(record) for record in self.pool.records)

    def lines(self) -> list[str]:
        records = [self._record(address) for chain in self.chains for address in chain]
        return [
            "digraph pool {",
            f'  graph [rankdir={"TB" if self.downward else "LR"}, nodesep=0.35, ranksep=0.55, labelloc=b, fontname="Helvetica", '
            f'fontsize=12, bgcolor="white", label={self._legend()}]',
            f'  node [shape=plain, fontname="Helvetica", fontsize=12, fontcolor="{INK}"]',
            f'  edge [color="{INK}", arrowsize=0.7]',
            *self._entries(),
            *(self._box(record) for record in records),
            *self._loose_values(),
            *(row for record in records for row in self._arrows(record)),
            *self._side_by_side(),
            "}",
        ]

    def _record(self, address: int) -> Record:
        return next(record for record in self.pool.records if record.address == address)

    def _chains(self) -> list[list[int]]:
        """The records as a reader follows them, from the question's values on, then from records that nothing holds, then from what is
        left. A chain has the records that no earlier one has."""
        held = {value for record in self.pool.records for value in record.fields}
        chains: list[list[int]] = []
        seen: set[int] = set()
        for start in [*self.question.values, *sorted(self.addresses - held), *sorted(self.addresses)]:
            if start in self.addresses and start not in seen:
                chains.append(self._follow(start, seen))
        return chains

    def _follow(self, address: int, seen: set[int]) -> list[int]:
        seen.add(address)
        chain = [address]
        for value in self._record(address).fields:
            if value in self.addresses and value not in seen:
                self.led[address].append(value)
                chain += self._follow(value, seen)
        return chain

    def _goes_back(self, address: int, value: int) -> bool:
        chain = next(chain for chain in self.chains if address in chain)
        return value in chain and chain.index(value) <= chain.index(address)

    def _branches(self, record: Record) -> bool:
        """Whether two fields lead on to different records: then the picture grows downward, as trees do. One that points back counts only
        where the reader comes to it first from here, as to a child that holds its parent; in a doubly linked list that is one."""
        onward = {value for value in record.fields if value in self.addresses and record.address not in self._record(value).fields}
        return len(onward - {record.address}) > 1 or len(self.led[record.address]) > 1

    # Boxes.

    def _box(self, record: Record) -> str:
        fill, border, word = self._mark(record.address)
        head = f"<B>{_label(self.names.value(record.address))}</B>"
        if word:
            head += f'<BR/><FONT POINT-SIZE="9">{_label(word)}</FONT>'
        fields = [f'<TD PORT="f{i}" BGCOLOR="white">{_label(self.names.value(value))}</TD>' for i, value in enumerate(record.fields, 1)]
        rows = self._rows(f'PORT="head" BGCOLOR="{fill}">{head}</TD>', fields)
        table = "".join(f"<TR>{row}</TR>" for row in rows)
        return f'  r{record.address} [label=<<TABLE CELLBORDER="1" CELLSPACING="0" CELLPADDING="5" {border}>{table}</TABLE>>]'

    def _rows(self, head: str, fields: list[str]) -> list[str]:
        """The fields stand on the side from which the picture goes on: below the head, or to the right of it."""
        count = max(1, len(fields))
        if self.downward:
            return [f'<TD COLSPAN="{count}" {head}'] + (["".join(fields)] if fields else [])
        return [f'<TD ROWSPAN="{count}" {head}' + "".join(fields[:1])] + fields[1:]

    def _mark(self, address: int) -> tuple[str, str, str]:
        """Fill, border and words of a record."""
        thin, thick, dashed = (f'{border} COLOR="{INK}"' for border in ('BORDER="0"', 'BORDER="3"', DASHED))
        if address in self.taken_by:
            predicate = self.taken_by[address]
            return FILLS[predicate], thin, self.names.book.predicates[predicate].name
        if address in self.left_out:
            return OUTSIDE, dashed, "left out"
        if address in self.held:
            words = f"held by {self.held[address]} fields" + (", not reached" if address in self.unreached else "")
            return HELD, thick, words
        if address in self.unreached:
            return OUTSIDE, dashed, "not reached" if self.unreached[address] else "held by none"
        return PLAIN, thin, ""

    # What fields and the question's values lead to.

    def _entries(self) -> list[str]:
        """A label for each value of the question that is not nil, with an arrow unless it is a constant; values that are equal share one."""
        rows = []
        arguments = self._argument_names()
        for value in dict.fromkeys(filter(None, self.question.values)):
            here = [name for name, other in zip(arguments, self.question.values) if other == value]
            words = _label(" = ".join([*here, self.names.value(value)]))
            rows.append(f"  q{value} [label=<<I>{words}</I>>]")
            if not self._is_constant(value):
                rows.append(f"  {self._entry_arrow(value)}")
        return rows

    def _entry_arrow(self, value: int) -> str:
        """From the front to where a reader starts, and from above to a record in the middle of a row."""
        arrow, shape = f"q{value} -> {self._target(value)}", "[style=dotted, arrowhead=vee]"
        if value not in self.addresses or self.downward:
            return f"{arrow} {shape}"
        # Between two boxes of one rank Graphviz draws no head on an arrow to a part of a box: this one goes to the whole box.
        return f"{arrow}:w {shape}" if value in self.starts else f"{{ rank=same; q{value} -> r{value} {shape} }}"

    def _argument_names(self) -> list[str]:
        """As the rules of the predicate call them, where these agree."""
        count = len(self.question.values)
        heads = {rule.variables[:count] for rule in self.names.book.rules if rule.predicate == self.question.predicate}
        return list(heads.pop()) if len(heads) == 1 else [f"value {i}" for i in range(1, count + 1)]

    def _target(self, value: int) -> str:
        return f"r{value}:head" if value in self.addresses else f"loose{value}"

    def _loose_values(self) -> list[str]:
        """Values that are not nil and no record's address: one dashed box for each. A constant of the book has none."""
        values = {value for record in self.pool.records for value in record.fields} | set(self.question.values)
        style = f'shape=box, style=dashed, color="{LOOSE}", fontcolor="{LOOSE}", margin="0.08,0.04", height=0.2'
        return [
            f'  loose{value} [label=<{_label(self.names.value(value))}<BR/><FONT POINT-SIZE="9">no record</FONT>>, {style}]'
            for value in sorted(values - self.addresses - {0, *self.names.book.constants})
        ]

    def _is_constant(self, value: int) -> bool:
        """Whether the value is one of the book's numbers, such as a type code, and leads nowhere."""
        return value != 0 and value in self.names.book.constants and value not in self.addresses

    def _arrows(self, record: Record) -> list[str]:
        rows = []
        for i, value in enumerate(record.fields, 1):
            start = f"r{record.address}:f{i}"
            if self._is_constant(value):
                continue
            if value == 0:
                rows += self._nil(record.address, i, start)
            elif self._goes_back(record.address, value):
                back = self._to_itself(record, i) if value == record.address else self._back(start, value, i == len(record.fields))
                rows.append(f"  {back}{self._stroke(value)}")
            else:
                # Graphviz draws heavier arrows straighter: simple lists then stand in one row.
                weight = 8 if len(record.fields) == 1 else 1
                rows.append(f"  {start}{self._onward()} -> {self._target(value)}{self._stroke(value, weight)}")
        return rows

    def _onward(self) -> str:
        """The side on which the picture goes on."""
        return ":s" if self.downward else ":e"

    def _back(self, start: str, value: int, is_last: bool) -> str:
        """An arrow back runs below the row of records; in a picture that grows downward Graphviz chooses the way."""
        if self.downward:
            return f"{start} -> {self._target(value)}"
        return f"{start}{':s' * is_last} -> {self._target(value)}:s"

    def _to_itself(self, record: Record, field: int) -> str:
        """On the field's side of the box: Graphviz itself would go through the box or across the label of a value."""
        last, first, between = (("e", "e"), ("w", "w"), ("s", "e")) if self.downward else (("s", "s"), ("n", "n"), ("e", "s"))
        out, back = last if field == len(record.fields) else first if field == 1 else between
        return f"r{record.address}:f{field}:{out} -> {self._target(record.address)}:{back}"

    def _nil(self, address: int, field: int, start: str) -> list[str]:
        mark, side = f"nil{address}_{field}", "n" if self.downward else "w"
        return [f"  {mark} [label={_ground(self.downward)}]", f"  {start}{self._onward()} -> {mark}:{side} [arrowhead=none]"]

    def _stroke(self, value: int, weight: int = 1) -> str:
        if value not in self.addresses:
            return f' [style=dashed, color="{LOOSE}"]'
        parts = ["penwidth=2.2"] * (value in self.held) + [f"weight={weight}"] * (weight != 1)
        return f" [{', '.join(parts)}]" if parts else ""

    def _side_by_side(self) -> list[str]:
        """Chains start at one edge of the picture, in the order of the question's values; not where one start points to another, since
        between boxes of one rank Graphviz loses the heads of arrows."""
        linked = {address for start in self.starts for address in self._other_starts(start)}
        free = [start for start in self.starts if start not in linked and not self._other_starts(start)]
        chain = " -> ".join(f"r{address}" for address in free)
        return [f"  {{ rank=same; {chain} [style=invis] }}"] if len(free) > 1 else []

    def _other_starts(self, start: int) -> set[int]:
        return set(self._record(start).fields) & set(self.starts) - {start}

    # The legend, which is the picture's label.

    def _legend(self) -> str:
        # The title stands in the column of the words, where it does not widen that of the swatches.
        rows = ['<TR><TD HEIGHT="8"></TD><TD></TD></TR>']
        rows.append(f'<TR><TD></TD><TD ALIGN="LEFT"><B>{_label(self.names.asked())}</B>{self.verdict}</TD></TR>')
        rows += [_legend_row(*row) for row in (self._taken_legend() if self.fits else self._hint_legend())]
        return f'<<TABLE BORDER="0" CELLBORDER="0" CELLSPACING="4" CELLPADDING="2">{"".join(rows)}</TABLE>>'

    def _taken_legend(self) -> list[tuple[str, str, str]]:
        rows = []
        for predicate in sorted(set(self.taken_by.values())):
            many = list(self.taken_by.values()).count(predicate)
            words = f"{self.names.book.predicates[predicate].name} takes {count(many, 'record')}"
            rows.append((FILLS[predicate], 'BORDER="1"', words))
        if self.left_out:
            rows.append((OUTSIDE, DASHED, f"{count(len(self.left_out), 'record')} left out"))
        return rows or [("white", 'BORDER="1"', "the pool has no record")]

    def _hint_legend(self) -> list[tuple[str, str, str]]:
        rows = []
        if self.held:
            rows.append((HELD, 'BORDER="3"', "held by two or more fields (thick arrows)"))
        if self.unreached:
            rows.append((OUTSIDE, DASHED, "no way leads here from the question's values"))
        if self._loose_values():
            rows.append(("white", f'BORDER="1" STYLE="dashed" COLOR="{LOOSE}"', "not nil, and no record has this address"))
        return rows or [("white", 'BORDER="1"', "no hints")]


def _legend_row(fill: str, border: str, words: str) -> str:
    swatch = f'<TD {border} BGCOLOR="{fill}" WIDTH="26" HEIGHT="14" FIXEDSIZE="TRUE"></TD>'
    return f'<TR>{swatch}<TD ALIGN="LEFT">{_label(words)}</TD></TR>'


def _ground(downward: bool) -> str:
    """The mark for nil: three strokes, each shorter than the one before, as for earth in a circuit."""
    if downward:
        strokes = "".join(f"<TR><TD>{_stroke_table(width, 2)}</TD></TR>" for width in (16, 10, 4))
    else:
        strokes = f"<TR>{''.join(f'<TD>{_stroke_table(2, height)}</TD>' for height in (16, 10, 4))}</TR>"
    return f'<<TABLE BORDER="0" CELLBORDER="0" CELLSPACING="2" CELLPADDING="0">{strokes}</TABLE>>'


def _stroke_table(width: int, height: int) -> str:
    cell = f'<TD FIXEDSIZE="TRUE" WIDTH="{width}" HEIGHT="{height}" BGCOLOR="{INK}"></TD>'
    return f'<TABLE BORDER="0" CELLBORDER="0" CELLSPACING="0" CELLPADDING="0"><TR>{cell}</TR></TABLE>'


def _label(text: str) -> str:
    """Graphviz takes no label of more than some thousand characters, and a picture has no room for them."""
    return escape(text if len(text) <= MOST_LABEL else text[: MOST_LABEL - 3] + "...")


FORMATS = ("svg", "png", "dot")


def format_of(path: str) -> str:
    ending = Path(path).suffix.lower().removeprefix(".")
    if ending not in FORMATS:
        raise Mistake("a picture's name ends in .svg, .png or .dot", path)
    return ending


def picture(text: str, format_name: str) -> bytes:
    """The DOT text laid out by Graphviz, or as it is."""
    if format_name == "dot":
        return text.encode()
    if shutil.which("dot") is None:
        raise Mistake("pictures are laid out by Graphviz, which is not installed: apt-get install graphviz on Debian, or name a .dot file")
    command = ["dot", f"-T{format_name}"] + (["-Gdpi=144"] if format_name == "png" else [])
    done = subprocess.run(command, input=text.encode(), capture_output=True, check=False)
    if done.returncode:
        raise Mistake(f"Graphviz could not lay out the picture: {done.stderr.decode(errors='replace').strip()}")
    return done.stdout
