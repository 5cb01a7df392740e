"""The verb `check`: an unfolding from a file, and where it is not taken what a reader stumbles on."""

from argparse import ArgumentTypeError

from workbench import library
from workbench.asking import Asked, detail
from workbench.mistake import Mistake
from workbench.model import Pool
from workbench.names import Names
from workbench.operands import one_standard_input, parsed, parser, read_asked
from workbench.output import say
from workbench.part import Part, number_of, parse_part, part_of, write_part
from workbench.render import refusal_text
from workbench.sources import read_bytes
from workbench.status import FAULT, NO, YES
from workbench.unfolding import WORDS_PER_LINE, read_lines, words_from_bytes

# The longest unfolding that the check takes, of 65,535 lines, has 1.5 MB.
MOST_UNFOLDING_BYTES = 2**22


def check_verb(arguments: list[str]) -> int:
    made = parser(
        "check",
        "BOOK POOL QUESTION UNFOLDING [--part RECORDS]",
        "Says whether an unfolding holds: `taken` (status 0) or `not taken` (1). Status 2: a refusal, or something cannot be read.\n"
        "UNFOLDING is a file that `ask --save` wrote, or one from anywhere else.",
        "./shapes check house p.pool 'segment(10, nil)' p.unfolding",
    )
    made.add_argument("--part", metavar="RECORDS", type=_records, help="for this part, such as 10,20 or emp, instead of all records")
    options = parsed(made, arguments, 4, 4)
    book_file, pool_file, question_text, words_file = options.operands
    one_standard_input((book_file, pool_file, words_file))
    asked = read_asked(book_file, pool_file, question_text)
    part = _part(options.part, asked.pool)
    data = read_bytes(words_file, MOST_UNFOLDING_BYTES)
    words, doubt = _words(data, words_file)
    refusal, taken = _check(asked, words, part)
    if refusal:
        say(refusal_text(refusal, detail(asked)) + "\n")
        return FAULT
    say("taken\n" if taken else "not taken\n" + (doubt or _doubt(words, asked, part)))
    return YES if taken else NO


def _records(text: str) -> str:
    """An answer shows a part with spaces in it. Copied as it is, it makes several arguments, of which the first ends in a comma."""
    if text.rstrip().endswith(","):
        raise ArgumentTypeError("nothing follows the last comma: write addresses without spaces, such as 10,20")
    return text


def _part(text: str | None, pool: Pool | None) -> int | None:
    """The part given, or none for the whole pool. Bytes that are no pool have no part: the engine refuses them whatever it is."""
    return None if text is None or pool is None else parse_part(text, pool)


def _check(asked: Asked, words: tuple[int, ...], part: int | None) -> tuple[int, int]:
    return library.check(asked.book_bytes, asked.pool_bytes, asked.question_bytes, words, part)


def _words(data: bytes, source: str) -> tuple[tuple[int, ...], str]:
    """The words, and what is wrong where these bytes are none. No word at all is an unfolding that the check does not take."""
    try:
        return words_from_bytes(data, source), ""
    except Mistake as mistake:
        return (), f"  {mistake.message}\n"


def _doubt(words: tuple[int, ...], asked: Asked, part: int | None) -> str:
    """What a reader of the words stumbles on, if anything."""
    if not words:
        return "  it has no line\n"
    if len(words) > WORDS_PER_LINE * library.MOST_LINES:
        return f"  it has more than {library.MOST_LINES:,} lines\n"
    try:
        assert asked.book and asked.pool and asked.question
        last = read_lines(words, asked.book, asked.pool, asked.question)[-1]
    except Mistake as mistake:
        return f"  {mistake.message}\n"
    # The check itself is asked, so that nobody is sent to a part for which it does not hold either.
    own = number_of(last.records, asked.pool)
    if _check(asked, words, own)[1]:
        return f"  {_other_part(part_of(own, asked.pool), part is not None, Names(asked))}\n"
    return "  its lines can be read, but what they say does not hold of this book, pool and question\n"


def _other_part(own: Part, given: bool, names: Names) -> str:
    """What to do about an unfolding that holds for another part than was meant."""
    meant = "the part given" if given else "the whole pool"
    if not own.left_out:
        return f"it holds for the whole pool and not for {meant}: check it without --part"
    which = f"the part {names.values(own.records)}" if own.records else "the empty part"
    return f"it holds for {which} and not for {meant}: check it with --part {write_part(own.records, names.value)}"
