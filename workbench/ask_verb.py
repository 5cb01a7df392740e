"""The verb `ask`: one pool with its grounds, or several with a row for each."""

import shlex
from argparse import ArgumentParser
from collections.abc import Callable

from workbench import report_json
from workbench.asking import DOES_NOT_FIT, FITS, NOT_ANSWERED, REFUSED, Answer, Asked, ask, ask_next
from workbench.mistake import Mistake, Unusable, printable
from workbench.operands import one_standard_input, parsed, parser, read_noted_book, read_question
from workbench.output import complain, say, write_file
from workbench.render import answer_text, next_text, short_text, sum_text, walk_text
from workbench.sources import read_pool, source_name
from workbench.status import FAULT, NO, YES
from workbench.unfolding import words_to_bytes


def _parser() -> ArgumentParser:
    made = parser(
        "ask",
        "BOOK POOL [POOL ...] QUESTION [--part | --walk] [--json] [--save FILE]",
        "Says whether a pool fits: with an unfolding where it does, with hints on where to look where it does not.\n"
        "With --part, whether some part of its records does, and which one. With --walk, the verdict of the quick walk alone;\n"
        "for a book that is not plain the pool is `not answered`. Status 0: every pool fits, or a part of each; 1: some do not;\n"
        "2: a refusal, `not answered`, or something cannot be read or written.",
        "./shapes ask examples/segment.book examples/segment.pool 'segment(10, nil)'",
    )
    made.add_argument("--part", action="store_true", help="ask about some part of the records instead of all")
    made.add_argument("--walk", action="store_true", help="ask the quick walk, made for plain books, instead of the engine")
    made.add_argument("--json", action="store_true", help="print JSON, for other programs")
    made.add_argument("--save", metavar="FILE", help="write the unfolding of the one pool to FILE, which `check` takes")
    return made


def ask_verb(arguments: list[str]) -> int:
    options = parsed(_parser(), arguments, 3, None)
    book_file, *pool_files, question_text = options.operands
    book = question = plain = None
    try:
        _check_options(options.walk, options.part, options.save, len(pool_files))
        one_standard_input((book_file, *pool_files))
        book, book_bytes, _ = read_noted_book(book_file)
        question, question_bytes = read_question(question_text, book)

        def answer_about(pool_file: str) -> Answer:
            pool, pool_bytes, _ = read_pool(pool_file)
            return ask(Asked(book_bytes, pool_bytes, question_bytes, book, pool, question, options.part, options.walk))

        if not options.json and len(pool_files) == 1:
            return _ask_one(options.operands, answer_about, options.save)
        if not options.json:
            return _ask_many(options.operands, answer_about, options.part)
        status, results, plain = _ask_json(pool_files, answer_about, options.save)
    except Mistake as mistake:
        if not options.json:
            raise
        # Whoever reads JSON gets an object then too.
        complain(mistake)
        status, results = FAULT, [report_json.not_read(source_name(file), mistake) for file in pool_files]
    say(report_json.report(source_name(book_file), book, question, options.part, results, options.walk, plain))
    return status


def _check_options(walk: bool, part: bool, save: str | None, pools: int) -> None:
    """What cannot be asked for at once."""
    if walk and part:
        raise Mistake("--walk asks about all records: leave out --part, or leave out --walk to ask the engine about some part")
    if walk and save is not None:
        raise Mistake("--walk gives no unfolding to save: leave out --save, or leave out --walk to have one from the engine")
    if save and pools > 1:
        raise Mistake("--save writes the unfolding of one pool: name one pool")


def _ask_one(operands: list[str], answer_about: Callable[[str], Answer], save: str | None) -> int:
    answer = answer_about(operands[1])
    saved = _save(answer, save)
    say(answer_text(answer))
    if answer.asked.by_walk and answer.kind != REFUSED:
        say(walk_text(answer, _command(operands, "ask the same without --walk")))
    # After the answer, which need not wait for it, and holds even if nobody waits for this.
    try:
        found = ask_next(answer)
    except KeyboardInterrupt:
        complain("stopped while asking about some part: the answer above holds")
        return FAULT
    if found:
        say(next_text(found, _command(operands, "ask the same with --part", "--part")))
    return max(saved, status_of([answer.kind]))


def _command(operands: list[str], in_words: str, *options: str) -> str:
    """What a person copies to ask further. A file's name must not be taken for an option there, nor be one that does not print: then it is
    put in words."""
    files = [f"./{operand}" if operand.startswith("-") and operand != "-" else operand for operand in operands]
    line = shlex.join(["./shapes", "ask", *options, *files])
    if not line.isprintable():
        return in_words
    return line + "  # with the same standard input" * ("-" in operands)


def _ask_many(operands: list[str], answer_about: Callable[[str], Answer], some_part: bool) -> int:
    """One row for each pool, as soon as it is there. A row has no room for hints, so nothing is asked for their sake. What a no of the
    walk is worth stands once, at the end, since all are about one book."""
    pool_files = operands[1:-1]
    names = [printable(source_name(file)) for file in pool_files]
    kinds, empty, walked_no = [], 0, None
    for file, name in zip(pool_files, names):
        try:
            answer = answer_about(file)
            kind, words = answer.kind, short_text(answer)
            empty += answer.part is not None and not answer.part.records
            if answer.asked.by_walk and kind in (DOES_NOT_FIT, NOT_ANSWERED):
                walked_no = answer
        except Unusable:
            raise
        except Mistake as mistake:
            kind = words = report_json.NOT_READ
            complain(mistake)
        kinds.append(kind)
        say(f"{name.ljust(max(map(len, names)))}   {words}\n")
    say(sum_text(kinds, some_part, empty) + "\n")
    if walked_no:
        say(walk_text(walked_no, _command(operands, "ask the same without --walk"), "A pool that is not answered"))
    return status_of(kinds)


def _ask_json(pool_files: list[str], answer_about: Callable[[str], Answer], save: str | None) -> tuple[int, list[dict], dict | None]:
    """The status, the results, and whether the book is plain where a pool got so far: each that did says the same."""
    results, saved, plain = [], YES, None
    for file in pool_files:
        try:
            answer = answer_about(file)
            saved = _save(answer, save)
            results.append(report_json.result(source_name(file), answer, ask_next(answer)))
            plain = plain or report_json.plain(answer)
        except Unusable:
            raise
        except Mistake as mistake:
            complain(mistake)
            results.append(report_json.not_read(source_name(file), mistake))
    return max(saved, status_of([result["answer"] for result in results])), results, plain


def _save(answer: Answer, save: str | None) -> int:
    """The status. What cannot be written is no reason to lose the answer, which may have taken a while."""
    if save is None:
        return YES
    if answer.kind != FITS:
        without = "no part fits" if answer.asked.some_part else "the pool does not fit"
        complain(f"nothing is written to {save}: {'the engine refuses this' if answer.kind == REFUSED else without}")
        return YES
    try:
        write_file(save, words_to_bytes(answer.reply.words))
    except Mistake as mistake:
        complain(mistake)
        return FAULT
    return YES


def status_of(kinds: list[str]) -> int:
    if all(kind in (FITS, DOES_NOT_FIT) for kind in kinds):
        return NO if DOES_NOT_FIT in kinds else YES
    return FAULT
