"""Answers in JSON, for other programs: docs/WORKBENCH.md describes the form. Whoever gives a key another meaning or takes one away gives the
form a new number."""

import json

from workbench.asking import NOT_ANSWERED, NOT_PLAIN, Answer
from workbench.hints import Hints, Place
from workbench.mistake import Mistake
from workbench.model import Book, Question
from workbench.names import Names
from workbench.part import Part
from workbench.refusals import sentence
from workbench.unfolding import Line

FORMAT = 2
NOT_READ = "not read"


def report(
    book_name: str,
    book: Book | None,
    question: Question | None,
    some_part: bool,
    results: list[dict],
    by_walk: bool = False,
    plain: dict | None = None,
) -> str:
    """`plain` is what one of the answers tells of the book."""
    asked = None
    if book and question:
        asked = {"predicate": book.predicates[question.predicate].name, "values": list(question.values)}
    whole = {
        "format": FORMAT,
        "book": _unicode(book_name),
        "question": asked,
        "about": "part" if some_part else "whole",
        "by": "walk" if by_walk else "engine",
        "plain": plain,
        "results": results,
    }
    return json.dumps(whole, indent=2, ensure_ascii=False) + "\n"


def plain(answer: Answer) -> dict | None:
    """Whether the book is plain, which the walk alone tests and only once all is read: 12 says that it is not, and a verdict that it is. The
    words for the reason are the workbench's."""
    if not answer.asked.by_walk or answer.reply.refusal not in (0, NOT_PLAIN):
        return None
    return {"holds": answer.reply.refusal == 0, "reason": answer.not_plain}


def result(pool_name: str, answer: Answer, found: Answer | None = None) -> dict:
    """`found` is the answer about some part, where the whole pool does not fit."""
    refusal = answer.reply.refusal
    message = "\n".join(filter(None, (sentence(refusal, answer.asked.some_part), answer.detail))) if refusal else ""
    if answer.kind == NOT_ANSWERED:
        message = f"the pool may fit or not: {sentence(refusal)}; the first reason: {answer.not_plain}"
    return {
        "pool": _unicode(pool_name),
        "answer": answer.kind,
        "refusal": refusal,
        "message": message,
        "facts": answer.reply.facts,
        "rounds": answer.reply.rounds,
        "part": _part(answer.part) if answer.part else None,
        "unfolding": _unfolding(answer),
        "hints": _hints(answer.hints, found),
    }


def not_read(pool_name: str, mistake: Mistake) -> dict:
    """The result of a pool that never reached the engine: it, the book or the question has a mistake, or there is no library."""
    whole = {"pool": _unicode(pool_name), "answer": NOT_READ, "refusal": 0, "message": str(mistake), "facts": 0, "rounds": 0}
    return whole | {"part": None, "unfolding": [], "hints": _hints(Hints())}


def _unicode(name: str) -> str:
    """The name of a file may have bytes that are no Unicode, and many readers of JSON refuse what Python has for them."""
    return name.encode(errors="surrogateescape").decode(errors="replace")


def _unfolding(answer: Answer) -> list[dict]:
    if not answer.lines:
        return []
    names = Names(answer.asked)
    return [_line(line, names) for line in answer.lines]


def _line(line: Line, names: Names) -> dict:
    rule = names.book.rules[line.rule]
    return {
        "line": line.number,
        "predicate": names.book.predicates[line.predicate].name,
        "values": list(line.arguments),
        "records": list(line.records),
        "rule": line.rule + 1,
        "book_line": rule.line,
        "takes": list(line.takes),
        "variables": [{"name": name, "value": value} for name, value in zip(rule.variables, line.values)],
        "calls": list(line.calls),
    }


def _hints(hints: Hints, found: Answer | None = None) -> dict:
    return {
        "held": [{"record": held.record, "by": [_place(place) for place in held.places]} for held in hints.held],
        "unreached": [{"record": lost.record, "by": list(lost.by)} for lost in hints.unreached],
        "dangling": [_place(loose.place) | {"value": loose.value, "asked": loose.asked} for loose in hints.dangling],
        "outside": [{"argument": outside.argument, "value": outside.value} for outside in hints.outside],
        "part": {"fits": found.part is not None} | _part(found.part or Part((), ())) if found else None,
    }


def _part(part: Part) -> dict:
    return {"records": list(part.records), "left_out": list(part.left_out)}


def _place(place: Place) -> dict:
    return {"record": place.record, "field": place.field}
