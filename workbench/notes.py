"""What a book may say and seldom means: a name that stands once in its case, in a call or a condition, has any value there. It is often
one that was misspelt."""

from workbench.lexer import shorten
from workbench.model import Book, Rule, is_variable
from workbench.wording import nearest


def notes(book: Book, source: str) -> list[str]:
    """A line for each such name of a book that is text."""
    return [
        f"{source}:{rule.line}: note: {shorten(name)} stands once in this case, so any value that meets it will do: {_instead(name, rule)}"
        for rule in book.rules
        if rule.line
        for name in _loose(rule, book.predicates[rule.predicate].arguments)
    ]


def _loose(rule: Rule, arguments: int) -> list[str]:
    """The bound names that stand once, and not in a cell: there a name of its own is how one writes a field that may be any value."""
    in_cells = {term for cell in rule.cells for term in (cell.address, *cell.fields)}
    others = [term for each in rule.conditions for term in (each.left, each.right)]
    others += [term for call in rule.calls for term in call.terms]
    once = {term for term in others if others.count(term) == 1 and is_variable(term)}
    names = [rule.variables[term] for term in sorted(once - in_cells) if term >= arguments]
    return [name for name in names if name not in rule.listed]


def _instead(name: str, rule: Rule) -> str:
    near = nearest(name, [other for other in rule.variables if other != name])
    meant = f"write exists {shorten(name)}: in front if it is meant"
    return f"did you mean {shorten(near)}? Else {meant}" if near else meant
