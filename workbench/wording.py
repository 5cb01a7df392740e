"""How messages put it: the nearest name to one that is not there, and numbers of things."""

from difflib import get_close_matches

from workbench.lexer import shorten


def nearest(name: str, known: list[str]) -> str | None:
    # Names without capitals are compared, and not more of a long one: it would take as long as it likes.
    plain = {each[:100].lower(): each for each in known}
    near = get_close_matches(name[:100].lower(), list(plain), n=1, cutoff=0.6)
    return plain[near[0]] if near else None


def suggestion(name: str, known: list[str]) -> str:
    """The nearest known name, or all of them."""
    near = nearest(name, known)
    return f"did you mean {shorten(near)}?" if near else "write one of " + ", ".join(map(shorten, known))


def count(number: int, what: str) -> str:
    return f"{number or 'no'} {what}{'' if number == 1 else 's'}"
