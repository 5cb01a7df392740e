"""Values as text: numbers in base ten or after 0x in base sixteen, and nil for 0 and for the end mark."""

import re

from workbench.lexer import Token, Tokens, shown
from workbench.model import END_MARK, MOST_VALUE

Spellings = tuple[tuple[int, str], ...]

# A number with more digits is above any value; Python would refuse to read one of thousands of digits.
MOST_DIGITS = len(str(MOST_VALUE))
SIXTEEN = re.compile(r"[a-fA-F][0-9a-fA-F]{,7}")


def read_value(tokens: Tokens, token: Token) -> int:
    if token.kind == "name" and token.text == "nil":
        return 0
    if token.kind == "place":
        raise tokens.mistake(f"{shown(token)} stands in books only: write the number itself", token)
    if token.kind != "number":
        raise tokens.mistake(f"{shown(token)} is no value: write a number or nil{base_sixteen(token)}", token)
    value = _number(token.text)
    if value == END_MARK:
        return 0
    if value > MOST_VALUE:
        raise tokens.mistake(f"{shown(token)} is too large: a value is at most {MOST_VALUE:,} (0x{MOST_VALUE:X}), and 0x{END_MARK:X} is nil", token)
    return value


def is_bare_mark(token: Token) -> bool:
    """Whether it is the end mark without 0x, which is a name."""
    return token.text.lower() == f"{END_MARK:x}"


def is_nil(token: Token) -> bool:
    """Whether a term is nil, written as a word or as a number."""
    return token.text == "nil" or (token.kind == "number" and _number(token.text) in (0, END_MARK))


def base_sixteen(token: Token) -> str:
    """What to add about a name that looks like a number in base sixteen: one with a digit, or of the full length."""
    looks = SIXTEEN.fullmatch(token.text) and (len(token.text) == 8 or not token.text.isalpha())
    return f"; for base sixteen write 0x{token.text}" if looks else ""


def _number(text: str) -> int:
    sixteen = text[:2] in ("0x", "0X")
    digits = (text[2:] if sixteen else text).lstrip("0")
    return END_MARK + 1 if len(digits) > MOST_DIGITS else int(digits or "0", 16 if sixteen else 10)


def spellings_of(read: list[tuple[int, Token]]) -> Spellings:
    """The first spelling of each number, where it is not the one in base ten. 0 is always nil."""
    found: dict[int, str] = {}
    for value, token in read:
        found.setdefault(value, token.text)
    return tuple((value, text) for value, text in found.items() if value and text != str(value))


def write_value(value: int, spellings: Spellings = ()) -> str:
    return dict(spellings).get(value, str(value)) if value else "nil"
