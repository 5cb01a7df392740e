"""The tokens of books, pools and questions as text: names, numbers, places such as @2, and symbols, each with its line and column."""

import re
from typing import NamedTuple

from workbench.mistake import Mistake

RESERVED = ("nil", "emp", "exists")

# What people write out of habit from other tools, and what to write here.
SLIPS = {
    "==>": "write => before the head",
    "|->": "write -> for a cell",
    "==": "write = for equal",
    "<>": "write != for unequal",
    "/=": "write != for unequal",
    ":=": "write = in a condition, => before a head, and : after an address",
    "<=": "write the head last, after =>",
    "<-": "write the head last, after =>, and a cell as address -> fields",
    "&&": "write * between atoms",
    "&": "write * between atoms",
    "/\\": "write * between atoms",
    "||": "write | between cases",
    "\\/": "write | between cases",
    "//": "a comment begins with #",
    "/*": "a comment begins with # and goes to the end of the line",
    "--": "a comment begins with #",
    "≠": "write != for unequal",
    "→": "write -> for a cell",
    "↦": "write -> for a cell",
    "⇒": "write => before the head",
    "∧": "write * between atoms",
    "∗": "write * between atoms",
    "∨": "write | between cases",
    "∃": "write exists, the names, and :",
    "!": "write != for unequal",
    "-": "write -> for a cell",
    ".": "write : after the names of exists",
    "[": "write ( and not [",
    "]": "write ) and not ]",
}
SYMBOLS = ("=>", "!=", "->", "{", "}", "(", ")", ",", ";", "|", "*", "=", ":")


def _one_of(spellings: tuple[str, ...]) -> str:
    return "|".join(re.escape(spelling) for spelling in sorted(spellings, key=len, reverse=True))


# A slip of two or three characters comes before the symbols in it, and one of a single character after the symbols that begin with it.
PATTERN = re.compile(
    r"(?P<space>\s+)|(?P<comment>#.*)|(?P<number>[0-9][\w']*)|(?P<place>@[0-9][\w']*)|(?P<name>[^\W0-9][\w']*)"
    rf"|(?P<slip>{_one_of(tuple(slip for slip in SLIPS if len(slip) > 1))})"
    rf"|(?P<symbol>{_one_of(SYMBOLS)})"
    rf"|(?P<slip1>{_one_of(tuple(slip for slip in SLIPS if len(slip) == 1))})"
)
NUMBER = re.compile(r"0|[1-9][0-9]*|0[xX][0-9a-fA-F]+")
# The tokens that a term of a rule can be.
TERMS = ("name", "number", "place")


class Token(NamedTuple):
    """`kind` is name, number, place, end, or the symbol itself."""

    kind: str
    text: str
    line: int
    column: int


def shorten(text: str) -> str:
    """What a message can quote: a name has no limit of its own."""
    return text if len(text) <= 40 else text[:37] + "..."


def shown(token: Token) -> str:
    """How a message names a token; those that a message itself may have next to it are in quotes."""
    if token.kind == "end":
        return "the end"
    return f'"{token.text}"' if token.kind in (",", ";", ":") else shorten(token.text)


class Tokens:
    """The tokens of a text, and how far it is read."""

    def __init__(self, text: str, source: str):
        self.source = source
        # Not splitlines: it also ends a line where no editor does, and the line numbers would not be the user's.
        self.lines = text.removeprefix("\ufeff").replace("\r\n", "\n").replace("\r", "\n").split("\n")
        self.all = [token for number in range(len(self.lines)) for token in self._line(number + 1)]
        self.end = self._end()
        self.at = 0

    def peek(self, ahead: int = 0) -> Token:
        place = self.at + ahead
        return self.all[place] if place < len(self.all) else self.end

    def next(self) -> Token:
        token = self.peek()
        self.at += 1
        return token

    def take(self, kind: str) -> Token | None:
        """The next token if it is of this kind; else nothing is read."""
        return self.next() if self.peek().kind == kind else None

    def mistake(self, message: str, token: Token) -> Mistake:
        return Mistake(message, self.source, token.line, token.column, self.lines[token.line - 1])

    def unseparated(self, what: str) -> Mistake:
        """In a list in parentheses, the next token is neither of those that can follow."""
        token = self.peek()
        missing = "," if token.kind in TERMS else ")"
        return self.mistake(f"{missing} is missing before {shown(token)}: write , between {what} and ) after the last", token)

    def _end(self) -> Token:
        """The end stands after the last token and not after the comments that follow: there something is missing."""
        if not self.all:
            return Token("end", "", 1, 1)
        last = self.all[-1]
        return Token("end", "", last.line, last.column + len(last.text))

    def _line(self, number: int) -> list[Token]:
        line, found, place = self.lines[number - 1], [], 0
        while place < len(line):
            match = PATTERN.match(line, place)
            kind, text = (match.lastgroup, match[0]) if match else ("unknown", line[place])
            if kind == "symbol":
                found.append(Token(text, text, number, place + 1))
            elif kind not in ("space", "comment"):
                found.append(self._checked(Token(kind, text, number, place + 1)))
            place += len(text)
        return found

    def _checked(self, token: Token) -> Token:
        if token.kind == "number" and not NUMBER.fullmatch(token.text):
            raise self.mistake(_number_fault(token.text), token)
        if token.kind == "name":
            self._check_name(token)
        if token.kind in ("slip", "slip1"):
            raise self.mistake(f"{token.text} is not used here: {self._instead(token)}", token)
        if token.kind == "unknown":
            raise self.mistake(_unknown(token.text), token)
        return token

    def _instead(self, slip: Token) -> str:
        following = self.lines[slip.line - 1][slip.column : slip.column + 1]
        if slip.text in ("-", ".") and following.isdigit():
            return "write a whole number of 0 or more, without sign or point"
        return SLIPS[slip.text]

    def _check_name(self, token: Token) -> None:
        """The pattern takes more for a letter than letters, such as raised digits."""
        for place, character in enumerate(token.text):
            if not (character.isalpha() or character == "_" or character in "0123456789'"):
                raise self.mistake(_unknown(character), Token("", character, token.line, token.column + place))


def _unknown(character: str) -> str:
    if character == "@":
        return "@ is followed by a place in a book's list of constants, as in @1"
    name = f"{character} (U+{ord(character):04X})" if character.isprintable() else f"U+{ord(character):04X}"
    if character.isdecimal():
        return f"the digit {name} has no meaning here: write the digits 0 to 9"
    return f"the character {name} has no meaning here: take it away; names have letters, digits, _ and '"


def _number_fault(text: str) -> str:
    if text.isdigit() and text.isascii():
        return f"{shorten(text)} begins with 0: write {shorten(text.lstrip('0') or '0')}, or 0x and the digits for base sixteen"
    if "_" in text:
        return f"{shorten(text)} has _ in it: write a number without _; a name begins with a letter"
    return f"{shorten(text)} is no number and no name: write base sixteen after 0x; a name begins with a letter"
