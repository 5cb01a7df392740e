"""What a user got wrong, with the place and what to do about it."""

from unicodedata import combining, east_asian_width

# How much of a long line is shown.
MOST_SHOWN = 120


class Mistake(Exception):
    """`source` is the name of the file (or of what stands for one), `text` the line that `line` and `column`, from 1, point into."""

    def __init__(self, message: str, source: str = "", line: int = 0, column: int = 0, text: str = ""):
        super().__init__(message)
        self.message = message
        self.source = source
        self.line = line
        self.column = column
        self.text = text

    def __str__(self) -> str:
        message, source = printable(self.message), printable(self.source)
        if not self.line:
            return f"{source}: {message}" if source else message
        # Of a line that would fill the screen, only what is around the place.
        start = max(0, self.column - 1 - MOST_SHOWN // 2) if len(self.text) > MOST_SHOWN else 0
        shown = printable(self.text[start : start + MOST_SHOWN])
        before = _width(shown[: self.column - 1 - start])
        return f"{source}:{self.line}:{self.column}: {message}\n  {shown.rstrip()}\n  {' ' * before}^"


class Unusable(Mistake):
    """The library cannot be made or loaded, so that nothing can be asked."""


def printable(text: str) -> str:
    """A file's control characters must not reach the terminal; each keeps its column."""
    return "".join(each if each.isprintable() else " " if each.isspace() else "?" for each in text)


def _width(text: str) -> int:
    """The columns that a text takes on the screen."""
    return sum(0 if combining(each) else 2 if east_asian_width(each) in "WF" else 1 for each in text)
