"""Mistakes in texts, as rows of a text with a mark at the place, and the message."""

import unittest
from collections.abc import Callable

from workbench.mistake import Mistake

MARK = "‸"


def check_rows(test: unittest.TestCase, rows: list[tuple[str, str]], read: Callable[[str, str], object]) -> None:
    for marked, message in rows:
        with test.subTest(marked):
            before, after = marked.split(MARK)
            with test.assertRaises(Mistake) as caught:
                read(before + after, "file")
            found = caught.exception
            line, column = before.count("\n") + 1, len(before.split("\n")[-1]) + 1
            test.assertEqual((found.message, found.line, found.column), (message, line, column))
            test.assertEqual((found.source, found.text), ("file", (before + after).split("\n")[line - 1]))
