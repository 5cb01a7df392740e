"""How a mistake is shown."""

import unittest

from workbench.mistake import Mistake


class Shown(unittest.TestCase):
    def test_with_a_place(self) -> None:
        self.assertEqual(str(Mistake("no.", "a.book", 3, 5, "p { q }  ")), "a.book:3:5: no.\n  p { q }\n      ^")

    def test_without_a_place(self) -> None:
        self.assertEqual(str(Mistake("no.", "a.book")), "a.book: no.")
        self.assertEqual(str(Mistake("no.")), "no.")

    def test_a_long_line_is_shown_around_the_place(self) -> None:
        _, shown, caret = str(Mistake("no.", "a", 1, 5001, "x" * 5000 + "!" + "y" * 5000)).split("\n")
        self.assertEqual((len(shown), shown[len(caret) - 1]), (122, "!"))

    def test_the_beginning_of_a_long_line(self) -> None:
        _, shown, caret = str(Mistake("no.", "a", 1, 1, "!" + "x" * 500)).split("\n")
        self.assertEqual((len(shown), caret), (122, "  ^"))

    def test_the_end_of_a_long_line(self) -> None:
        _, shown, caret = str(Mistake("no.", "a", 1, 301, "x" * 300)).split("\n")
        self.assertEqual(len(caret), len(shown) + 1)

    def test_tabs_and_control_characters(self) -> None:
        self.assertEqual(str(Mistake("no.", "a\x1bb", 1, 4, "\ta\x1b= \x07")), "a?b:1:4: no.\n   a?= ?\n     ^")

    def test_wide_and_joined_characters(self) -> None:
        self.assertEqual(str(Mistake("no.", "a", 1, 3, "数e\u0301!")).split("\n")[2], "     ^")
        self.assertEqual(str(Mistake("no.", "a", 1, 4, "数e\u0301!")).split("\n")[2], "     ^")


if __name__ == "__main__":
    unittest.main()
