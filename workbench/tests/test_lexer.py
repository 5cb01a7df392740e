"""Tokens and their places."""

import unittest

from workbench.lexer import SLIPS, Token, Tokens, shorten
from workbench.mistake import Mistake
from workbench.tests.marked import check_rows


def kinds(text: str) -> list[str]:
    return [token.kind for token in Tokens(text, "file").all]


class Lexer(unittest.TestCase):
    def test_every_kind(self) -> None:
        self.assertEqual(kinds("{ } ( ) , ; | * = != -> => : a 10 0x1F"), "{ } ( ) , ; | * = != -> => : name number number".split())
        self.assertEqual(kinds("a->b*p(c)=>p(a)|a!=b"), "name -> name * name ( name ) => name ( name ) | name != name".split())

    def test_places(self) -> None:
        tokens = Tokens("ab  c\n\n\té=1", "file")
        self.assertEqual([(token.text, token.line, token.column) for token in tokens.all],
                         [("ab", 1, 1), ("c", 1, 5), ("é", 3, 2), ("=", 3, 3), ("1", 3, 4)])
        self.assertEqual(tokens.end, Token("end", "", 3, 5))

    def test_names(self) -> None:
        for name in ("a", "_a", "a'", "x''1", "queue_and_free", "λ", "größe", "数据"):
            self.assertEqual(Tokens(name, "file").all, [Token("name", name, 1, 1)])

    def test_line_ends_and_byte_order_mark(self) -> None:
        for text in ("\ufeffa\nb\nc", "a\r\nb\r\nc", "a\rb\rc"):
            self.assertEqual([(token.text, token.line, token.column) for token in Tokens(text, "file").all],
                             [("a", 1, 1), ("b", 2, 1), ("c", 3, 1)])

    def test_comments_and_spaces(self) -> None:
        self.assertEqual(kinds("# a\n  # b => c\na#b\n\u00a0\f\v"), ["name"])
        self.assertEqual(Tokens("a # b\n# c", "file").end, Token("end", "", 1, 2))

    def test_reading(self) -> None:
        tokens = Tokens("a :", "file")
        self.assertIsNone(tokens.take(":"))
        self.assertEqual((tokens.peek().text, tokens.peek(1).text, tokens.peek(2).kind), ("a", ":", "end"))
        self.assertEqual([tokens.next().text, tokens.take(":").text, tokens.next().kind, tokens.next().kind], ["a", ":", "end", "end"])

    def test_each_slip_is_seen_whole(self) -> None:
        for slip, instead in SLIPS.items():
            with self.subTest(slip), self.assertRaises(Mistake) as caught:
                Tokens(f"a {slip} b", "file")
            self.assertEqual(caught.exception.message, f"{slip} is not used here: {instead}")
            self.assertEqual(caught.exception.column, 3)

    def test_signs_and_points_of_numbers(self) -> None:
        whole = "is not used here: write a whole number of 0 or more, without sign or point"
        check_rows(self, [("a\nb\n‸-1\na", f"- {whole}"), ("1‸.5\na", f". {whole}")], Tokens)

    def test_long_names_in_messages(self) -> None:
        self.assertEqual([shorten("x" * 40), shorten("x" * 41)], ["x" * 40, "x" * 37 + "..."])

    def test_what_belongs_to_nothing(self) -> None:
        rows = [
            ("a\n b ‸$ c", "the character $ (U+0024) has no meaning here: take it away; names have letters, digits, _ and '"),
            ("a‸\x1b[0m", "the character U+001B has no meaning here: take it away; names have letters, digits, _ and '"),
            ("‸'a", "the character ' (U+0027) has no meaning here: take it away; names have letters, digits, _ and '"),
            ("a‸٣", "the digit ٣ (U+0663) has no meaning here: write the digits 0 to 9"),
            ("‸00", "00 begins with 0: write 0, or 0x and the digits for base sixteen"),
            ("‸10'", "10' is no number and no name: write base sixteen after 0x; a name begins with a letter"),
            ("‸0xfg", "0xfg is no number and no name: write base sixteen after 0x; a name begins with a letter"),
            ("‸1٣", "1٣ is no number and no name: write base sixteen after 0x; a name begins with a letter"),
        ]
        check_rows(self, rows, Tokens)


if __name__ == "__main__":
    unittest.main()
