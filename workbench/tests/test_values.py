"""Values as text."""

import unittest

from workbench.lexer import Tokens
from workbench.tests.marked import check_rows
from workbench.values import read_value, spellings_of, write_value


def value(text: str, source: str = "file") -> int:
    tokens = Tokens(text, source)
    return read_value(tokens, tokens.next())


class Values(unittest.TestCase):
    def test_read(self) -> None:
        for text, number in (("nil", 0), ("0", 0), ("0x00", 0), ("10", 10), ("0x0A", 10), ("0Xff", 255), ("4294967294", 2**32 - 2), ("4294967295", 0), ("0xffffffff", 0)):
            self.assertEqual(value(text), number)
        self.assertEqual(value("0x" + "0" * 5000 + "1"), 1)

    def test_mistakes(self) -> None:
        most = "is too large: a value is at most 4,294,967,294 (0xFFFFFFFE), and 0xFFFFFFFF is nil"
        rows = [
            ("‸4294967296", f"4294967296 {most}"),
            ("‸0x100000000", f"0x100000000 {most}"),
            ("‸99999999999", f"99999999999 {most}"),
            ("‸emp", "emp is no value: write a number or nil"),
            ("‸FFFFFFFF", "FFFFFFFF is no value: write a number or nil; for base sixteen write 0xFFFFFFFF"),
            ("‸a0", "a0 is no value: write a number or nil; for base sixteen write 0xa0"),
            ("‸deadbee", "deadbee is no value: write a number or nil"),
            ("‸a0g", "a0g is no value: write a number or nil"),
            ("‸A00000000", "A00000000 is no value: write a number or nil"),
            ("‸@1", "@1 stands in books only: write the number itself"),
            ("‸(", "( is no value: write a number or nil"),
            ("‸", "the end is no value: write a number or nil"),
        ]
        check_rows(self, rows, value)

    def test_spellings(self) -> None:
        tokens = Tokens("0x0A 10 20 0x14 0x0 nil 0xFFFFFFFF 0x1f 0x1F", "file")
        read = [(read_value(tokens, token), token) for token in tokens.all]
        self.assertEqual(spellings_of(read), ((10, "0x0A"), (31, "0x1f")))

    def test_written(self) -> None:
        self.assertEqual([write_value(number, ((10, "0x0A"),)) for number in (0, 10, 20)], ["nil", "0x0A", "20"])


if __name__ == "__main__":
    unittest.main()
