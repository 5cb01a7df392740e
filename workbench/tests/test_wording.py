"""What is offered for a name that is not there."""

import time
import unittest

from workbench.wording import count, nearest, suggestion


class Nearest(unittest.TestCase):
    def test_near(self) -> None:
        self.assertEqual(nearest("segmnt", ["ring", "segment"]), "segment")
        self.assertEqual(nearest("RING", ["Ring", "segment"]), "Ring")
        self.assertIsNone(nearest("queue", ["ring", "segment"]))

    def test_said(self) -> None:
        self.assertEqual(suggestion("rng", ["ring", "segment"]), "did you mean ring?")
        self.assertEqual(suggestion("queue", ["ring", "segment"]), "write one of ring, segment")

    def test_a_name_of_a_million_letters(self) -> None:
        start = time.monotonic()
        self.assertIsNone(nearest("x" * 1_000_000, ["y" * 1_000_000]))
        self.assertLess(time.monotonic() - start, 1)

    def test_counts(self) -> None:
        self.assertEqual([count(number, "value") for number in (0, 1, 2)], ["no values", "1 value", "2 values"])


if __name__ == "__main__":
    unittest.main()
