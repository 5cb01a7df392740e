"""The bench program's input."""

import unittest
from random import Random

from workbench.bench_bytes import decode_bench, encode_bench
from workbench.mistake import Mistake
from workbench.tests.samples import ROOT


class Bench(unittest.TestCase):
    def test_three_sections(self) -> None:
        data = encode_bench(b"ab", b"", b"c" * 258)
        self.assertEqual(data, b"\2\0ab\0\0\2\1" + b"c" * 258)
        self.assertEqual(decode_bench(data), (b"ab", b"", b"c" * 258))

    def test_what_is_missing(self) -> None:
        for data, sections in [
            (b"", (b"", b"", b"")),
            (b"\3", (b"", b"", b"")),
            (b"\3\0", (b"", b"", b"")),
            (b"\3\0ab", (b"ab", b"", b"")),
            (b"\1\0a\1", (b"a", b"", b"")),
            (b"\1\0a\1\0b\xff\xff", (b"a", b"b", b"")),
            (b"\1\0a\1\0b\xff\xffcd", (b"a", b"b", b"cd")),
            (b"\1\0a\1\0b\1\0cde", (b"a", b"b", b"c")),
        ]:
            self.assertEqual(decode_bench(data), sections)

    def test_no_more_than_4096_bytes_are_read(self) -> None:
        self.assertEqual(decode_bench(b"\0\0\0\0\xff\xff" + b"x" * 5000), (b"", b"", b"x" * 4090))
        self.assertEqual(decode_bench(b"\xff\xff" + b"x" * 5000), (b"x" * 4094, b"", b""))

    def test_no_more_than_4096_bytes_are_written(self) -> None:
        whole = (b"a" * 1000, b"b" * 1000, b"c" * 2090)
        self.assertEqual(decode_bench(encode_bench(*whole)), whole)
        with self.assertRaisesRegex(Mistake, "^book, snapshot and question take 4,097 bytes with their lengths"):
            encode_bench(whole[0], whole[1] + b"b", whole[2])

    def test_the_example(self) -> None:
        data = (ROOT / "crates" / "bench" / "stdin").read_bytes()
        self.assertEqual(encode_bench(*decode_bench(data)), data)
        self.assertEqual([len(section) for section in decode_bench(data)], [23, 19, 10])

    def test_any_bytes_have_sections(self) -> None:
        random = Random(9)
        for _ in range(500):
            data = bytes(random.choice((0, 1, 2, random.randrange(256))) for _ in range(random.randint(0, 30)))
            again = encode_bench(*decode_bench(data))
            self.assertEqual(decode_bench(again), decode_bench(data))


if __name__ == "__main__":
    unittest.main()
