import tempfile
import unittest
from pathlib import Path

from workbench.bench_bytes import encode_bench
from workbench.coding import (
    decode_bench_file, decode_book_file, decode_pool_file, decode_question_file, encode_bench_files, encode_book_file, encode_pool_file,
    encode_question_text, hex_text,
)
from workbench.library import ROOT
from workbench.mistake import Mistake
from workbench.model import END_MARK
from workbench.tests.engine_samples import FROM_TEN_TO_TEN_BYTES, L_BYTES, TWO_BYTES

SEGMENT, CIRCLE = str(ROOT / "examples/segment.book"), str(ROOT / "examples/circle.pool")


class Coded(unittest.TestCase):
    def setUp(self):
        folder = tempfile.TemporaryDirectory()
        self.addCleanup(folder.cleanup)
        self.folder = Path(folder.name)

    def file(self, data: bytes) -> str:
        path = self.folder / "bytes"
        path.write_bytes(data)
        return str(path)

    def test_to_bytes(self):
        self.assertEqual(encode_book_file(SEGMENT), L_BYTES)
        self.assertEqual(encode_pool_file(CIRCLE), TWO_BYTES)
        self.assertEqual(encode_question_text(SEGMENT, "segment(10, 10)"), FROM_TEN_TO_TEN_BYTES)
        self.assertEqual(encode_bench_files(SEGMENT, CIRCLE, "segment(10, 10)"), (ROOT / "crates/bench/stdin").read_bytes())

    def test_bytes_stay_as_they_are(self):
        self.assertEqual(encode_book_file(self.file(L_BYTES)), L_BYTES)
        self.assertEqual(encode_pool_file(self.file(TWO_BYTES)), TWO_BYTES)

    def test_nil_in_either_way(self):
        book = self.file(bytes.fromhex("01 01 02 FF FF FF FF 00 00 00 00 00"))
        self.assertEqual(encode_book_file(book).hex(), "010102" + "00" * 9)
        self.assertEqual(encode_book_file(book, END_MARK).hex(), "010102" + "ff" * 8 + "00")
        pool = self.file(bytes.fromhex("01 0A 00 00 00 02 FF FF FF FF 00 00 00 00"))
        self.assertEqual(decode_pool_file(pool), "10: nil, nil\n")
        self.assertEqual(encode_pool_file(pool).hex(), "010a00000002" + "00" * 8)
        self.assertEqual(encode_pool_file(pool, END_MARK).hex(), "010a00000002" + "ff" * 8)
        self.assertEqual(encode_question_text("house", "segment(10, nil)", END_MARK).hex(), "00020a000000ffffffff")
        self.assertEqual(encode_question_text("house", "segment(10, 0xFFFFFFFF)").hex(), "00020a00000000000000")
        bench = encode_bench_files("house", pool, "segment(10, nil)", END_MARK)
        self.assertEqual(bench[-20:].hex(), "ff" * 8 + "0a00" + "00020a000000ffffffff")
        self.assertIn("10: nil, nil\n\n# question\np0(10, nil)\n", decode_bench_file(self.file(bench)))

    def test_and_back(self):
        self.assertEqual(decode_pool_file(self.file(TWO_BYTES)), "10: 20\n20: 10\n")
        self.assertEqual(decode_question_file("house", self.file(FROM_TEN_TO_TEN_BYTES)), "segment(10, 10)\n")
        text = self.folder / "book"
        text.write_text(decode_book_file(self.file(L_BYTES)))
        self.assertEqual(encode_book_file(str(text)), L_BYTES)

    def test_bench_input_without_a_book(self):
        text = decode_bench_file(self.file(encode_bench(b"", TWO_BYTES, FROM_TEN_TO_TEN_BYTES)))
        self.assertIn("# book: none is given, which stands for the house book\nsegment {", text)
        self.assertTrue(text.endswith("\n\n# pool\n10: 20\n20: 10\n\n# question\nsegment(10, 10)\n"))

    def test_not_well_formed(self):
        for function, data in (
            (encode_book_file, L_BYTES[:-1]),
            (decode_book_file, L_BYTES + b"\0"),
            (encode_pool_file, TWO_BYTES[:-1]),
            (decode_pool_file, b""),
            (decode_bench_file, b"\5\0"),
            (lambda path: decode_question_file("house", path), FROM_TEN_TO_TEN_BYTES[:-1]),
        ):
            with self.subTest(data=data), self.assertRaisesRegex(Mistake, "bytes: byte [0-9]+ of the "):
                function(self.file(data))

    def test_text_already(self):
        self.assertRaisesRegex(Mistake, "this is text already", decode_pool_file, CIRCLE)
        for decode, data in ((decode_book_file, L_BYTES), (decode_pool_file, TWO_BYTES), (decode_bench_file, encode_bench(L_BYTES, TWO_BYTES, b""))):
            self.assertRaisesRegex(Mistake, "these are bytes as text in base sixteen", decode, self.file(hex_text(data).encode()))

    def test_hex(self):
        self.assertEqual(hex_text(b""), "")
        self.assertEqual(hex_text(bytes(range(16))), "00 01 02 03 04 05 06 07 08 09 0A 0B 0C 0D 0E 0F\n")
        self.assertEqual(hex_text(bytes(17)).count("\n"), 2)
