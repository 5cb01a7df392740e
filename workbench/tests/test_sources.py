"""What a user names: files, standard input, the house book; text and bytes."""

import io
import os
import tempfile
import unittest
from pathlib import Path
from random import Random
from unittest import mock

from workbench import sources
from workbench.book_bytes import decode_book, encode_book
from workbench.book_text import parse_book
from workbench.coding import hex_text
from workbench.mistake import Mistake
from workbench.model import Pool, Record
from workbench.pool_bytes import decode_pool, encode_pool
from workbench.sources import is_text, read_book, read_bytes, read_pool
from workbench.tests.samples import HOUSE, random_book, random_pool, repository_blocks

RING = "ring { a -> a => ring(a) }"
RING_BYTES = encode_book(parse_book(RING, "file"))


class InDirectory(unittest.TestCase):
    def setUp(self) -> None:
        directory = tempfile.TemporaryDirectory()
        self.addCleanup(directory.cleanup)
        self.directory = Path(directory.name)

    def file(self, data: bytes, name: str = "given") -> str:
        path = self.directory / name
        path.write_bytes(data)
        return str(path)

    def said(self, read, path: str) -> str:
        with self.assertRaises(Mistake) as caught:
            read(path)
        return str(caught.exception).replace(str(self.directory) + os.sep, "")


class Files(InDirectory):
    def test_bytes_as_they_are(self) -> None:
        self.assertEqual(read_bytes(self.file(b"\0\r\n\xff")), b"\0\r\n\xff")
        self.assertEqual(read_bytes(self.file(b"")), b"")

    def test_missing(self) -> None:
        self.file(b"x", "house.book")
        for name, message in (
            ("hose.book", "hose.book: there is no such file: did you mean house.book?"),
            ("zzz", "zzz: there is no such file: see to the name"),
            ("no/zzz", "no/zzz: there is no such file: see to the directory"),
        ):
            self.assertEqual(self.said(read_bytes, str(self.directory / name)), message)
        self.assertEqual(self.said(read_bytes, ""), "'': there is no such file: see to the name")

    def test_directory(self) -> None:
        (self.directory / "inner").mkdir()
        self.assertEqual(self.said(read_bytes, str(self.directory / "inner")), "inner: this is a directory: name a file in it")

    def test_a_file_for_a_directory(self) -> None:
        path = self.file(b"x") + "/more"
        self.assertEqual(self.said(read_bytes, path), "given/more: this cannot be read (Not a directory): name another file")

    def test_no_permission(self) -> None:
        # A test run by root may read everything.
        with mock.patch("builtins.open", side_effect=PermissionError(13, "Permission denied")):
            self.assertEqual(self.said(read_bytes, "given"), "given: this file may not be read: see to its permissions")

    def test_a_name_that_no_file_can_have(self) -> None:
        self.assertEqual(self.said(read_bytes, "a\0b"), "a?b: this cannot be read (embedded null byte): name another file")

    def test_size(self) -> None:
        self.assertEqual(len(read_bytes(self.file(b"#" * 2**20))), 2**20)
        message = "given: this is larger than 1 MB, as no book or pool is: name another file"
        self.assertEqual(self.said(read_bytes, self.file(b"#" * (2**20 + 1))), message)


class StandardInput(InDirectory):
    def given(self, data: bytes):
        return mock.patch.object(sources.sys, "stdin", io.TextIOWrapper(io.BytesIO(data)))

    def test_read(self) -> None:
        with self.given(RING.encode()):
            book, data, name = read_book("-")
        self.assertEqual((book.predicates[0].name, data, name), ("ring", RING_BYTES, "standard input"))

    def test_nothing(self) -> None:
        with self.given(b""):
            self.assertEqual(
                self.said(read_pool, "-"),
                "standard input: there is nothing in it: write emp for a pool with no record, or lines such as 10: 20",
            )

    def test_size(self) -> None:
        with self.given(b"#" * 2**20):
            self.assertEqual(len(read_bytes("-")), 2**20)
        with self.given(b"#" * (2**20 + 1)):
            self.assertTrue(self.said(read_bytes, "-").startswith("standard input: this is larger than 1 MB"))

    def test_closed(self) -> None:
        with mock.patch.object(sources.sys, "stdin", None):
            self.assertEqual(
                self.said(read_pool, "-"), "standard input: this cannot be read (standard input is closed): name another file"
            )

    def test_a_mistake_in_it(self) -> None:
        with self.given(b"10 20"):
            self.assertTrue(self.said(read_pool, "-").startswith("standard input:1:4: write : after the address 10"))


class Books(InDirectory):
    def test_house(self) -> None:
        book, data, name = read_book("house")
        self.assertEqual((data, name), (HOUSE, "house"))
        self.assertEqual([predicate.name for predicate in book.predicates], ["segment", "ring", "queue_and_free"])

    def test_text(self) -> None:
        path = self.file(RING.encode())
        book, data, name = read_book(path)
        self.assertEqual((book.predicates[0].name, data, name), ("ring", RING_BYTES, path))

    def test_bytes(self) -> None:
        book, data, _ = read_book(self.file(RING_BYTES))
        self.assertEqual((book.predicates[0].name, data), ("p0", RING_BYTES))

    def test_bytes_that_are_no_book(self) -> None:
        for data in (RING_BYTES[:-1], b"\xff", b"\0", b"\xc8\xc8", HOUSE + b"\0"):
            book, given, _ = read_book(self.file(data))
            self.assertEqual((book, given), (None, data))

    def test_nothing(self) -> None:
        self.assertEqual(
            self.said(read_book, self.file(b"")), "given: there is nothing in it: a book has at least one block, such as p { emp => p() }"
        )

    def test_a_pool(self) -> None:
        self.assertTrue(self.said(read_book, self.file(b"10: 20\n")).startswith("given:1:1: this is a pool and no book"))


class Pools(InDirectory):
    def test_text(self) -> None:
        pool, data, _ = read_pool(self.file(b"20: nil\n0x0A: 20\n"))
        self.assertEqual(pool.records, (Record(10, (20,)), Record(20, (0,))))
        self.assertEqual(data, encode_pool(pool))

    def test_bytes(self) -> None:
        self.assertEqual(read_pool(self.file(b"\0"))[:2], (Pool(()), b"\0"))
        self.assertEqual(read_pool(self.file(b"\0\0"))[:2], (None, b"\0\0"))

    def test_a_book(self) -> None:
        self.assertTrue(self.said(read_pool, self.file(RING.encode())).startswith("given:1:1: this is a book and no pool"))


class Encodings(InDirectory):
    def test_byte_order_mark_and_line_ends(self) -> None:
        for text in (b"\xef\xbb\xbf10: 20\n", b"10: 20\r\n20: nil\r\n", b"\xef\xbb\xbf\r\n10: 20\r\n"):
            self.assertEqual(read_pool(self.file(text))[0].records[0], Record(10, (20,)))

    def test_utf16(self) -> None:
        for encoding in ("utf-16", "utf-16-le", "utf-16-be"):
            self.assertEqual(self.said(read_book, self.file(RING.encode(encoding))), "given: this text is in UTF-16: save it as UTF-8")

    def test_latin(self) -> None:
        data = "# one\r\n# Gerät\r\n10: 20\r\n".encode("latin-1")
        shown = self.said(read_pool, self.file(data))
        self.assertEqual(shown, "given:2:6: the byte E4 here is not UTF-8: save the file as UTF-8\n  # Ger\ufffdt\n       ^")

    def test_latin_at_the_beginning(self) -> None:
        shown = self.said(read_book, self.file("Éa".encode("latin-1") + RING.encode()))
        self.assertTrue(shown.startswith("given:1:1: the byte C9 here is not UTF-8"), shown)

    def test_base_sixteen(self) -> None:
        instead = "encode writes those without --hex, and `xxd -r -p` makes them of this"
        said = f"given: these are bytes as text in base sixteen, and the bytes themselves are due: {instead}"
        pool = encode_pool(Pool((Record(10, (20,)), Record(20, (0,)))))
        for read, data in ((read_book, RING_BYTES), (read_book, RING_BYTES[:-1]), (read_pool, pool)):
            for text in (hex_text(data), data.hex(" "), f"\n{data.hex(' ')}\r\n"):
                self.assertEqual(self.said(read, self.file(text.encode())), said)
        # A pool whose colons are missing is none of this.
        self.assertEqual(self.said(read_pool, self.file(b"10 20\n20 30\n")), "given:1:4: write : after the address 10, and not 20\n  10 20\n     ^")

    def test_text_beyond_ascii(self) -> None:
        book, _, _ = read_book(self.file("größe { emp => größe() } # ✓".encode()))
        self.assertEqual(book.predicates[0].name, "größe")

    def test_told_by_content(self) -> None:
        for data in (b"", b"a\t\n\r", "ä".encode(), b"\x7f"):
            self.assertTrue(is_text(data), data)
        for data in (b"\0", b"a\x08", b"\x0e", b"\x1f", b"\xff", b"a\xe4b"):
            self.assertFalse(is_text(data), data)

    def test_no_book_or_snapshot_is_taken_for_text(self) -> None:
        random = Random(10)
        blocks = [encode_book(random_book(random)) for _ in range(300)] + [encode_pool(random_pool(random)) for _ in range(300)]
        # Records at addresses, and with fields, that print: as like a text as a snapshot can be.
        letters = int.from_bytes(b"a = ", "little")
        for many in range(17):
            blocks.append(encode_pool(Pool(tuple(Record(letters + place, (letters,) * 4) for place in range(many)))))
            blocks.append(encode_pool(Pool(tuple(Record(97 + 256 * 256 * place, (0x610061,) * 2) for place in range(many)))))
        for book, snapshot, _ in repository_blocks():
            blocks += [book] * bool(decode_book(book)) + [snapshot] * bool(decode_pool(snapshot))
        for data in blocks:
            self.assertIsNone(sources.read_text(data, "file"), data)


if __name__ == "__main__":
    unittest.main()
