import os
import tempfile
import unittest
from contextlib import redirect_stderr
from io import StringIO
from pathlib import Path
from threading import Thread
from unittest import mock

from workbench import library
from workbench.mistake import Unusable
from workbench.tests.engine_samples import (
    CHAIN_BYTES, FROM_TEN_TO_NIL_BYTES, FROM_TEN_TO_TEN_BYTES, FROM_TEN_TO_TWENTY_BYTES, L_BYTES, NOTHING_BYTES, PLAIN_BYTES, S_BYTES,
    TEN_WORDS, TWO_BYTES, TWO_WORDS,
)  # fmt: skip


class Calls(unittest.TestCase):
    def test_fits_with_its_unfolding(self):
        reply = library.decide(L_BYTES, TWO_BYTES, FROM_TEN_TO_TEN_BYTES, 1024)
        self.assertEqual((reply.refusal, reply.verdict, reply.facts, reply.rounds, reply.lines), (0, 1, 10, 3, 3))
        self.assertEqual(reply.words, TWO_WORDS)

    def test_does_not_fit(self):
        self.assertEqual(library.decide(L_BYTES, TWO_BYTES, FROM_TEN_TO_TWENTY_BYTES, 1024), library.Reply(0, 0, 10, 3, 0, ()))

    def test_spares(self):
        reply = library.decide(S_BYTES, NOTHING_BYTES, bytes.fromhex("00 01 00000000"), 1024)
        self.assertEqual((reply.verdict, reply.facts, reply.rounds, reply.lines), (1, 12, 2, 2))

    def test_refusals(self):
        cases = {
            1: (L_BYTES[:-1], TWO_BYTES, FROM_TEN_TO_TEN_BYTES, 1024),
            4: (L_BYTES + b"\0", TWO_BYTES, FROM_TEN_TO_TEN_BYTES, 1024),
            5: (L_BYTES, b"", FROM_TEN_TO_TEN_BYTES, 1024),
            9: (L_BYTES, TWO_BYTES, b"", 1024),
            11: (L_BYTES, TWO_BYTES, FROM_TEN_TO_TEN_BYTES, 9),
        }
        for refusal, asked in cases.items():
            with self.subTest(refusal=refusal):
                self.assertEqual(library.decide(*asked), library.Reply(refusal))
        self.assertEqual(library.decide(b"", b"", b"", 1), library.Reply(1))

    def test_lines_in_range(self):
        self.assertEqual(library.decide(L_BYTES, TWO_BYTES, FROM_TEN_TO_TEN_BYTES, 65_535).lines, 3)
        for lines in (0, 65_536):
            self.assertRaises(ValueError, library.decide, L_BYTES, TWO_BYTES, FROM_TEN_TO_TEN_BYTES, lines)

    def test_check(self):
        asked = L_BYTES, TWO_BYTES, FROM_TEN_TO_TEN_BYTES
        self.assertEqual(library.check(*asked, TWO_WORDS), (0, 1))
        self.assertEqual(library.check(*asked, TWO_WORDS[:-1]), (0, 0))
        self.assertEqual(library.check(*asked, ()), (0, 0))
        self.assertEqual(library.check(b"", TWO_BYTES, FROM_TEN_TO_TEN_BYTES, TWO_WORDS), (1, 0))


class Parts(unittest.TestCase):
    def test_fits_with_its_part(self):
        reply = library.decide(L_BYTES, TWO_BYTES, FROM_TEN_TO_TWENTY_BYTES, 1024, some_part=True)
        self.assertEqual((reply.refusal, reply.verdict, reply.part, reply.facts, reply.rounds, reply.lines), (0, 1, 1, 10, 3, 2))
        self.assertEqual(reply.words, TEN_WORDS)

    def test_the_empty_part(self):
        reply = library.decide(L_BYTES, TWO_BYTES, bytes.fromhex("00 02 1E000000 1E000000"), 1024, some_part=True)
        self.assertEqual((reply.refusal, reply.verdict, reply.part, reply.lines), (0, 1, 0, 1))

    def test_no_part(self):
        reply = library.decide(L_BYTES, TWO_BYTES, bytes.fromhex("00 02 0A000000 1E000000"), 1024, some_part=True)
        self.assertEqual((reply.refusal, reply.verdict, reply.part, reply.words), (0, 0, 0, ()))

    def test_refusals(self):
        asked = TWO_BYTES, FROM_TEN_TO_TWENTY_BYTES
        self.assertEqual(library.decide(L_BYTES[:-1], *asked, 1024, some_part=True), library.Reply(1))
        self.assertEqual(library.decide(L_BYTES, *asked, 9, some_part=True), library.Reply(11))

    def test_check(self):
        asked = L_BYTES, TWO_BYTES, FROM_TEN_TO_TWENTY_BYTES
        # Record 10, no record, both, and a third one that is not there.
        self.assertEqual([library.check(*asked, TEN_WORDS, part) for part in (1, 0, 3, 5)], [(0, 1), (0, 0), (0, 0), (0, 0)])
        self.assertEqual(library.check(*asked, TEN_WORDS), (0, 0))
        self.assertEqual(library.check(L_BYTES, TWO_BYTES, FROM_TEN_TO_TEN_BYTES, TWO_WORDS, 3), (0, 1))
        self.assertEqual(library.check(b"", *asked[1:], TEN_WORDS, 1), (1, 0))


class Walks(unittest.TestCase):
    def test_fits(self):
        self.assertEqual(library.walk(PLAIN_BYTES, CHAIN_BYTES, FROM_TEN_TO_NIL_BYTES), (0, 1))

    def test_does_not_fit(self):
        self.assertEqual(library.walk(PLAIN_BYTES, CHAIN_BYTES, FROM_TEN_TO_TWENTY_BYTES), (0, 0))
        self.assertEqual(library.walk(PLAIN_BYTES, TWO_BYTES, FROM_TEN_TO_NIL_BYTES), (0, 0))

    def test_refusals(self):
        for refusal, asked in {
            1: (PLAIN_BYTES[:-1], CHAIN_BYTES, FROM_TEN_TO_NIL_BYTES),
            4: (PLAIN_BYTES + b"\0", CHAIN_BYTES, FROM_TEN_TO_NIL_BYTES),
            5: (PLAIN_BYTES, b"", FROM_TEN_TO_NIL_BYTES),
            8: (PLAIN_BYTES, CHAIN_BYTES + b"\0", FROM_TEN_TO_NIL_BYTES),
            9: (PLAIN_BYTES, CHAIN_BYTES, b""),
        }.items():
            with self.subTest(refusal=refusal):
                self.assertEqual(library.walk(*asked), (refusal, 0))


class Making(unittest.TestCase):
    def setUp(self):
        folder = tempfile.TemporaryDirectory()
        self.addCleanup(folder.cleanup)
        self.root = Path(folder.name)
        (self.root / "crates/one/src").mkdir(parents=True)
        (self.root / "crates/shapes").mkdir()
        (self.root / "target").mkdir()
        (self.root / "tools").mkdir()
        self.code = self.root / "crates/one/src/lib.rt"
        self.code.write_text("")
        self.library = self.root / "target/libshapes.so"
        names = {"ROOT": self.root, "LIBRARY": self.library, "CRATE": self.root / "crates/shapes", "ARCHIVE": self.root / "crates/shapes/out/libshapes.a"}
        for name, value in names.items():
            self.enterContext(mock.patch.object(library, name, value))
        self.enterContext(mock.patch.dict(os.environ, {"PATH": f"{self.root}/tools"}))
        self.said = StringIO()
        self.enterContext(redirect_stderr(self.said))

    def tool(self, name: str, text: str) -> None:
        path = self.root / "tools" / name
        path.write_text(f"#!/bin/sh\n{text}\n")
        path.chmod(0o755)

    def test_stale(self):
        code = library.sources(self.root)
        self.assertEqual(code, [self.code])
        self.assertTrue(library.is_stale(self.library, code))
        self.library.write_text("")
        os.utime(self.code, (1000, 1000))
        os.utime(self.library, (2000, 2000))
        self.assertFalse(library.is_stale(self.library, code))
        os.utime(self.code, (3000, 3000))
        self.assertTrue(library.is_stale(self.library, code))

    def test_made_of_what_the_tools_write(self):
        self.tool("rt", "true")
        self.tool("gcc", 'for last; do :; done; echo "$@" > "$last"')
        library.make()
        self.assertIn("--whole-archive", self.library.read_text())
        self.assertEqual(list((self.root / "target").iterdir()), [self.library])
        self.assertIn("making target/libshapes.so: the library is proved first, which takes some minutes\n", self.said.getvalue())

    def test_missing_tools(self):
        with self.assertRaisesRegex(Unusable, "rt is not on the path"):
            library.make()
        self.tool("rt", "true")
        with self.assertRaisesRegex(Unusable, "gcc is not on the path"):
            library.make()

    def test_failing_tools(self):
        self.tool("gcc", "echo no such archive >&2; exit 1")
        self.tool("rt", "echo one; echo two >&2; exit 3")
        with self.assertRaisesRegex(Unusable, "`rt lib` failed with status 3"):
            library.make()
        self.assertIn("\n...\none\ntwo\n", self.said.getvalue())
        self.tool("rt", "true")
        with self.assertRaisesRegex(Unusable, "`gcc -shared .*` failed with status 1"):
            library.make()
        self.assertIn("no such archive", self.said.getvalue())
        self.assertFalse(self.library.exists())

    def test_what_rt_says_of_each_crate_is_passed_on(self):
        self.tool("rt", "echo rt: one proved; echo more; echo rt: two NOT PROVED; exit 1")
        self.tool("gcc", "true")
        with self.assertRaises(Unusable):
            library.make()
        self.assertIn("minutes\n  rt: one proved\n  rt: two NOT PROVED\n...\nmore\n", self.said.getvalue())

    def test_two_at_once(self):
        """The second one waits, and finds what the first one made."""
        self.tool("rt", "echo run >> runs; PATH=/usr/bin:/bin sleep 1")
        self.tool("gcc", 'for last; do :; done; echo > "$last"')
        both = [Thread(target=library.make) for _ in range(2)]
        for each in both:
            each.start()
        for each in both:
            each.join()
        self.assertEqual((self.root / "crates/shapes/runs").read_text(), "run\n")
        self.assertRegex(self.said.getvalue(), "waiting: another ./shapes is making target/libshapes.so")

    def test_code_changed_while_it_is_made_is_newer(self):
        os.utime(self.code, (1000, 1000))
        self.tool("rt", f"PATH=/usr/bin:/bin sleep 0.1; echo >> {self.code}")
        self.tool("gcc", 'for last; do :; done; echo > "$last"')
        library.make()
        self.assertTrue(library.is_stale(self.library, [self.code]))

    def test_nowhere_to_make_it(self):
        self.tool("rt", "true")
        self.tool("gcc", "true")
        reached = os.access
        closed = mock.patch.object(os, "access", lambda path, mode: mode != os.W_OK and reached(path, mode))
        with closed, self.assertRaisesRegex(Unusable, "cannot be made: Permission denied"):
            library.make()
        (self.root / "target").rmdir()
        (self.root / "target").write_text("")
        with self.assertRaisesRegex(Unusable, "cannot be made: File exists"):
            library.make()
        self.assertEqual(self.said.getvalue(), "")

    def test_no_library(self):
        self.library.write_text("rubbish")
        with self.assertRaisesRegex(Unusable, "delete it"):
            library._declared(self.library)
        self.library.unlink()
        self.library.mkdir()
        with self.assertRaisesRegex(Unusable, "delete it"):
            library._declared(self.library)


class Loading(unittest.TestCase):
    def test_a_library_cut_short(self):
        """Of most lengths the system ends the program that loads it."""
        library._loaded()  # makes it where it is missing
        whole = library.LIBRARY.read_bytes()
        with tempfile.TemporaryDirectory() as folder:
            path = Path(folder) / "libshapes.so"
            for length in (0, 3, 63, 64, 1000, len(whole) // 2, len(whole) - 1):
                path.write_bytes(whole[:length])
                with self.subTest(length=length), self.assertRaisesRegex(Unusable, "delete it"):
                    library._declared(path)
