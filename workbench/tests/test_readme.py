"""What README.md shows of the workbench is what there is: its answers, its book, and the verbs and examples that it names."""

import re
import textwrap
import unittest

from workbench.book_text import parse_book
from workbench.library import ROOT
from workbench.tests.test_transcripts import run

README = (ROOT / "README.md").read_text()
# The indented blocks, in their order.
BLOCKS = [textwrap.dedent(block).strip("\n") for block in re.findall(r"(?:^(?:    .*)?\n)+", README, re.MULTILINE) if block.strip()]


class Readme(unittest.TestCase):
    maxDiff = None

    def test_answers(self):
        """What stands after a command that asks is what it prints."""
        asked = [place for place, block in enumerate(BLOCKS) if block.startswith("./shapes ask ")]
        self.assertEqual([BLOCKS[place].split(" house ")[0].split(" examples")[0] for place in asked], ["./shapes ask", "./shapes ask --part", "./shapes ask --walk"])
        for place in asked:
            with self.subTest(command=BLOCKS[place]):
                self.assertEqual(run(BLOCKS[place]), BLOCKS[place + 1])

    def test_its_book_is_the_example(self):
        (book,) = [block for block in BLOCKS if "=>" in block]
        example = (ROOT / "examples/lists.book").read_text()
        self.assertEqual(parse_book(book, "README.md"), parse_book(example, "examples/lists.book"))

    def test_files_named_are_there(self):
        for path in re.findall(r"\b(?:docs|include|examples)/[\w.*-]+\.\w+", README):
            with self.subTest(file=path):
                self.assertTrue(list(ROOT.glob(path)))
