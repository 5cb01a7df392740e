"""Pools as text, and what is said about each mistake in one."""

import unittest

from workbench.model import Pool, Record
from workbench.pool_text import parse_pool, write_pool
from workbench.tests.marked import check_rows

MISTAKES = [
    ("10 ‸20", "write : after the address 10, and not 20"),
    ("‸10", ": is missing after the address 10: write 10: and the fields on the same line"),
    ("10:\n‸20", ": is missing after the address 20: write 20: and the fields on the same line"),
    ("‸0: 1", "0 is no address: 0 is nil, where no record can be; correct it, or leave the line out"),
    ("‸nil: 1", "nil is no address: 0 is nil, where no record can be; correct it, or leave the line out"),
    ("10: 20\n‸10: 30", "the address 10 is on line 1 already: an address has one record"),
    ("10: 1,2,3,4,‸5", "this record has a fifth field: a record has at most 4 fields"),
    ("10: (1,2,3,4,‸5)", "this record has a fifth field: a record has at most 4 fields"),
    ("‸4294967296: 1", "4294967296 is too large: a value is at most 4,294,967,294 (0xFFFFFFFE), and 0xFFFFFFFF is nil"),
    ("10: ‸4294967296", "4294967296 is too large: a value is at most 4,294,967,294 (0xFFFFFFFE), and 0xFFFFFFFF is nil"),
    ("10: ‸0x100000000", "0x100000000 is too large: a value is at most 4,294,967,294 (0xFFFFFFFE), and 0xFFFFFFFF is nil"),
    ("‸segment { emp => segment() }", "this is a book and no pool: a pool has lines such as 10: 20, or the word emp for no record"),
    ("‸segment(10, 10)", "this is a question and no pool: a pool has lines such as 10: 20, or the word emp for no record"),
    ("‸a: 10", "a is no address: a pool has lines such as 10: 20, or the word emp for no record; names stand in books only"),
    ("10: ‸a", "a is no value: write a number or nil"),
    ("10: ‸FFFF0010", "FFFF0010 is no value: write a number or nil; for base sixteen write 0xFFFF0010"),
    (
        "‸FFFF0010: 10",
        "FFFF0010 is no address: a pool has lines such as 10: 20, or the word emp for no record; names stand in books only;"
        " for base sixteen write 0xFFFF0010",
    ),
    ("10: ‸-1", "- is not used here: write a whole number of 0 or more, without sign or point"),
    ("10: 1‸.5", ". is not used here: write a whole number of 0 or more, without sign or point"),
    ("10 ‸-> 20", "write : after the address 10, and not ->"),
    ("10 ‸= 20", "write : after the address 10, and not ="),
    ("10: 20 ‸20: 10", "write , before 20 if it is a field, and a new line if it begins a record"),
    ("10:(20) ‸20:(10)", "write , before 20 if it is a field, and a new line if it begins a record"),
    ("10: 20‸; 20: 10", "\";\" cannot follow a record: write each record on a line of its own, and nothing after it"),
    ("10: 20‸,", "a field is missing after this comma: write one on the same line, or take the comma away"),
    ("10: 20‸,\n30", "a field is missing after this comma: write one on the same line, or take the comma away"),
    ("10: ‸(20", "( is not closed on its line: write ) after the last field"),
    ("10: ‸(20\n20: (10)", "( is not closed on its line: write ) after the last field"),
    ("10: 20‸)", ") cannot follow a record: write each record on a line of its own, and nothing after it"),
    ("10: ‸,", "a field is missing before \",\": write a number or nil"),
    ("10: (‸,)", "a field is missing before \",\": write a number or nil"),
    ("emp\n‸10: 20", "10 follows emp: emp stands alone, for a pool with no record"),
    ("10: 20\n‸emp", "emp stands alone, for a pool with no record: take it away"),
    ("‸", "there is no record here: write emp for a pool with no record"),
    ("‸# no\n", "there is no record here: write emp for a pool with no record"),
    ("‸010: 20", "010 begins with 0: write 10, or 0x and the digits for base sixteen"),
    ("‸0A: 20", "0A is no number and no name: write base sixteen after 0x; a name begins with a letter"),
    ("‸0x: 20", "0x is no number and no name: write base sixteen after 0x; a name begins with a letter"),
    ("‸1_000: 20", "1_000 has _ in it: write a number without _; a name begins with a letter"),
    ("10: 20 ‸30", "write , before 30 if it is a field, and a new line if it begins a record"),
    ("emp ‸emp", "emp follows emp: emp stands alone, for a pool with no record"),
    ("10: nil ‸nil", "write , before nil if it is a field, and a new line if it begins a record"),
    ("10:‸: 20", "a field is missing before \":\": write a number or nil"),
    ("10: ‸@1", "@1 stands in books only: write the number itself"),
    ("10: (20, ‸@1)", "@1 stands in books only: write the number itself"),
    ("‸@1: 20", "@1 stands in books only: write the number itself"),
    ("‸constants 7 ; p { a -> @1 => p(a) }", "this is a book and no pool: a pool has lines such as 10: 20, or the word emp for no record"),
    ("10: ‸emp", "emp is no value: write a number or nil"),
    ("‸: 20", "\":\" begins no record: a pool has lines such as 10: 20, or the word emp for no record"),
    ("10: 20 ‸:30", "a second : on this line: write each record on a line of its own"),
    ("10: (‸(20))", "a field is missing before (: write a number or nil"),
    ("10: 20 ‸| 30", "| cannot follow a record: write each record on a line of its own, and nothing after it"),
    ("‸0x10\n: 20", ": is missing after the address 0x10: write 0x10: and the fields on the same line"),
    ("10: 20 ‸* 30: 40", "* cannot follow a record: write each record on a line of its own, and nothing after it"),
    ("10: nil\n‸0xA: 20", "the address 0xA is on line 1 already: an address has one record"),
    ("10: 20\n\n‸0xA: 30", "the address 0xA is on line 1 already: an address has one record"),
    ("20: 10\n10: 20\n‸20: 10", "the address 20 is on line 1 already: an address has one record"),
    ("10: 20 # one\n 0x14: 10, 20,\t30, nil, ‸1", "this record has a fifth field: a record has at most 4 fields"),
    ("10: ‸[20]", "[ is not used here: write ( and not ["),
    ("10 ‸:= 20", ":= is not used here: write = in a condition, => before a head, and : after an address"),
    ("10: ()‸20", "write , before 20 if it is a field, and a new line if it begins a record"),
    ("10: () ‸20: ()", "write , before 20 if it is a field, and a new line if it begins a record"),
    ("10: (20) ‸30", "write , before 30 if it is a field, and a new line if it begins a record"),
    ("10: ‸(\n", "( is not closed on its line: write ) after the last field"),
    ("10: (20‸,\n30)", "a field is missing after this comma: write one on the same line, or take the comma away"),
    ("10: (20 ‸30)", ", is missing before 30: write , between fields and ) after the last"),
    ("‸nil", "nil is no address: 0 is nil, where no record can be; correct it, or leave the line out"),
    ("emp‸:", "\":\" follows emp: emp stands alone, for a pool with no record"),
    ("‸p() { }", "this is a book and no pool: a pool has lines such as 10: 20, or the word emp for no record"),
    ("‸x => 3", "this is a book and no pool: a pool has lines such as 10: 20, or the word emp for no record"),
    ("‸{ }", "{ begins no record: a pool has lines such as 10: 20, or the word emp for no record"),
    ("10: 20\n‸p(1)", "p is no address: a pool has lines such as 10: 20, or the word emp for no record; names stand in books only"),
    ("10:\n20:\n‸:", "\":\" begins no record: a pool has lines such as 10: 20, or the word emp for no record"),
    ("10: ‸0x1_0", "0x1_0 has _ in it: write a number without _; a name begins with a letter"),
    ("10: (20‸,)", "a field is missing after this comma: write one on the same line, or take the comma away"),
    ("10: ‸)", ") cannot follow a record: write each record on a line of its own, and nothing after it"),
    ("10: 20‸,)", "a field is missing after this comma: write one on the same line, or take the comma away"),
    ("10: (20) ‸)", ") cannot follow a record: write each record on a line of its own, and nothing after it"),
    ("10: ‸(\n20)", "( is not closed on its line: write ) after the last field"),
    ("10 ‸(20)", "write : after the address 10, and not ("),
    ("10: 20 ‸(30)", "( cannot follow a record: write each record on a line of its own, and nothing after it"),
]


class PoolText(unittest.TestCase):
    def test_records_in_any_order(self) -> None:
        pool = parse_pool("20: 10, nil\n\n# the first\n10: 20 # and its field\n", "file")
        self.assertEqual(pool, Pool((Record(10, (20,)), Record(20, (10, 0)))))

    def test_records_without_fields(self) -> None:
        self.assertEqual(parse_pool("1:\n2: ()\n3:() # none\n", "file").records, (Record(1, ()), Record(2, ()), Record(3, ())))

    def test_fields_in_parentheses(self) -> None:
        self.assertEqual(parse_pool("1: (2, nil)\n", "file").records, (Record(1, (2, 0)),))

    def test_no_record(self) -> None:
        self.assertEqual(parse_pool(" # nothing\n emp # at all", "file"), Pool(()))
        self.assertEqual(write_pool(Pool(())), "emp\n")

    def test_the_first_spelling_is_kept(self) -> None:
        text = "0x0A: 10, 0x14, nil\n20: 0x1f, 0x1F, 0x00\n0X64: 0xA\n"
        pool = parse_pool(text, "file")
        self.assertEqual(pool.spellings, ((10, "0x0A"), (20, "0x14"), (31, "0x1f"), (100, "0X64")))
        self.assertEqual(write_pool(pool), "0x0A: 0x0A, 0x14, nil\n0x14: 0x1f, 0x1f, nil\n0X64: 0x0A\n")

    def test_base_ten_first_stays(self) -> None:
        self.assertEqual(parse_pool("10: 0x0A", "file").spellings, ())

    def test_the_largest_value(self) -> None:
        self.assertEqual(parse_pool("4294967294: 0xFFFFFFFE, 0x0000000000000000001", "file").records, (Record(2**32 - 2, (2**32 - 2, 1)),))

    def test_the_end_mark_is_nil(self) -> None:
        pool = parse_pool("10: 4294967295, 0xFFFFFFFF, 0xffffffff, 0", "file")
        self.assertEqual(pool, Pool((Record(10, (0, 0, 0, 0)),)))
        self.assertEqual(write_pool(pool), "10: nil, nil, nil, nil\n")
        said = "is no address: it is the end mark, so nil, where no record can be; correct it, or leave the line out"
        check_rows(self, [(f"10: 20\n‸{mark}: 1", f"{mark} {said}") for mark in ("4294967295", "0xFFFFFFFF", "0x0ffffffff", "FFFFFFFF", "ffffffff")], parse_pool)

    def test_written(self) -> None:
        self.assertEqual(write_pool(Pool((Record(10, (20, 0)), Record(20, ())))), "10: 20, nil\n20: ()\n")

    def test_sixteen_records_and_one_more(self) -> None:
        text = "".join(f"{address}: 1\n" for address in range(1, 17))
        self.assertEqual(len(parse_pool(text, "file").records), 16)
        check_rows(self, [(text + "‸17: 1", "this is a seventeenth record: a pool has at most 16 records")], parse_pool)

    def test_thousands_of_digits(self) -> None:
        message = "9999999999999999999999999999999999999... is too large: a value is at most 4,294,967,294 (0xFFFFFFFE), and 0xFFFFFFFF is nil"
        check_rows(self, [("10: ‸" + "9" * 5000, message)], parse_pool)

    def test_mistakes(self) -> None:
        check_rows(self, MISTAKES, parse_pool)


if __name__ == "__main__":
    unittest.main()
