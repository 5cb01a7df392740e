"""Parts as numbers, as addresses and as text."""

import unittest

from workbench.model import Pool, Record
from workbench.part import Part, number_of, parse_part, part_of, write_part
from workbench.tests.engine_samples import NOTHING
from workbench.tests.marked import check_rows
from workbench.values import write_value

POOL = Pool((Record(10, (20,)), Record(32, ()), Record(300, (7,))), ((32, "0x20"),))
KNOWN = "its records are 10, 0x20, 300"


class Numbers(unittest.TestCase):
    def test_the_lowest_address_is_the_lowest_bit(self):
        self.assertEqual(part_of(0b001, POOL), Part((10,), (32, 300)))
        self.assertEqual(part_of(0b110, POOL), Part((32, 300), (10,)))
        self.assertEqual([part_of(number, POOL).records for number in (0, 7)], [(), (10, 32, 300)])
        self.assertEqual(part_of(0, NOTHING), Part((), ()))

    def test_back(self):
        for number in range(8):
            self.assertEqual(number_of(part_of(number, POOL).records, POOL), number)


class Texts(unittest.TestCase):
    def test_read(self):
        for text, number in (("10", 1), ("0x20", 2), ("32", 2), ("300,10", 5), (" 10 , 0x20,\n0x12C ", 7), ("emp", 0), (" emp ", 0)):
            with self.subTest(text=text):
                self.assertEqual(parse_part(text, POOL), number)
        self.assertEqual(parse_part("emp", NOTHING), 0)

    def test_written_is_read_again(self):
        def spelt(address: int) -> str:
            return write_value(address, POOL.spellings)

        self.assertEqual([write_part(part_of(number, POOL).records, spelt) for number in (0, 6)], ["emp", "0x20,300"])
        for number in range(8):
            self.assertEqual(parse_part(write_part(part_of(number, POOL).records, spelt), POOL), number)

    def test_mistakes(self):
        such_as = "write addresses such as 10,20, or emp"
        check_rows(
            self,
            [
                ("10,‸20", f"the pool has no record at 20: {KNOWN}"),
                ("‸0x10", f"the pool has no record at 0x10: {KNOWN}"),
                ("‸0", f"the pool has no record at 0: {KNOWN}"),
                ("10,300,‸10", "10 stands here twice: name each record once"),
                ("0x20,‸32", "32 stands here twice: name each record once"),
                ("‸", f"there is no address here: {such_as} for the empty part"),
                ("‸nil", f"nil is no address: {such_as} alone"),
                ("10,‸all", f"all is no address: {such_as} alone"),
                ("‸(10)", f"an address is missing before (: {such_as} alone"),
                ("‸,10", f'an address is missing before ",": {such_as} alone'),
                ("10,‸", f"an address is missing before the end: {such_as} alone"),
                ("10,‸A0", f"A0 is no address: {such_as} alone; for base sixteen write 0xA0"),
                ("10,‸emp", f"emp is no address: {such_as} alone"),
                ("10 ‸300", "300 cannot follow: write addresses with , between them, or emp alone"),
                ("emp‸,10", '"," cannot follow: write addresses with , between them, or emp alone'),
                ("‸99999999999", "99999999999 is too large: a value is at most 4,294,967,294 (0xFFFFFFFE), and 0xFFFFFFFF is nil"),
                ("10,‸020", "020 begins with 0: write 20, or 0x and the digits for base sixteen"),
            ],
            lambda text, source: parse_part(text, POOL, source),
        )

    def test_of_no_record(self):
        rows = [("‸10", "the pool has no record at 10: it has none, so write emp")]
        check_rows(self, rows, lambda text, source: parse_part(text, NOTHING, source))
