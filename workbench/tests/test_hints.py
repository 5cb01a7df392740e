import unittest

from workbench.hints import Dangling, Held, Hints, Outside, Place, Unreached, hints, part_hints, reached_from
from workbench.model import Pool, Question, Record


def pool(**records: tuple[int, ...]) -> Pool:
    """r10=(20,) is the record 10 with one field, 20."""
    return Pool(tuple(Record(int(name[1:]), fields) for name, fields in records.items()))


class Looked(unittest.TestCase):
    def test_nothing(self):
        found = hints(pool(r10=(20,), r20=(0,)), Question(0, (10, 0)))
        self.assertEqual(found, Hints())
        self.assertFalse(found)

    def test_hung_in_two_places(self):
        found = hints(pool(r10=(30,), r20=(30,), r30=(0,)), Question(0, (10, 20)))
        self.assertEqual(found, Hints(held=(Held(30, (Place(10, 1), Place(20, 1))),)))
        self.assertTrue(found)

    def test_twice_in_one_record(self):
        found = hints(pool(r10=(20, 20), r20=(10,)), Question(0, (10,)))
        self.assertEqual(found.held, (Held(20, (Place(10, 1), Place(10, 2))),))

    def test_a_doubly_linked_list_is_no_reason(self):
        self.assertFalse(hints(pool(r10=(20, 0), r20=(30, 10), r30=(0, 20)), Question(0, (10, 30))))

    def test_but_a_third_pointer_into_it_is(self):
        found = hints(pool(r5=(20,), r10=(20, 0), r20=(30, 10), r30=(0, 20)), Question(0, (10, 5)))
        self.assertEqual(found.held, (Held(20, (Place(5, 1), Place(10, 1), Place(30, 2))),))

    def test_no_way_leads_there(self):
        found = hints(pool(r10=(0,), r20=(20,), r30=(40,), r40=(30,)), Question(0, (10,)))
        self.assertEqual(found.unreached, (Unreached(20, ()), Unreached(30, (40,)), Unreached(40, (30,))))

    def test_dangling(self):
        found = hints(pool(r10=(20, 7), r20=(8,)), Question(0, (10, 8, 9, 0)))
        self.assertEqual(found.dangling, (Dangling(Place(10, 2), 7, False), Dangling(Place(20, 1), 8, True)))
        self.assertEqual(found.outside, (Outside(2, 8), Outside(3, 9)))

    def test_a_constant_is_meant_to_name_no_record(self):
        """It counts all the same where it is a record's address."""
        found = hints(pool(r10=(7, 20), r20=(8, 30), r30=(7, 20)), Question(0, (10, 7, 9)), (7, 20, 0))
        self.assertEqual((found.dangling, found.outside), ((Dangling(Place(20, 1), 8, False),), (Outside(3, 9),)))
        self.assertEqual(hints(pool(r10=(7, 20), r20=(7, 20)), Question(0, (10,)), (7, 20)).held, (Held(20, (Place(10, 2), Place(20, 2))),))
        found = part_hints(pool(r10=(7,), r20=(8,)), Question(0, (10, 7, 9)), (7,))
        self.assertEqual(found, Hints(outside=(Outside(3, 9),)))

    def test_reached_nearest_first(self):
        self.assertEqual(reached_from((5, 1), pool(r1=(2, 3), r2=(4,), r3=(1, 0), r4=(9,), r6=(1,))), [1, 2, 3, 4])

    def test_for_a_part_only_what_the_question_leads_to(self):
        """The records 60 and 70 may be left out: neither they nor what they hold are a reason."""
        rest = dict(r60=(70, 30, 8), r70=(60,))
        self.assertTrue(hints(pool(r10=(30,), r30=(0,), **rest), Question(0, (10,))))
        self.assertEqual(part_hints(pool(r10=(30,), r30=(0,), **rest), Question(0, (10,))), Hints())
        found = part_hints(pool(r10=(30,), r20=(30,), r30=(7,), **rest), Question(0, (10, 20, 9)))
        held, dangling = (Held(30, (Place(10, 1), Place(20, 1))),), (Dangling(Place(30, 1), 7, False),)
        self.assertEqual(found, Hints(held=held, dangling=dangling, outside=(Outside(3, 9),)))
