import unittest

from workbench.refusals import SENTENCES, sentence


class Sentences(unittest.TestCase):
    def test_each_number_has_one(self):
        self.assertEqual(sorted(SENTENCES), list(range(1, 13)))
        self.assertEqual(len(set(SENTENCES.values())), 12)

    def test_each_says_what_to_do(self):
        for number, text in SENTENCES.items():
            with self.subTest(number=number):
                self.assertIn(": ", text)
                self.assertEqual(sentence(number, some_part=True), text)
                if number < 11:
                    self.assertEqual(sentence(number), text)

    def test_without_a_table(self):
        """The walk is no way out where some part was asked about."""
        self.assertEqual(sentence(11), f"{SENTENCES[11]}; or ask with --walk, which needs no table and answers if the book is plain")

    def test_unknown(self):
        self.assertIn("does not know", sentence(13))
