"""Tests of tools/numbering.py: numbers in the order in which sums come first. NOT PROVED."""

import unittest

from numbering import Numbering, sum_of


class Numbers(unittest.TestCase):
    def test_a_sum_keeps_its_number(self):
        seen = Numbering()
        self.assertEqual([seen.number(it) for it in (5, 7, 5, 0, 7)], [0, 1, 0, 2, 1])
        self.assertEqual(len(seen), 3)

    def test_sums_of_one_slot_are_told_apart(self):
        # (1,024 slots at first: these name one, also those that differ above 64 bits)
        seen, keys = Numbering(), [9, 9 + 1024, 9 + 2048, 9 + (1 << 64), 9 + (1 << 95)]
        self.assertEqual([seen.number(it) for it in keys], [0, 1, 2, 3, 4])
        self.assertEqual([seen.number(it) for it in keys], [0, 1, 2, 3, 4])

    def test_numbers_stay_where_it_grows(self):
        seen, keys = Numbering(), [(number * 0x9E3779B97F4A7C15) % (1 << 96) for number in range(5000)]
        self.assertEqual([seen.number(it) for it in keys], list(range(5000)))
        self.assertEqual([seen.number(it) for it in reversed(keys)], list(range(4999, -1, -1)))
        self.assertEqual(len(seen), 5000)

    def test_a_sum_is_that_of_b2sum(self):
        # (`printf AB | b2sum -l 96`, of which the first byte is the lowest)
        for data, wanted in ((b"", "b8e1dda3ac0aa3820ad2990b"), (b"AB", "17981363cbf7d60033a9d2a6")):
            self.assertEqual(sum_of(data), int.from_bytes(bytes.fromhex(wanted), "little"))
