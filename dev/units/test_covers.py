"""Tests of tools/covers.py: cover texts, and the fault of each that is refused. NOT PROVED."""

import unittest

from covers import Cover
from texts import Fault

# A text, and the name and line of its fault.
REFUSED = (
    ("", "NoItemLine", 0), ("option a\n", "NoItemLine", 1), ("items\n", "BadLine", 1), ("items a\nitems b\n", "BadLine", 2), ("things a\n", "BadLine", 1),
    ("items a\noption a\nmaybe b\n", "BadLine", 3), ("items a\nmaybe b\nmaybe c\n", "BadLine", 3), ("items a b a\n", "RepeatedItem", 1),
    ("items a\nmaybe a\n", "RepeatedItem", 2), ("items a\n\noption b\n", "UnknownItem", 3), ("items a b\noption a b a\n", "ItemTwiceInOption", 2),
    ("items a-b\n", "BadName", 1), ("items abcdefghi\n", "BadName", 1),
)


class Texts(unittest.TestCase):
    def test_a_text_is_read(self):
        cover = Cover("# two\nitems a b c\nmaybe d_1\n\noption a c\noption b d_1 # last\n")
        self.assertEqual((cover.items, cover.must), ({"a": 0, "b": 1, "c": 2, "d_1": 3}, 3))
        self.assertEqual((cover.options, cover.lines), ([[0, 2], [1, 3]], [5, 6]))
        # (a place for each item, each entry and each option, and two more)
        self.assertEqual(cover.table(), 4 + 4 + 2 + 2)

    def test_each_fault_has_its_name_and_line(self):
        for text, name, line in REFUSED:
            with self.subTest(text), self.assertRaises(Fault) as caught:
                Cover(text)
            self.assertEqual((caught.exception.name, caught.exception.line), (name, line), text)

    def test_a_fault_has_its_columns(self):
        with self.assertRaises(Fault) as caught:
            Cover("items a b\noption  a  zz\n")
        self.assertEqual(caught.exception.columns, (11, 13))

    def test_all_faults_come_where_they_are_asked_for(self):
        faults = []
        cover = Cover("items a a b-c d\noption z a\nmaybe e\noption d d\n", faults)
        self.assertEqual([(it.line, it.name) for it in faults],
            [(1, "RepeatedItem"), (1, "BadName"), (2, "UnknownItem"), (3, "BadLine"), (4, "ItemTwiceInOption")])
        self.assertEqual(cover.options, [[0], [1]])
