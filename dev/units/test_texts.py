"""Tests of tools/texts.py: lines, words with their columns, and marks that may not stand in a text. NOT PROVED."""

import unittest

from texts import Fault, Reader, lines_of, mark_named, words_of


class Lines(unittest.TestCase):
    def test_a_line_ends_by_one_or_two_bytes(self):
        self.assertEqual(lines_of("a\r\nb\n\nc"), ["a", "b", "", "c"])
        self.assertEqual((lines_of(""), lines_of("\n"), lines_of("a\n")), ([], [""], ["a"]))

    def test_words_have_columns(self):
        self.assertEqual(words_of(" a\tbc  d"), [("a", 1), ("bc", 3), ("d", 7)])
        self.assertEqual(words_of(" \t "), [])


class Marks(unittest.TestCase):
    def test_a_mark_is_named(self):
        self.assertEqual(mark_named("x\xc3\xa9", 1), ("the character U+00E9, LATIN SMALL LETTER E WITH ACUTE,", 2))
        self.assertEqual(mark_named("\x01", 0), ("the byte 01", 1))
        self.assertEqual(mark_named("\xff", 0), ("the byte ff", 1))
        self.assertEqual([mark_named(it, 0)[1] for it in ("\xef\xbb\xbfbox", "\xff\xfeb", "\xe2\x82\xac", "\xf0\x9f\xa7\xa9")], [3, 2, 3, 4])


class Readers(unittest.TestCase):
    def read(self, text, faults=None):
        reader, found = Reader(faults), []
        reader.read_lines(text, lambda words: found.append((reader.number, [it for it, _ in words])))
        return found

    def test_comments_and_empty_lines_are_passed(self):
        self.assertEqual(self.read("a b # c\n\n# d\n\te\n"), [(1, ["a", "b"]), (4, ["e"])])

    def test_it_stops_at_the_first_mark_that_may_not_stand_there(self):
        with self.assertRaises(Fault) as caught:
            self.read("a\nb \xc3\xa9\n")
        fault = caught.exception
        self.assertEqual((fault.line, fault.name, fault.columns), (2, "BadLine", (2, 4)))

    def test_with_a_list_it_goes_on(self):
        faults = []
        self.assertEqual(self.read("a \x07\nb \xc3\xa9 c\nd\n", faults), [(2, ["b", "c"]), (3, ["d"])])
        self.assertEqual([(it.line, it.columns) for it in faults], [(1, (2, 3)), (2, (2, 4))])

    def test_a_mark_in_a_comment_is_none(self):
        self.assertEqual(self.read("a # \xc3\xa9\n"), [(1, ["a"])])
