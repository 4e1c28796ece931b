"""Tests of tools/times.py and tools/up_to.py: times, shares and the meaning of visits in words. NOT PROVED."""

import unittest

from times import left_told, share_told, span
from up_to import meaning_of

SHARES = {
    0: "about none", 1e-300: "about 1.0 x 10^-300", 9.96e-7: "about 1.0 x 10^-6", 1e-5: "about 0.001 %", 0.45: "about 45.000 %", 1: "about 100.000 %",
}
SPANS = {
    0: "0.0 s", 9.94: "9.9 s", 12: "12 s", 99: "99 s", 120: "2.0 min", 6000: "1.7 hours", 86400: "24 hours", 172799: "48 hours", 172800: "2.0 days",
    1e6: "12 days", 1e9: "32 years", 1e15: "10^7 years",
}


class Times(unittest.TestCase):
    def test_shares(self):
        self.assertEqual({share: share_told(share) for share in SHARES}, SHARES)

    def test_spans(self):
        self.assertEqual({seconds: span(seconds) for seconds in SPANS}, SPANS)

    def test_what_is_left(self):
        self.assertEqual((left_told((10, 45)), left_told(None)), ("10 s to 45 s left", "nobody can tell what is left"))


class Meanings(unittest.TestCase):
    def test_a_meaning_is_kept_in_words(self):
        for words in ("rotations", "symmetries packings 48", "rotations classes", "symmetries packings 4 classes"):
            self.assertEqual(meaning_of(words).words(), words)

    def test_other_words_have_none(self):
        for words in ("", "reflections", "rotations packings", "rotations packings 0", "rotations packings x", "rotations 4"):
            self.assertIsNone(meaning_of(words), words)
