"""Tests of tools/shares.py and tools/sliced.py: the share of a search that is done, what is left, and how long a slice is, of numbers for which
that is known. NOT PROVED."""

import time
import unittest

from shares import Estimate
from sliced import Sliced
from snapshots import numbers

# Two items, a and b; the third option covers both. In the states of its search so much is done.
PROBLEM = ["items a b", "option a", "option b", "option a b"]
DONE = {"X1 -": 0, "X5 1": 0, "X2 - 1": 0, "X5 2 1": 0, "X6 2 1": 0.5, "X5 3": 0.5, "X6 3": 1, "X5 past": 1, "X8 -": 1}
# So many items of which each has one option: at each level one is chosen, and nothing is done before the path is whole. And so many of which each has
# two, where the second of the first item's leaves a half done.
DEEP = 5000
FORCED = ["items " + " ".join(f"i{at}" for at in range(DEEP)), *(f"option i{at}" for at in range(DEEP))]
DOUBLE = [FORCED[0], *(f"option i{at // 2}" for at in range(2 * DEEP))]


class Shares(unittest.TestCase):
    def test_each_state_of_a_small_search(self):
        estimate = Estimate(PROBLEM)
        self.assertEqual({state: estimate.share(state.split()) for state in DONE}, DONE)

    def test_what_is_left(self):
        # (of nothing done nobody can tell what is left; a quarter in 10 seconds leaves 30, within a half of itself)
        estimate = Estimate(PROBLEM)
        self.assertIsNone(estimate.left(0.0, 5))
        self.assertEqual(estimate.left(0.25, 10), (10.0, 45.0))

    def test_a_path_of_many_levels_is_walked_in_a_moment(self):
        began, path = time.process_time(), " ".join(map(str, range(1, DEEP + 1)))
        estimate = Estimate(FORCED)
        for state, share in (("X2 - " + path, 0), ("X8 - " + path, 1), ("X5 past " + path.rpartition(" ")[0], 1)):
            self.assertEqual(estimate.share(state.split()), share, state[:20])
        self.assertLess(time.process_time() - began, 5)

    def test_where_there_is_no_time_later_calls_go_on_from_there(self):
        estimate, calls, began = Estimate(DOUBLE), 0, time.process_time()
        state = ["X2", "-", "2", *(str(at) for at in range(3, 2 * DEEP, 2))]
        # (a call reads the path first: on a slow machine that alone takes some thousandths of a second)
        reads = time.process_time()
        numbers(state[2:])
        reads = time.process_time() - reads
        while (share := estimate.share(state, time.process_time() + 0.004 + reads)) is None:
            calls += 1
        self.assertTrue(calls)
        self.assertEqual((share, estimate.share(["X2", "-", "1"]), estimate.share(["X5", "2"])), (0.5, 0, 0.5))
        # (the sum over all levels grew with their square before: this took minutes)
        self.assertLess(time.process_time() - began, 5)
        # What isn't of the problem has no share, and does no harm.
        self.assertEqual((estimate.share(["X2", "-", "77777"]), estimate.share(state)), (None, None))


class Slices(unittest.TestCase):
    def steps_after(self, start, seconds):
        """How many steps slices of so many seconds come to have where a run takes so long to start, and a step takes a millionth of a second."""
        count, most = Sliced("count", ""), 1000000
        count.shortest = start
        for _ in range(40):
            most = count.next_steps(most, seconds, start + most * 1e-6)
        return most

    def test_a_slice_comes_to_take_its_seconds(self):
        # (where the start alone takes longer than a slice is to take, half of each slice is the start)
        for start, seconds, wanted in ((0.05, 20, 19.95e6), (2, 1, 2e6), (600, 20, 600e6)):
            self.assertAlmostEqual(self.steps_after(start, seconds) / wanted, 1, delta=0.01)
