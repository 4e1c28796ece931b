"""Tests of tools/snapshots.py: how snapshots, answers and the text of parts are spelled. NOT PROVED."""

import unittest

from frame import Stop
from snapshots import Answer, Snapshot, Spoilt, Sums, at_start, checksum, number, parts_text, problem_text, saved

START = "polysnap 1\nproblem 3\nitems a b\noption a\noption b\nfrom start\nto end\nstate X1 -\nend\n"
BRANCH = START.replace("from start", "from 1 2").replace("to end", "to 3").replace("X1 -", "X5 2 1")
ANSWER = "visits 4\nsteps 55\nlevels 1 4 4\nend\n"
EMPTY = "e3b0c44298fc1c149afbf4c8996fb92427ae41e4649b934ca495991b7852b855"


class Snapshots(unittest.TestCase):
    def test_the_start_of_a_run(self):
        it = Snapshot(START)
        self.assertEqual((it.problem, it.options, it.lo, it.hi, it.state), (["items a b", "option a", "option b"], 2, None, None, ["X1", "-"]))
        self.assertEqual((it.problem_lines(), it.is_at_start()), ("items a b\noption a\noption b\n", True))

    def test_a_branch_between_two_cuts(self):
        it = Snapshot(BRANCH)
        self.assertEqual((it.lo, it.hi, it.is_at_start()), ((1, 2), (3,), True))
        self.assertFalse(Snapshot(BRANCH.replace("X5 2 1", "X5 3 1")).is_at_start())
        self.assertFalse(Snapshot(START.replace("X1 -", "X2 -")).is_at_start())

    def test_breaks_of_the_second_kind(self):
        self.assertEqual(Snapshot(START.replace("polysnap 1", "polysnap 2").replace("\nend\n", "\nbreaks 1\nat X5 1\nend\n")).state, ["X1", "-"])

    def test_what_is_spoilt(self):
        for text in ("", START[:-1], START[:40], START.replace("polysnap 1", "polysnap 3"), START.replace("problem 3", "problem 03"), START + "end\n",
                START.replace("problem 3", "problem 2"), START.replace("problem 3", "problem 99"), BRANCH.replace("from 1 2", "from 1 x"), START.replace("polysnap 1", "polysnap 2")):
            with self.subTest(text), self.assertRaises(Spoilt):
                Snapshot(text)


class Parts(unittest.TestCase):
    COUNTS = "visits 4\nsteps 55\nlevels 1 4 4\n"

    def test_a_run_in_one_part(self):
        self.assertEqual("".join(parts_text([(Snapshot(START), self.COUNTS)])), START + START[START.index("from") :] + ANSWER)

    def test_the_whole_stands_before_the_first_part(self):
        parts = [(Snapshot(BRANCH), self.COUNTS), (Snapshot(BRANCH.replace("to 3", "to 4")), self.COUNTS)]
        first = BRANCH[BRANCH.index("from") :]
        self.assertEqual("".join(parts_text(parts)), START + first + ANSWER + first.replace("to 3", "to 4") + ANSWER)

    def test_a_whole_of_the_second_kind(self):
        second = lambda text: text.replace("polysnap 1", "polysnap 2").replace("\nend\n", "\nbreaks 0\nend\n")
        self.assertEqual(at_start(Snapshot(second(BRANCH))), second(START))


class Answers(unittest.TestCase):
    def test_the_end_of_a_branch(self):
        it = Answer(ANSWER)
        self.assertEqual((it.visits, it.steps, it.levels, it.rest, it.part), (4, 55, [1, 4, 4], None, None))

    def test_visits_may_be_listed(self):
        self.assertEqual(Answer("visit 1\nvisit 2 3\nvisits 2\nsteps 9\nlevels 1\nend\n").visits, 2)
        with self.assertRaisesRegex(Spoilt, "it lists 1 visits, and counts 2"):
            Answer("visit 1\nvisits 2\nsteps 9\nlevels 1\nend\n")

    def test_what_comes_next(self):
        self.assertEqual(Answer(ANSWER.replace("end\n", START)).rest, START)
        self.assertEqual(Answer(ANSWER + f"of {EMPTY}\n").part, EMPTY)
        with self.assertRaises(Spoilt):
            Answer(ANSWER + "of 12\n")

    def test_what_is_spoilt(self):
        for text in ("", ANSWER[:-1], "visits 4\nsteps 55\nlevels 1 4 4\n", ANSWER.replace("steps", "step"), ANSWER.replace("55", "055"), ANSWER.replace("visits 4", "visits 4 4")):
            with self.subTest(text), self.assertRaises(Spoilt):
                Answer(text)


class Added(unittest.TestCase):
    def sums(self, *answers):
        sums = Sums()
        for visits, steps, levels in answers:
            sums.add(Answer(f"visits {visits}\nsteps {steps}\nlevels {levels}\nend\n"))
        return sums

    def test_stretches_are_added(self):
        sums = self.sums((1, 20, "1 1"), (3, 35, "0 3 4"))
        self.assertEqual((sums.visits, sums.steps, sums.levels), (4, 55, [1, 4, 4]))
        self.assertEqual(sums.lines(), ["visits 4", "steps 55", "levels 1 4 4"])


class Words(unittest.TestCase):
    def test_numbers_have_no_zero_before_them(self):
        self.assertEqual([number(it) for it in ("0", "10", "18446744073709551616")], [0, 10, 2**64])
        for word in ("01", "", "-1", "1x", "+1"):
            with self.assertRaises(Spoilt):
                number(word)

    def test_the_sum_of_nothing(self):
        self.assertEqual(checksum(""), EMPTY)

    def test_a_problem_ends_with_its_line(self):
        self.assertEqual((problem_text("a"), problem_text("a\n")), ("a\n", "a\n"))
        with self.assertRaises(Stop):
            problem_text("a\n%%\r\nb\n")

    def test_a_snapshot_among_replies(self):
        replies = iter(["at X1 -\n", "snapshot 2\n", "one\n", "two\n", "three\n"])
        self.assertEqual((saved(replies), next(replies)), ("one\ntwo\n", "three\n"))
        with self.assertRaisesRegex(Stop, "saved nothing: bad"):
            saved(iter(["bad\n"]))
