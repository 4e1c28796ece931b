"""Tests of dev/makers/jobs.py: what the command that takes files and the completions know of a list of jobs. NOT PROVED."""

import unittest

from jobs import Listed, bash, fish, given, zsh

LIST = """\
# two jobs and a script
job all long explained: show all
    first kind
job size: tell the size
job why script: say why
    kind

option first N: stop at this one
option kind a|b: the kind
"""


class Lists(unittest.TestCase):
    def test_jobs_and_their_options(self):
        found = Listed(LIST)
        self.assertEqual([(it.name, it.marks, it.options) for it in found.jobs],
            [("all", ["long", "explained"], ["first", "kind"]), ("size", [], []), ("why", ["script"], ["kind"])])
        self.assertEqual([it.name for it in found.own()], ["all", "size"])
        self.assertEqual({name: it.words for name, it in found.options.items()}, {"first": [], "kind": ["a", "b"]})

    def test_a_list_that_lacks_something_is_refused(self):
        for text in (LIST.replace("option kind", "opinion kind"), LIST.replace("first kind", "first kinds"), LIST.replace("option first N: stop at this one\n", "")):
            with self.assertRaisesRegex(SystemExit, "dev/jobs.txt"):
                Listed(text)

    def test_what_the_command_knows(self):
        self.assertEqual(list(given(Listed(LIST))), ["jobs='all size'", "long='all'", "explained='all'", "valued='--first --kind'", "plain=''"])

    def test_what_the_shells_know(self):
        found = Listed(LIST)
        self.assertIn("        [size]=''", list(bash(found)))
        self.assertIn("        [--kind]='a b'", list(bash(found)))
        self.assertIn("    kind '--kind[the kind]:kind:(a b)'", list(zsh(found)))
        self.assertIn("    first '--first[stop at this one]:number'", list(zsh(found)))
        self.assertIn("complete -c polylab -n '__fish_seen_subcommand_from all why' -l kind -x -a 'a b' -d 'the kind'", list(fish(found)))
