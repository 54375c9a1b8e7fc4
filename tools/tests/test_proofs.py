"""Tests of tools/proof-skeleton and tools/proof-paths, on what rt says, cut short. rt itself is not run."""

import contextlib
import io
import os
import subprocess
import sys
import tempfile
import unittest
from unittest import mock

import sharing
import rt_check

SKELETON = sharing.loaded(os.path.join(sharing.TOOLS, 'proof-skeleton'))
PATHS = sharing.loaded(os.path.join(sharing.TOOLS, 'proof-paths'))

# A function with a loop that has no file, one whose file has a goal that is left, and one that calls the first.
SAID = '''\
fn sums::put: proved
fn sums::total: no proof: expected a measure in ./proofs/total/Invariants.antt
fn sums::subtotal: not proved: `Rattle.sums.proofs.subtotal.Answers.returns`
fn sums::adding::main: no proof: the borrow checker's part in its proof is not made yet: a call of `sums::total`, which has no proof
help: write ./proofs/total/Invariants.antt with these lines, and check again: each hole asks for a measure or an invariant
    abbrev pub invariant-loop-i : goal.invariant-loop-i
    invariant-loop-i l = ?
logic=not-proved
'''

STARTED = '''\
rt: chose --jobs 2 for sums
wrote ./proofs/total/Invariants.antt
wrote ./proofs/total/Answers.antt
wrote ./proofs/adding/main/Answers.antt
started=2
'''

ANSWERS = '''\
use Rattle.sums.proofs.total.Goals as goal

-- src/lib.rt:16:5
pub loop-i-init : goal.loop-i-init
loop-i-init c = ?

-- src/adding.rt:3:1
pub returns : goal.returns
returns c = ?
'''

# What is said of goals without a file, and of a choice that is the author's.
MISSING = '''\
fn sums::total: no proof: expected answers in ./proofs/total/Answers.antt; `search` did not prove `put-requires`, `returns`
help: write ./proofs/total/Answers.antt with these lines, and check again: each hole's goal is what is left to show there
    pub returns : goal.returns
    returns c = ?
note: `invariant-loop-i` of proofs/total/Invariants.antt is yours to choose
  names you can use, by step:
  | l: .log
  | l.initial: .log
note: `put-requires` of proofs/total/Answers.antt must prove: 3 ≤ length c.args.list.now
  names you can use, by step:
  | c: .lifetimes, .requires
  | c.args: .list {.ref_ptr, .now}
  | c.put: .result, .ensures
  | c.type_inv: .list
note: `returns` of proofs/total/Answers.antt must prove: c.put.result ≡ 0
  names you can use, by step:
  | as in `put-requires` above, as far as c.args
  | c.if-list: .true
note: `returns-2` of proofs/total/Answers.antt must prove: c.put.result ≡ 1
  names you can use, by step:
  | as in `returns` above, as far as c.if-list
  | c.if-sum: .false
note: `search` does not look into `sum` of ./specs/Sums.antt
only=1 proved=0
'''

# The same of goals that have holes in a file.
HOLES = '''\
./proofs/total/Answers.antt:6:5: `put-requires` is not admitted: has-holes
./proofs/total/Answers.antt:7:17: goal ? in `put-requires`
    c : goal.In-loop-i
  ⊢ 3
      ≤ length c.args.list.now
  names you can use, by step:
    c: .lifetimes, .requires
    c.args: .list {.ref_ptr, .now}
  the newest fields, with their types:
    c.requires : 32 ≤ length c.args.list.now
./proofs/total/Answers.antt:9:5: `returns` is not admitted: has-holes
./proofs/total/Answers.antt:10:13: goal ?left in `returns`
    c : goal.Then-list
  ⊢ c.put.result ≡ 0
  names you can use, by step:
    as in `put-requires` above, as far as c
    c.if-list: .true
fn sums::total: depends on a hole in `Rattle.sums.proofs.total.Answers.returns`
only=1 holes=2
'''


def rt_that(*runs, asked=None):
    """'rt check' that says these one after another, and ends with these statuses. What it is asked is noted."""
    left = list(runs)

    def run(crate, *words):
        if asked is not None:
            asked.append((crate, *words))
        says, status = left.pop(0)
        return subprocess.CompletedProcess(['rt'], status, says)
    return run


def ran(tool, *words, run=rt_that(), top=rt_check.TOP):
    """Status, what was written, and what was said, of the tool with these words. It runs in this process."""
    out, err = io.StringIO(), io.StringIO()
    status = 0
    with mock.patch.object(sys, 'argv', [tool.__name__, *words]), mock.patch.object(rt_check, 'run', run), \
            mock.patch.object(rt_check, 'TOP', top), contextlib.redirect_stdout(out), contextlib.redirect_stderr(err):
        try:
            tool.main()
        except SystemExit as end:
            status = end.code if isinstance(end.code, int) else 1
            err.write('' if isinstance(end.code, int) else end.code)
    return status, out.getvalue(), err.getvalue()


class Skeleton(unittest.TestCase):
    def test_written(self):
        """Each function that lacks a file is started, all at once, and the lines of places go."""
        with tempfile.TemporaryDirectory() as top:
            paths = [f'crates/sums/proofs/{path}' for path in ('total/Invariants.antt', 'total/Answers.antt', 'adding/main/Answers.antt')]
            for path in paths:
                os.makedirs(os.path.dirname(os.path.join(top, path)), exist_ok=True)
                with open(os.path.join(top, path), 'w', encoding='utf-8') as file:
                    file.write(ANSWERS)
            asked = []
            self.assertEqual(ran(SKELETON, 'sums', run=rt_that((SAID, 1), (STARTED, 0), asked=asked), top=top),
                             (0, ''.join(f'{path}\n' for path in paths), ''))
            self.assertEqual(asked, [('sums',), ('sums', '--start', 'total', '--start', 'adding::main')])
            with open(os.path.join(top, paths[1]), encoding='utf-8') as file:
                self.assertEqual(file.read(), ANSWERS.replace('-- src/lib.rt:16:5\n', '').replace('-- src/adding.rt:3:1\n', ''))

    def test_nothing_to_write(self):
        self.assertEqual(ran(SKELETON, 'sums', run=rt_that(('fn sums::total: proved\nlogic=proved\n', 0))),
                         (0, '', 'sums: every function is proved\n'))

    def test_other_faults_are_shown(self):
        said = "src/lib.rt:3:1: error: expected ';'\n"
        self.assertEqual(ran(SKELETON, 'sums', run=rt_that((said, 1))), (1, '', said + 'sums: no function lacks a proof file'))

    def test_no_start(self):
        for said, status in ('rattle: error: two functions\n', 2), ('started=2\n', 0):
            self.assertEqual(ran(SKELETON, 'sums', run=rt_that((SAID, 1), (said, status))),
                             (1, '', f"{said}sums: 'rt check --start' did not end well, or wrote no file"))
        with tempfile.TemporaryDirectory() as top:
            path = os.path.join(top, 'crates/sums/proofs/total/Answers.antt')
            os.makedirs(os.path.dirname(path))
            with open(path, 'w', encoding='utf-8') as file:
                file.write(ANSWERS)
            said = 'wrote ./proofs/total/Answers.antt\nantt refuses a module\n'
            self.assertEqual(ran(SKELETON, 'sums', run=rt_that((SAID, 1), (said, 1)), top=top),
                             (1, 'crates/sums/proofs/total/Answers.antt\n', f"{said}sums: 'rt check --start' did not end well, or wrote no file"))


class Paths(unittest.TestCase):
    def goals(self, said, *words):
        asked = []
        status, out, err = ran(PATHS, 'sums', 'total', *words, run=rt_that((said, 1), asked=asked))
        self.assertEqual((status, err, asked), (0, '', [('sums', '--only', 'total', '--allow-holes')]))
        return out

    def test_goals(self):
        """All that is said of goals and nothing else, with what another goal has too written out."""
        begin, end = MISSING.index('note: `invariant'), MISSING.index('note: `search`')
        both = '  | c: .lifetimes, .requires\n  | c.args: .list {.ref_ptr, .now}\n'
        self.assertEqual(self.goals(MISSING), MISSING[begin:end]
                         .replace('  | as in `put-requires` above, as far as c.args\n', both)
                         .replace('  | as in `returns` above, as far as c.if-list\n', f'{both}  | c.if-list: .true\n'))

    def test_one_goal(self):
        self.assertEqual(self.goals(MISSING, 'returns-2'), '''\
note: `returns-2` of proofs/total/Answers.antt must prove: c.put.result ≡ 1
  names you can use, by step:
  | c: .lifetimes, .requires
  | c.args: .list {.ref_ptr, .now}
  | c.if-list: .true
  | c.if-sum: .false
''')

    def test_holes(self):
        self.assertEqual(self.goals(HOLES, 'returns'), '''\
./proofs/total/Answers.antt:10:13: goal ?left in `returns`
    c : goal.Then-list
  ⊢ c.put.result ≡ 0
  names you can use, by step:
    c: .lifetimes, .requires
    c.if-list: .true
''')
        self.assertEqual(list(PATHS.blocks(HOLES)), ['put-requires', 'returns'])
        self.assertIn('    c.requires : 32 ≤ length c.args.list.now\n', self.goals(HOLES))

    def test_no_such_goal(self):
        self.assertEqual(ran(PATHS, 'sums', 'total', 'returns-3', run=rt_that((HOLES, 1))),
                         (1, '', 'total: returns-3 is none of its open goals: put-requires, returns'))

    def test_none_is_open(self):
        self.assertEqual(ran(PATHS, 'sums', 'total', run=rt_that(('only=1 holes=0\n', 0))), (0, '', 'total: no goal is open\n'))

    def test_nothing_said(self):
        said = "rattle: error: `sums` has no function `totel`\n"
        self.assertEqual(ran(PATHS, 'sums', 'totel', run=rt_that((said, 2))), (1, '', said + 'sums: rt prints no goal of totel'))


class Words(unittest.TestCase):
    def test_bad_words(self):
        for tool, usage, bad in ((SKELETON, 'tools/proof-skeleton CRATE', ([], ['--all'], ['one', 'two'])),
                                 (PATHS, 'tools/proof-paths CRATE FUNCTION [GOAL]', ([], ['one'], ['one', '-a'], ['a', 'b', 'c', 'd']))):
            for words in bad:
                self.assertEqual(ran(tool, *words), (2, '', f'usage: {usage}\n'), words)

    def test_no_crate(self):
        with self.assertRaisesRegex(SystemExit, 'nosuch: there is no crate of that name'):
            rt_check.run('nosuch')

    def test_no_kit(self):
        with mock.patch.dict(os.environ, {'PATH': ''}), self.assertRaisesRegex(SystemExit, 'rt is not on the path'):
            rt_check.run('pool')

    def test_in_the_crates_folder(self):
        """rt is run where the crate stands, with the words and no input, and all that it writes is taken."""
        with tempfile.TemporaryDirectory() as top:
            os.makedirs(os.path.join(top, 'crates/sums'))
            rt = os.path.join(top, 'rt')
            with open(rt, 'w', encoding='utf-8') as file:
                file.write('#!/bin/sh\npwd\necho "$@"\necho said >&2\ncat\nexit 3\n')
            os.chmod(rt, 0o755)
            with mock.patch.dict(os.environ, {'PATH': f"{top}:{os.environ['PATH']}"}):
                run = rt_check.run('sums', '--only', 'total', top=top)
            self.assertEqual((run.returncode, run.stdout), (3, f'{os.path.realpath(top)}/crates/sums\ncheck --only total\nsaid\n'))


if __name__ == '__main__':
    unittest.main()
