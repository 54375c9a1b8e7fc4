"""A place of the code that is far off has a name in the proof files: nobody has to count calls or steps to find it.

A fact is cited by its step, `c.number_at-magic.ensures`, and a step has the name of the call, and of the local that gets what it returns.
Steps with the same name have numbers, in the order of the code: `c.number_at-2`. What is far down that order is to get a local of its own,
and so a name. The check also makes names for itself, which say nothing and may change; and a proof that walks the code by hand,
Proof.antt, has only such.
"""

import glob
import os
import re
import unittest

import sharing

CRATES = os.path.join(os.path.dirname(sharing.TOOLS), 'crates')

# The number up to which a reader counts.
FAR = 5
CITED = re.compile(r"(?<![\w.'-])[cl]((?:\.[\w'-]+)+)")
# An arm of a match on numbers is called after its number, and is not counted: `c.in-17`.
COUNTED = re.compile(r'(?!in-\d)\S*?-(\d+)')
# The check's own, which it asks not to cite.
OWN = re.compile(r'blocks|before|\S*-raw|\w+_known(?:-\S+)?-\d+|\S+-arg-\d+')


def faults(text):
    """What a proof file cites that a reader can't find by its name, each once."""
    code = re.sub(r'^--.*\n|(?<=\s)--[^\n]*', '', text, flags=re.M)
    for step in dict.fromkeys(step for path in CITED.findall(code) for step in path.split('.')[1:]):
        counted = COUNTED.fullmatch(step)
        if OWN.fullmatch(step):
            yield f'{step} is a name that the check makes for itself'
        elif counted and int(counted[1]) >= FAR:
            yield f'{step} is counted: what it returns is to have a name in the code'


class FarPlaces(unittest.TestCase):
    def test_have_names(self):
        paths = sorted(glob.glob(os.path.join(glob.escape(CRATES), '*', 'proofs', '*', '**', '*.antt'), recursive=True))
        self.assertGreater(len(paths), 100)
        for path in paths:
            with self.subTest(os.path.relpath(path, CRATES)), open(path, encoding='utf-8') as file:
                self.assertIn(os.path.basename(path), ('Invariants.antt', 'Answers.antt'))
                self.assertEqual(list(faults(file.read())), [])


class Faults(unittest.TestCase):
    def said(self, answer):
        return list(faults(f'-- c.number_at-9 is only spoken of\npub returns : goal.returns\nreturns c = {answer}\n'))

    def test_names(self):
        for answer in ('law c.requires (c.number_at-magic.ensures) c.number_at-4.result -- c.blocks', 'c.in-17.is', 'abc.number_at-9',
                       'law (l.initial.left) 5'):
            self.assertEqual(self.said(answer), [])

    def test_counted(self):
        self.assertEqual(self.said('law (c.number_at-5.ensures) c.number_at-5.result c.if-not-is_magic-12.true'),
                         [f'{step} is counted: what it returns is to have a name in the code' for step in ('number_at-5', 'if-not-is_magic-12')])

    def test_own_names(self):
        for step in 'blocks', 'before', 'true-raw', 'shared_slice_known-1', 'struct_known-in-loop-s-1', 'same-arg-1':
            self.assertEqual(self.said(f'law c.{step}.given'), [f'{step} is a name that the check makes for itself'])


if __name__ == '__main__':
    unittest.main()
