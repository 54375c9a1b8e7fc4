"""What the tests of the tools share: the tool as a module, faults to plant, and the tool's words."""

import importlib.machinery
import os
import subprocess
import sys

TOOLS = os.path.dirname(os.path.dirname(os.path.abspath(__file__)))

sys.dont_write_bytecode = True
# The tools import what they share from the folder that they stand in.
sys.path.insert(0, TOOLS)


def loaded(path):
    # Python has modules of its own, which may have the tool's name.
    return importlib.machinery.SourceFileLoader(os.path.basename(path).replace('-', '_') + '_tool', path).load_module()


def source_with(fault, faults, path):
    """The tool's source, with one of the faults if there is one. A fault is the words that stand there, and other words."""
    with open(path, encoding='utf-8') as file:
        source = file.read()
    if fault:
        old, new = faults[fault]
        if source.count(old) != 1:
            raise ValueError(f'{fault}: {old!r} does not stand once in the tool')
        source = source.replace(old, new)
    return source


class Words:
    """Tests of a command, for a test case that says its path, and the program's name that it runs."""
    path, program = '', ''

    def command(self, *words):
        # A program that a test makes of the tool's source stands elsewhere.
        environment = {**os.environ, 'PYTHONPATH': TOOLS}
        return subprocess.run([self.path, *words], capture_output=True, text=True, check=False, env=environment)

    def test_no_program(self):
        run = self.command(f'/nosuch/{self.program}')
        self.assertEqual((run.returncode, run.stdout), (1, ''))
        self.assertIn(f"/nosuch/{self.program} is not there; 'rt run' in crates/{self.program} proves and builds", run.stderr)

    def test_bad_words(self):
        for words in (['--some'], ['--seed', 'x'], ['one', 'two']):
            run = self.command(*words)
            self.assertEqual((run.returncode, run.stdout), (2, ''), words)
            self.assertIn(f'usage: tools/{os.path.basename(self.path)}', run.stderr)
