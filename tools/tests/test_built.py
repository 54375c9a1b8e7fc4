"""Tests of tools/program and tools/library, with a rt and a compiler that only note what they are asked for."""

import contextlib
import io
import os
import pathlib
import sys
import tempfile
import unittest
from unittest import mock

import sharing
import built

PROGRAM = sharing.loaded(os.path.join(sharing.TOOLS, 'program'))
LIBRARY = sharing.loaded(os.path.join(sharing.TOOLS, 'library'))

CRATES = '''\
## All

# keys
keys:
# entries
entries: keys
# texts
texts: io
# the program
show: entries
# for C
calls_c staticlib: entries io
'''
# It notes its folder and words, makes what MAKES says, and ends with the status STATUS.
NOTES = '''\
#!/bin/sh
[ "$1" != doc ] || { echo TOP/kit/START-HERE.md; exit; }
echo "${PWD##*/}: ${0##*/} $*" >>TOP/asked
echo what it says
[ -z "$MAKES" ] || echo made >"$MAKES"
exit "${STATUS-0}"
'''


class Built(unittest.TestCase):
    def setUp(self):
        folder = tempfile.TemporaryDirectory()
        self.addCleanup(folder.cleanup)
        self.top = pathlib.Path(folder.name)
        self.write('crates.txt', CRATES)
        for name in 'keys', 'entries', 'texts', 'show', 'calls_c':
            self.write(f'crates/{name}/src/lib.rt', '')
        for path in 'bin/rt', 'kit/bin/rattle':
            self.write(path, NOTES.replace('TOP', str(self.top)))
            (self.top / path).chmod(0o755)

    def write(self, path, text, seconds=1000):
        """A file, written so many seconds after the beginning of time."""
        file = self.top / path
        file.parent.mkdir(parents=True, exist_ok=True)
        file.write_text(text, encoding='utf-8')
        os.utime(file, (seconds, seconds))
        return file

    def ran(self, name, made, verb, machine='x86_64', path='bin', **environment):
        """What is given and said, and what rt and the compiler were asked for."""
        (self.top / 'asked').unlink(missing_ok=True)
        out, err, given = io.StringIO(), io.StringIO(), None
        search = {'PATH': f'{self.top / path}:/usr/bin:/bin', **environment}
        with mock.patch.dict(os.environ, search), mock.patch.object(built.platform, 'machine', lambda: machine), \
                mock.patch.object(sys, 'argv', ['program']), contextlib.redirect_stdout(out), contextlib.redirect_stderr(err):
            try:
                given = built.ready(name, made(name, self.top), verb, self.top)
            except SystemExit as end:
                err.write(end.code)
        asked = (self.top / 'asked').read_text(encoding='utf-8') if (self.top / 'asked').exists() else ''
        return given, err.getvalue(), asked.splitlines()

    def show(self, **more):
        return self.ran('show', built.program, 'run', **more)

    def calls(self, **more):
        return self.ran('calls_c', built.library, 'lib', **more)

    SAYS = '{}: proving and building it, with all that it stands on; this takes some minutes, once\n'

    def test_made_once(self):
        """It is built where it is not there, and then not again; of the crates, only those below it count."""
        program = self.top / 'crates/show/out/show'
        self.assertEqual(self.show(MAKES='out/show'), (program, self.SAYS.format('show'), ['show: rt run']))
        self.assertEqual(self.show(), (program, '', []))
        self.write('crates/texts/src/lib.rt', 'new', seconds=2 * 10**9)
        self.write('crates/keys/must-fail/new.edit', 'new', seconds=2 * 10**9)
        self.assertEqual(self.show(), (program, '', []))

    def test_older_than_a_file(self):
        for path in 'crates/keys/specs/Keys.antt', 'crates/show/src/main.rt', 'crates.txt':
            program = self.write('crates/show/out/show', 'made', seconds=2000)
            file = self.write(path, (self.top / path).read_text(encoding='utf-8') if (self.top / path).exists() else '', seconds=3000)
            with self.subTest(path):
                # rt leaves the program as it is where nothing has changed
                self.assertEqual(self.show(), (program, self.SAYS.format('show'), ['show: rt run']))
                self.assertEqual(self.show(), (program, '', []))
            os.utime(file, (1000, 1000))

    def test_not_made(self):
        why = "what it says\nprogram: 'rt run' in crates/show did not make it"
        for more in {'STATUS': '1', 'MAKES': 'out/show'}, {'MAKES': ''}:
            (self.top / 'crates/show/out/show').unlink(missing_ok=True)
            self.assertEqual(self.show(**more), (None, self.SAYS.format('show') + why, ['show: rt run']))

    def test_other_machine(self):
        self.assertEqual(self.show(machine='aarch64'),
                         (None, 'program: the Rattle kit proves and builds for x86-64 alone, and this machine is aarch64', []))

    def test_no_kit_or_crate(self):
        self.assertEqual(self.show(path='nosuch'), (None, "program: the Rattle kit's command rt is not on the path", []))
        self.assertEqual(self.ran('nosuch', built.program, 'run')[:2], (None, 'program: crates.txt has no crate nosuch'))

    def left_by_ci(self):
        for name in 'keys', 'entries':
            folder = self.write(f'crates/{name}/out/rlib/{name}.rlib/format', 'format').parent
            # the file may be an older run's, which the folder isn't
            os.utime(folder, (2000, 2000))

    def test_over_what_ci_left(self):
        """Where rt ci has proved the libraries below, only the crate itself is proved, over them."""
        self.left_by_ci()
        library, top = self.top / 'crates/calls_c/out/libcalls_c.a', self.top
        said = self.calls(MAKES='out/libcalls_c.a')
        self.assertEqual(said[:2], (library, ''))
        (asked,) = said[2]
        self.assertTrue(asked.startswith('calls_c: rattle build --crate-name calls_c src/lib.rt --crate-type staticlib --links calls_c= '))
        for words in (f'--extern std={top}/kit/rlibs/std.rlib --extern entries={top}/crates/entries/out/rlib/entries.rlib',
                      f'--extern io={top}/kit/rlibs/io.rlib -L dependency={top}/kit/rlibs -L dependency={top}/crates/entries/out/rlib',
                      f'-L dependency={top}/crates/keys/out/rlib ', '-o out/libcalls_c.a'):
            self.assertIn(words, asked)
        self.assertEqual(self.calls(), (library, '', []))

    def test_by_rt_lib(self):
        """Where a library below is older than a file of it, or rt's other commands made one, or the crate isn't proved over them."""
        library = self.top / 'crates/calls_c/out/libcalls_c.a'
        by_rt = (library, self.SAYS.format('calls_c'), ['calls_c: rt lib'])
        self.left_by_ci()
        self.write('crates/keys/proofs/Laws.antt', '', seconds=3000)
        self.assertEqual(self.calls(MAKES='out/libcalls_c.a'), by_rt)
        library.unlink()
        self.write('crates/keys/proofs/Laws.antt', '')
        self.write('crates/entries/out/rlib/stamp', '')
        self.assertEqual(self.calls(MAKES='out/libcalls_c.a'), by_rt)
        library.unlink()
        (self.top / 'crates/entries/out/rlib/stamp').unlink()
        self.write('kit/bin/rattle', '#!/bin/sh\nexit 1\n')
        self.assertEqual(self.calls(MAKES='out/libcalls_c.a'), by_rt)


class Words(unittest.TestCase):
    def test_bad_words(self):
        for tool, usage, bad in (PROGRAM, 'tools/program NAME', ([], ['--all'], ['a', 'b'])), (LIBRARY, 'tools/library [NAME]', (['-a'], ['a', 'b'])):
            for words in bad:
                err = io.StringIO()
                with mock.patch.object(sys, 'argv', ['tool', *words]), contextlib.redirect_stderr(err), self.assertRaises(SystemExit) as end:
                    tool.main()
                self.assertEqual((end.exception.code, err.getvalue()), (2, f'usage: {usage}\n'), words)


if __name__ == '__main__':
    unittest.main()
