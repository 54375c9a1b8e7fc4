"""Tests of tools/trace: python3 -m unittest discover -s tools/tests"""

import contextlib
import io
import os
import random
import re
import sys
import tempfile
import unittest
from unittest import mock

import sharing

TOP = os.path.dirname(os.path.dirname(os.path.dirname(os.path.abspath(__file__))))
LENGTH = 32
TRACE = sharing.loaded(os.path.join(TOP, 'tools/trace'))
CASES = sharing.loaded(os.path.join(TOP, 'tools/replay-cases'))


class Run:
    """What the command writes, given these words and this input. It runs in this process, which is quick."""

    def __init__(self, *words, data=b''):
        out, err = io.TextIOWrapper(io.BytesIO()), io.StringIO()
        self.returncode = 0
        with mock.patch.multiple(sys, argv=['trace', *words], stdin=io.TextIOWrapper(io.BytesIO(data)), stdout=out), \
                contextlib.redirect_stderr(err):
            try:
                TRACE.main()
            except SystemExit as end:
                # a message is written to standard error, and the status is 1
                self.returncode = end.code if isinstance(end.code, int) else 1
                err.write(str(end.code))
        out.flush()
        self.stdout, self.stderr = out.buffer.getvalue(), err.getvalue()


def trace(*words, data=b''):
    return Run(*words, data=data)


def content(path):
    with open(os.path.join(TOP, path), 'rb') as file:
        return file.read()


def bytes_at(record, at, width):
    return int.from_bytes(record[at:at + width], 'little')


class Encoding(unittest.TestCase):
    def test_example(self):
        self.assertEqual(trace('encode', os.path.join(TOP, 'traces/example.txt')).stdout, content('traces/example.bin'))

    def test_every_field(self):
        line = b'insert 4294967295 handle=7 loaded tagged pins=258 holders=65535 cells=9 frame=18446744073709551614 # all\n'
        record = trace('encode', data=line).stdout
        self.assertEqual(record.hex(), '01110201ffffffff07000000ffff0900feffffffffffffff0000000000000000')

    def test_every_call(self):
        lines = ['create 2', 'insert 1 handle=0', 'force_insert 1 handle=0', 'force_upsert 1 handle=0', 'get 1', 'peek 1',
                 'delete 1', 'resize 3', 'truncate 20', 'remove_frames 7', 'clear', 'notify_dirty 1', 'notify_spilled 1',
                 'write_record 1', 'check_spill 3', 'evict_one', 'set_spill off', 'release 1']
        records = trace('encode', data='\n'.join(lines).encode()).stdout
        self.assertEqual(list(records[::LENGTH]), list(range(len(TRACE.FORMS))))
        self.assertEqual(trace('decode', data=records).stdout.decode().splitlines(), lines)

    def test_options(self):
        for line, option in ((b'peek 1 touch', 1), (b'peek 1', 0), (b'clear dirty', 1), (b'clear', 0), (b'set_spill on', 1),
                             (b'set_spill off', 0)):
            self.assertEqual(trace('encode', data=line).stdout[15], option, line)

    def test_release(self):
        record = trace('encode', data=b'release 10').stdout
        self.assertEqual(record, b'\x11\0\0\0\x0a' + bytes(27))
        self.assertEqual(trace('decode', data=record).stdout, b'release 10\n')

    def test_flags_that_have_no_words(self):
        record = trace('encode', data=b'write_record 5 flags=200').stdout
        self.assertEqual(record[1], 200)
        self.assertEqual(trace('decode', data=record).stdout, b'write_record 5 flags=200\n')

    def test_comments_and_blank_lines(self):
        plain = trace('encode', data=b'get 1').stdout
        self.assertEqual(len(plain), LENGTH)
        self.assertEqual(trace('encode', data=b'\n  # nothing\n\n\tget 1 # one\n').stdout, plain)
        self.assertEqual(trace('encode', data=b'').stdout, b'')


class RoundTrip(unittest.TestCase):
    def assert_same(self, records):
        text = trace('decode', data=records)
        self.assertEqual(text.returncode, 0, text.stderr)
        again = trace('encode', data=text.stdout)
        self.assertEqual(again.returncode, 0, again.stderr)
        self.assertEqual(again.stdout, records)
        return text.stdout.decode()

    def test_sample(self):
        records = content('oracle/sample/records.bin')
        lines = self.assert_same(records).splitlines()
        self.assertEqual(len(lines), len(records) // LENGTH)
        # most of the sample is readable, and what reads `get 5` is a lookup of 5
        calls = [line for line in lines if not line.startswith('raw ')]
        self.assertGreater(len(calls), len(lines) // 2)
        for at, line in enumerate(lines):
            if line.startswith('get '):
                self.assertEqual((records[at * LENGTH], bytes_at(records, at * LENGTH + 4, 4)), (4, int(line.split()[1])))

    def test_any_bytes(self):
        chance = random.Random(1)
        self.assert_same(bytes(chance.randrange(256) for _ in range(200 * LENGTH)))

    def test_nearly_good_records(self):
        chance = random.Random(2)
        records = b''
        for _ in range(2000):
            record = bytearray(LENGTH)
            record[0] = chance.randrange(len(TRACE.FORMS) + 1)
            for _ in range(chance.randrange(4)):
                record[chance.randrange(1, LENGTH)] = chance.choice((1, 2, 31, 32, 255))
            records += bytes(record)
        self.assert_same(records)

    def test_short_last_record(self):
        self.assertIn('raw 0102', self.assert_same(content('traces/example.bin') + b'\x01\x02'))

    def test_bad_records_say_why(self):
        for record, why in ((b'\xff' + bytes(31), 'operation 255'), (bytes(15) + b'\x02' + bytes(16), 'option 2'),
                            (bytes(31) + b'\x01', '24 to 31'), (b'\x04\x01' + bytes(30), 'get 0, and fields')):
            self.assertIn(why, self.assert_same(record))


class Refusals(unittest.TestCase):
    def assert_refused(self, line, why):
        run = trace('encode', data=b'create 2\n' + line + b'\nget 1\n')
        self.assertEqual((run.returncode, run.stdout), (1, b''), line)
        self.assertIn('standard input:2: ', run.stderr)
        self.assertIn(why, run.stderr)

    def test_bad_lines(self):
        for line, why in (
                (b'fetch 1', 'unknown call'), (b'get', 'key is missing'), (b'get x', 'not a number'),
                (b'get -1', 'not a number'), (b'get 1 2', 'unknown word'), (b'get 1 touch', 'unknown word'), (b'release', 'key is missing'),
                (b'release 5 holders=1', 'nothing named'), (b'release 5 touch', 'unknown word'), (b'insert 5', 'handle=NUMBER is missing'),
                (b'insert 5 loaded', 'handle=NUMBER is missing'), (b'write_record 5 handle=1', 'nothing named'),
                (b'set_spill', 'off or on'),
                (b'insert 5 handle=1 handle=1', 'given twice'), (b'insert 5 handle=1 loaded loaded', 'given twice'),
                (b'insert 5 handle=1 loaded flags=1', 'given twice'), (b'insert 5 handle=1 fresh', 'unknown word'),
                (b'insert 5 handle=1 frame=', 'not a number'), (b'get \xff', 'UTF-8'), (b'raw 0', 'hex'),
                (b'raw ' + b'00' * 33, 'hex'), (b'get \xd9\xa3', 'not a number')):
            self.assert_refused(line, why)

    def test_a_short_record_is_the_last(self):
        run = trace('encode', data=b'raw 00\nget 1\n')
        self.assertEqual((run.returncode, run.stdout), (1, b''))
        self.assertIn('standard input:2: nothing may follow', run.stderr)

    def test_numbers_out_of_range(self):
        for words, most in (('get {}', 2 ** 32), ('insert 1 handle={}', 2 ** 32), ('write_record 1 pins={}', 2 ** 16),
                            ('write_record 1 holders={}', 2 ** 16), ('write_record 1 cells={}', 2 ** 8),
                            ('write_record 1 flags={}', 2 ** 8), ('write_record 1 frame={}', 2 ** 64), ('create {}', 2 ** 64)):
            self.assert_refused(words.format(most).encode(), f'is above {most - 1}')
            self.assertEqual(trace('encode', data=words.format(most - 1).encode()).returncode, 0)

    def test_file_is_named(self):
        with tempfile.NamedTemporaryFile(suffix='.txt') as file:
            file.write(b'# a trace\n\ncreate two\n')
            file.flush()
            run = trace('encode', file.name)
            self.assertEqual(run.returncode, 1)
            self.assertIn(f'{file.name}:3: number', run.stderr)

    def test_no_such_file(self):
        self.assertEqual(trace('decode', '/nosuch/file').returncode, 1)
        self.assertEqual(trace('fold').returncode, 2)


class Showing(unittest.TestCase):
    """The replay program is one that writes what the test says."""

    def shown(self, lines, text, *words):
        with tempfile.NamedTemporaryFile('w', suffix='.sh') as program:
            program.write('cat >/dev/null\ncat <<END\n' + '\n'.join(lines) + '\nEND\n')
            program.flush()
            return trace('show', '--program', f'sh {program.name}', *words, data=text)

    def test_example(self):
        run = self.shown(['0 0 0 0 - 0', '- 2 1 0 0', '0 0 0 1 10 0', '- 2 1 1 1 10:100:0:0',
                          '0 0 1 1 10 1 200', '- 2 1 2 2 10:100:0:0 30:300:3:0', '6 10 0 2 10 0', '- 2 1 1 1 10:100:1:0'],
                         b'create 2\ninsert 10 handle=100\nevict_one\ndelete 10')
        rows = [re.split('   *', line) for line in run.stdout.decode().splitlines()[1:]]
        self.assertEqual(rows, [['create 2', 'done', 'empty'], ['insert 10 handle=100', 'done', '10(0)'],
                                ['evict_one', 'done, passed 1, removed 200', '10(0), 30(3)'],
                                ['delete 10', 'dirty, key 10', '10(1)']])

    def test_holders(self):
        run = self.shown(['0 100 0 2 10 0', '- 2 1 2 2 10:100:1:2 30:300:0:0', '0 0 0 2 10 0', '- 2 1 2 2 10:100:1:1 30:300:0:65535',
                          '20 0 0 2 10 0', '- 2 1 2 2 10:100:1:1 30:300:0:65535', '0 0 0 2 10 0', '- 2 1 2 2 10:100:1:0 30:300:0:65535'],
                         b'get 10\nrelease 10\npeek 30\nrelease 10')
        rows = [re.split('   *', line) for line in run.stdout.decode().splitlines()[1:]]
        self.assertEqual(rows, [['get 10', 'found 100', '10(1) held 2, 30(0)'], ['release 10', 'done', '10(1) held 1, 30(0) held 65535'],
                                ['peek 30', 'holder_limit', '10(1) held 1, 30(0) held 65535'],
                                ['release 10', 'done', '10(1), 30(0) held 65535']])

    def test_states_that_are_none(self):
        """Without holders, with a number too many, cut off, or nothing of the kind."""
        for state in ('- 2 1 1 1 10:100:0', '- 2 1 2 2 10:100:0:1 30:300:0', '- 2 1 1 1 10:100:0:1:1', '- 2 1 1 1 10:100:0:', '- 2 1 1',
                      '- 2 1 1 1 10:100:0:x', '0 0 0 0 - 0', 'no cache'):
            run = self.shown(['0 0 0 1 10 0', state], b'get 10')
            self.assertEqual((run.returncode, run.stdout), (1, b''), state)
            self.assertIn(f"'{state}' is no state of a pool", run.stderr)

    def test_readme(self):
        """The README shows the example's answers and rings as tools/replay-cases has them, worked out by hand."""
        example = CASES.STATES[1:1 + len(CASES.EXAMPLE)]
        calls = [TRACE.call_of(TRACE.unpacked(record)) for record, _ in example]
        self.assertEqual([line for line in content('traces/example.txt').decode().splitlines() if line[0] != '#'], calls)
        lines = [line for _, lines in example for line in lines.split('\n')]
        self.assertEqual(lines[::2], [line for _, line in CASES.EXAMPLE])
        readme = content('README.md').decode()
        for shown in (CASES.lines([CASES.EXAMPLE]), self.shown(lines, content('traces/example.txt')).stdout):
            self.assertIn(f'\n```\n{shown.decode()}```\n', readme)

    def test_found_replaced_selected(self):
        run = self.shown(['1 0 0 0 - 0', '- no cache', '0 5 0 0 - 0', '- no cache', '0 6 0 0 - 0', '- no cache',
                          '0 2 0 0 - 2 7 8', '- no cache'],
                         b'evict_one\nget 1\nforce_upsert 1 handle=9\ncheck_spill 2')
        for words in ('not_sound', 'found 5', 'replaced 6', 'selected 7 8', 'no cache'):
            self.assertIn(words, run.stdout.decode())

    def test_short_record(self):
        self.assertIn('bad', self.shown(['0 0 0 0 - 0', '- 2 1 0 0', 'bad'], b'create 2\nraw 01').stdout.decode())

    def test_lines_that_are_missing(self):
        run = self.shown(['0 0 0 0 - 0'], b'create 2')
        self.assertEqual((run.returncode, run.stdout), (1, b''))

    def test_no_program(self):
        run = trace('show', '--program', '/nosuch/replay', data=b'create 2')
        self.assertEqual(run.returncode, 1)
        self.assertIn('/nosuch/replay', run.stderr)


if __name__ == '__main__':
    unittest.main()
