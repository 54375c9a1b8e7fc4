"""Tests of tools/wal-logs: its reader, its writer, its logs, and that it finds faults that are planted in a reader."""

import contextlib
import functools
import io
import os
import re
import struct
import sys
import tempfile
import types
import unittest
from unittest import mock

import sharing

TOP = os.path.dirname(os.path.dirname(os.path.dirname(os.path.abspath(__file__))))
TOOL_PATH = os.path.join(TOP, 'tools/wal-logs')

TOOL = sharing.loaded(TOOL_PATH)
ORDERS = (TOOL.LITTLE, TOOL.BIG)


# Made once: that takes a second or two.
made_logs = functools.cache(TOOL.made_logs)


def pages_of(log):
    return [frame.page for frame in TOOL.read(log).frames]


class Reader(unittest.TestCase):
    def test_sums(self):
        # by hand: 1, then 2 + 1 = 3; then 1 + 3 + 3 = 7, and 3 + 4 + 7 = 14
        self.assertEqual(TOOL.sums_over(struct.pack('>4I', 1, 2, 3, 4), '>'), (7, 14))
        self.assertEqual(TOOL.sums_over(struct.pack('<4I', 1, 2, 3, 4), '<'), (7, 14))
        self.assertEqual(TOOL.sums_over(struct.pack('>2I', 3, 4), '>', (1, 3)), (7, 14))
        self.assertEqual(TOOL.sums_over(struct.pack('>2I', 2**32 - 1, 2), '>', (1, 1)), (1, 4))

    def test_answer(self):
        log = TOOL.Writer('>').frame(1).frame(2, 2).frame(3).log
        first, second = struct.unpack('>2I', log[-512 - 8:-512])
        self.assertEqual(TOOL.written_for(TOOL.read(log), 'log'), (
            b'page size: 512 bytes\nframe 1: page 1, commit size 0 pages\nframe 2: page 2, commit size 2 pages\n'
            b'frame 3: page 3, commit size 0 pages\nframes: 3\ncommits: 1\nlast commit: frame 2, 2 pages\n'
            b'end offset: 1640 bytes\nend sums: %d %d\n' % (first, second), b''))

    def test_answer_without_frames(self):
        log = TOOL.Writer('<').log
        self.assertEqual(TOOL.written_for(TOOL.read(log), 'log'), (
            b'page size: 512 bytes\nframes: 0\ncommits: 0\nlast commit: none\nend offset: 32 bytes\nend sums: %d %d\n'
            % struct.unpack('>2I', log[24:]), b''))

    def test_faults(self):
        right = bytes(TOOL.Writer('<').log)
        for log, fault in ((right[:31], 'length'), (bytes(32), 'magic'), (TOOL.Writer('<', version=3007001).log, 'version'),
                           (TOOL.Writer('>', page_size=256).log, 'page size'), (right[:31] + b'!', 'checksum')):
            message = f'wal_scan: a log: bad header: {fault}\n'
            self.assertEqual(TOOL.written_for(TOOL.read(log), 'a log'), (b'', message.encode()))

    def test_what_ends_a_scan(self):
        for order in ORDERS:
            for _, log in TOOL.wrong_logs(order):
                self.assertLess(len(TOOL.read(log).frames), 2)
            for _, log in TOOL.cut_logs(order):
                self.assertEqual(pages_of(log), [1])
            for _, log in TOOL.right_logs(order):
                reading = TOOL.read(log)
                self.assertEqual(TOOL.start_of(len(reading.frames), reading.page_size), len(log))


class Writer(unittest.TestCase):
    def test_other_order(self):
        log = TOOL.Writer('<', 1024, sequence=3).frame(1).frame(2, 2).log + b'and what follows'
        turned = TOOL.in_other_order(log)
        self.assertEqual((TOOL.read(log).order, TOOL.read(turned).order), ('<', '>'))
        self.assertEqual(pages_of(turned), [1, 2])
        self.assertEqual(TOOL.in_other_order(turned), log)


class Logs(unittest.TestCase):
    """The logs hold what they are made for."""

    @classmethod
    def setUpClass(cls):
        cls.logs = made_logs()
        cls.readings = {pair[0].name: TOOL.read(pair[0].log) for pair in cls.logs}

    def test_page_sizes_and_commits(self):
        for size in (512, 1024, 4096, 65536):
            reading = self.readings[f'commits {size}']
            commits = [frame.commit_size for frame in reading.frames if frame.commit_size]
            self.assertEqual(reading.page_size, size)
            self.assertGreater(len(commits), 2)
            self.assertNotEqual(commits, sorted(commits), 'no commit has fewer pages than the one before')

    def test_old_frames_follow(self):
        for made, _ in self.logs:
            if made.name.startswith('reset'):
                reading = self.readings[made.name]
                end = TOOL.start_of(len(reading.frames), reading.page_size)
                old = made.log[end:end + 24]
                self.assertGreater(len(reading.frames), 1)
                self.assertEqual(len(old), 24)
                self.assertNotEqual(struct.unpack('>2I', old[8:16]), reading.salts)

    def test_large_uncommitted_padded_empty(self):
        self.assertGreater(len(self.readings['large 512'].frames), 3000)
        uncommitted = self.readings['uncommitted 1024'].frames
        self.assertLess(TOOL.last_commit(uncommitted)[0], len(uncommitted))
        padded = self.readings['padded 512'].frames
        self.assertEqual(padded[-1]._replace(sums=()), padded[-2]._replace(sums=()))
        self.assertEqual([made.log for made, _ in self.logs if made.name.startswith('empty')], [b''])

    def test_both_orders(self):
        for made, turned in self.logs:
            if made.log:
                self.assertNotEqual(made.log[:4], turned.log[:4])
                self.assertEqual(pages_of(made.log), pages_of(turned.log))


# Of each fault in a reader: what it is, and the text that is replaced.
SALTS, SUMS = 'tuple(frame_salts) != salts', '(first, second) != sums'
CHAIN = 'sums_over(frame[:8] + image, order, sums)'
ORDER = '{0x377f0682: LITTLE, 0x377f0683: BIG}'
CUT = 'if len(frame) < length:'
VERSION_TEST = "    if version != VERSION:\n        return Reading('version')\n"
SIZE_TEST = "    if page_size not in GOOD_PAGE_SIZES:\n        return Reading('page size')\n"
FAULTS = {
    'salts not compared': (f'{SALTS} or ', ''),
    'only salt-1 compared': (SALTS, 'frame_salts[0] != salts[0]'),
    'only salt-2 compared': (SALTS, 'frame_salts[1] != salts[1]'),
    'sums not compared': (f' or {SUMS}', ''),
    'only the first sum compared': (SUMS, 'first != sums[0]'),
    'only the second sum compared': (SUMS, 'second != sums[1]'),
    'sums not continued, but begun at zero': (CHAIN, 'sums_over(frame[:8] + image, order)'),
    'sums not continued, but begun at the header': (
        CHAIN, "sums_over(frame[:8] + image, order, struct.unpack('>2I', log[24:32]))"),
    'whole frame header summed': ('frame[:8] + image', 'frame[:16] + image'),
    'other word order': (ORDER, '{0x377f0682: BIG, 0x377f0683: LITTLE}'),
    'always the same word order': (ORDER, '{0x377f0682: LITTLE, 0x377f0683: LITTLE}'),
    'cut frame counted': (CUT, f"{CUT}\n            frames.append(Frame(1, 1, sums, b''))"),
    'cut page filled with zeros': (CUT, f'frame += bytes(length - len(frame)) if len(frame) >= 24 else b""\n        {CUT}'),
    'cut page filled with the one before': (
        CUT, f'frame += log[start - length:start][len(frame):] if frames and len(frame) >= 24 else b""\n        {CUT}'),
    'frames after a bad one': (f'{SUMS}:\n            break', f'{SUMS}:\n            continue'),
    'page 0 ends the scan': (f'if {SALTS}', f'if not page or {SALTS}'),
    "the header's sums not compared": ('if header_sums != sums_over(log[:24], order):', 'if False:'),
    'version not compared': (VERSION_TEST, ''),
    'version compared by its low half': ('if version != VERSION:', 'if version % 2**16 != VERSION % 2**16:'),
    'page size told before the version': (VERSION_TEST + SIZE_TEST, SIZE_TEST + VERSION_TEST),
    'page size 256 accepted': ('[512, 1024, 2048', '[256, 512, 1024, 2048'),
    'page size 1000 accepted': ('[512, 1024, 2048', '[512, 1000, 1024, 2048'),
    'page size 131072 accepted': ('32768, 65536]', '32768, 65536, 131072]'),
    'page size 65536 refused': ('32768, 65536]', '32768]'),
    'only a MiB read': ('    if len(log) < HEADER_LENGTH:', '    log = log[:2**20]\n    if len(log) < HEADER_LENGTH:'),
    'first commit told, not the last': ('commits[-1] if commits', 'commits[0] if commits'),
    'last frame told as the last commit': ('    return commits[-1] if commits', '    return (len(frames), 1) if commits'),
    'frame numbers of 8 bits': ("f'frame {at}: page", "f'frame {at % 256}: page"),
    'page numbers of 31 bits': ('page {frame.page}', 'page {frame.page % 2**31}'),
    'sums of zero without a frame': ('if frames else reading.header_sums', 'if frames else (0, 0)'),
    'no name in the message': ('wal_scan: {file}: bad header', 'wal_scan: bad header'),
    'no end of line': ("'\\n'.join(lines).encode() + b'\\n'", "'\\n'.join(lines).encode()"),
}


def faulty_source(fault):
    return sharing.source_with(fault, FAULTS, TOOL_PATH)


def answering(fault=None):
    """What stands for a program that runs: the tool's own reader, with the fault if there is one."""
    reader = types.ModuleType('reader')
    reader.__file__ = TOOL_PATH
    exec(compile(faulty_source(fault), TOOL_PATH, 'exec'), reader.__dict__)

    def run(folder, file):
        try:
            with open(os.path.join(folder, file), 'rb') as opened:
                log = opened.read()
        except OSError as error:
            return b'', f'wal_scan: {file}: {error.strerror}\n'.encode()
        return reader.written_for(reader.read(log), file)
    return run


class Comparison(unittest.TestCase):
    @classmethod
    def setUpClass(cls):
        cls.cases = list(TOOL.all_cases(made_logs(), TOOL.comparing.Choice(False, 1)))
        # For the time, SQLite isn't asked here, and what finds most faults comes first: a large log, and the short ones.
        quick = [case._replace(database=None, log=bytes(case.log)) for case in cls.cases]
        cls.quick_cases = sorted(quick, key=lambda case: (case.name != 'large 512', len(case.log)))

    def test_right_program(self):
        run = answering()
        counts = TOOL.compared(self.cases, run) + TOOL.compared_without_a_log(run)
        self.assertGreater(sum(number for _, number, _ in counts), 600)
        self.assertGreater(sum(by_sqlite for _, _, by_sqlite in counts), 500)

    def test_planted_faults(self):
        with mock.patch.object(TOOL, 'read', functools.lru_cache(None)(TOOL.read)):
            for fault in FAULTS:
                with self.subTest(fault), self.assertRaisesRegex(TOOL.Difference, 'the program differs from the reader'):
                    TOOL.compared(self.quick_cases, answering(fault))

    def test_silent_about_a_missing_log(self):
        for wrong in ((b'', b''), (b'frames: 0\n', b'missing\n')):
            with self.assertRaises(TOOL.Difference):
                TOOL.compared_without_a_log(lambda folder, file, wrong=wrong: wrong)

    def test_sqlite_has_a_say(self):
        # A reader that takes other frames than SQLite differs from it, even if the program reads the same.
        case = next(case for case in self.cases if case.name == 'commits 512')
        reading = TOOL.read(case.log)
        with mock.patch.object(TOOL, 'read', lambda log: reading._replace(frames=reading.frames[:-1])), \
                self.assertRaisesRegex(TOOL.Difference, 'SQLite differs from the reader'):
            TOOL.compared([case], answering())
        with self.assertRaisesRegex(TOOL.Difference, 'the SQLite that wrote it differs'):
            TOOL.compared([case._replace(said=(1, 1))], answering())
        other_page = reading.frames[-1]._replace(image=bytes(512))
        with mock.patch.object(TOOL, 'read', lambda log: reading._replace(frames=(*reading.frames[:-1], other_page))), \
                self.assertRaisesRegex(TOOL.Difference, 'SQLite differs from the reader') as caught:
            TOOL.compared([case], answering())
        self.assertEqual(caught.exception.expected, caught.exception.given)


class Showing(unittest.TestCase):
    def shown(self, *difference):
        err = io.StringIO()
        with contextlib.redirect_stderr(err):
            TOOL.show(TOOL.Difference(TOOL.Case('a kind', 'a log', None), 'why', *difference))
        return err.getvalue()

    def test_end_of_line(self):
        self.assertEqual(self.shown((b'one\ntwo\n', b''), (b'one\ntwo', b'')), (
            'wal-logs: a kind: a log: why\nexpected on standard output, from line 2 on:\n    two\n'
            'given on standard output, from line 2 on:\n    two (no end of line)\n'))

    def test_long_answer(self):
        shown = self.shown((b'same\n' + b'line\n' * 100, b''), (b'same\n', b'a message\n'))
        self.assertIn('    (and 88 lines more)\ngiven on standard output: nothing from line 2 on\n', shown)
        self.assertIn('given on standard error, from line 1 on:\n    a message\n', shown)


class Command(sharing.Words, unittest.TestCase):
    path, program = TOOL_PATH, 'wal_scan'

    def test_program_with_a_fault(self):
        with tempfile.TemporaryDirectory() as folder:
            program = os.path.join(folder, 'program')
            with open(program, 'w', encoding='utf-8') as file:
                answer = 'out, err = written_for(read(open(sys.argv[1], "rb").read()), sys.argv[1])'
                file.write(faulty_source('other word order').split("if __name__ == '__main__'", maxsplit=1)[0])
                file.write(f'\n{answer}\nsys.stdout.buffer.write(out)\nsys.stderr.buffer.write(err)\n')
            os.chmod(program, 0o755)
            run = self.command(program)
        self.assertEqual((run.returncode, run.stdout), (1, ''))
        self.assertIn('wal-logs: whole logs: commits 512: the program differs from the reader', run.stderr)
        self.assertIn('expected on standard output, from line 1 on:\n    page size: 512 bytes\n', run.stderr)
        self.assertIn('given on standard error, from line 1 on:\n    wal_scan: 0.log: bad header: checksum\n', run.stderr)
        kept = re.search(r'the log is kept: (\S+)', run.stderr)[1]
        with open(kept, 'rb') as log:
            self.assertEqual(TOOL.read(log.read()).page_size, 512)
        os.remove(kept)

    def test_right_program(self):
        few = [TOOL.Case('a kind', 'a log', TOOL.Writer('<').frame(1, 1).log)] * 3
        out = io.StringIO()
        with mock.patch.multiple(TOOL, all_cases=lambda logs, choice: few, made_logs=list), \
                mock.patch.object(TOOL.comparing, 'asked_for', lambda name: (None, answering())), \
                contextlib.redirect_stdout(out):
            TOOL.main()
        self.assertEqual(out.getvalue().splitlines()[1].split(), ['a', 'kind', '3', '0'])
        self.assertEqual(out.getvalue().splitlines()[-1], '6 logs compared, no difference')


if __name__ == '__main__':
    unittest.main()
