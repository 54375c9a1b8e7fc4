"""What has operations or answers has those of docs/calls.tsv and docs/answers.tsv: the same numbers and names, in the same order.

What is made from the tables by tools/calls is compared with what it would make now. Everything else is read here, each place by a
function of its own, and compared with the tables. That each of them finds a difference is tested too, with faults in its text.
"""

import os
import re
import tempfile
import unittest
from unittest import mock

import sharing

TOOL = sharing.loaded(os.path.join(sharing.TOOLS, 'calls'))
TABLE = TOOL.calls_table
TRACE = sharing.loaded(os.path.join(sharing.TOOLS, 'trace'))
CASES = sharing.loaded(os.path.join(sharing.TOOLS, 'replay-cases'))

OPERATIONS, ANSWERS = TABLE.operations(), TABLE.answers()
CODE = {answer.name: answer.number for answer in ANSWERS}


# ── what the places have to say ──────────────────────────────────────────────

# methods of the Rust crate have the original's names; it has none for a release, and there the operation's is enough
METHOD = {'release_page': 'release'}

# dispatch calls what stands on sound memory, and that is where eviction::evict_one is the single eviction
BELOW_THE_PUBLIC_CALL = {'evict_one': 'evict'}

# the three insertions are one function there, and a mode; `page_of` takes what they are given from the record
INSERTION = {'Plain': 'insert', 'Forced': 'force_insert_page', 'Upsert': 'force_upsert_page'}
INSERTED = ['key', 'handle', 'page']


def takes_list(operation):
    return CODE['short_list'] in operation.answers


REQUESTS = [(operation.request, list(operation.fields), takes_list(operation)) for operation in OPERATIONS]
ARMS = [(operation.number, BELOW_THE_PUBLIC_CALL.get(operation.function, operation.function), list(operation.fields),
         takes_list(operation)) for operation in OPERATIONS]
CAMEL_OPERATIONS = [operation.camel() for operation in OPERATIONS]
CAMEL_ANSWERS = [(answer.camel(), answer.number) for answer in ANSWERS]
EXPLAINED = [(f'**{answer.number}**', f'`{answer.name}`', answer.when, answer.value, answer.leaves) for answer in ANSWERS]
# those that have no value are one case
VALUES = [(answer.camel(), 'v' if answer.name == 'done' else 'k.0') for answer in ANSWERS if answer.name == 'done' or answer.gives_key] + [('_', '0')]


# ── what they say ────────────────────────────────────────────────────────────

def block(text, start, end):
    """What stands between two texts, the first of which comes once."""
    if text.count(start) != 1:
        raise ValueError(f'{start!r} does not stand once')
    return text.split(start)[1].split(end)[0]


def requests(text):
    """Of Request.antt: each constructor, the fields that it is given, and whether the list's length is."""
    entries = [entry.strip() for entry in block(text, 'operations r places =\n', '[]').split('∷')]
    found = []
    for entry in entries[:-1]:
        call = re.fullmatch(r'call \((.*)\)', entry)
        call = call[1] if call else entry
        constructor = re.match('[a-z_ ]*[a-z]', call.removesuffix(' places').split(' r.')[0])[0]
        found.append((constructor, re.findall(r' r\.([a-z]+)', call), call.endswith(' places')))
    return found


def arms(text):
    """Of dispatch: each operation, the function that is called, the fields that it is given, and whether a list is."""
    found = []
    for number, function, given in re.findall(r'^        ([0-9]+) => (?:\{\n[^{}]*;\n *)?(\w+)\(([^;{}]*?)\)(?:,|\n        \})$', text, re.M):
        mode = re.search(r'page_of\(asked, InsertMode::(\w+)\)', given)
        given = [name for name in re.split(r'[\s,]+', given) if name]
        fields = INSERTED if mode else [name for name in given if name in TABLE.FIELDS]
        found.append((int(number), INSERTION[mode[1]] if mode else function, fields, 'list' in given))
    return found


def refused(text):
    """Of dispatch: the numbers that are no operations."""
    return re.findall(r'([0-9]+)\.\.=([0-9]+) => Answered::plain\(Answer::BadReplay', text)


def equations(name, text):
    """Of Answer.antt: each case of a function, and what it is."""
    return re.findall(rf'^{name} \(?(\w+)(?: \w+\))? = (.+)$', text, re.M)


def code_equations(text):
    return [(case, int(code)) for case, code in equations('code_of', text)]


def public_calls(text):
    return set(re.findall(r'^pub use \w+::(\w+);$', text, re.M))


def oracle_operations(text):
    return re.findall(r'\w+', block(text, 'pub enum Operation {', '}'))


def all_of_the_oracle(text):
    return re.findall(r'Operation::(\w+),', block(text, 'pub const ALL: [', '];'))


def oracle_words(text):
    return re.findall(r'Operation::(\w+) => "(.*)",', text)


def oracle_codes(text):
    return re.findall(r'pub const (\w+): (?:u8|usize) = ([0-9]+);', block(text, 'pub mod code {', '}'))


def crate_operations(text):
    """Of the Rust crate: each operation, its number, and the method that its documentation names."""
    operations = block(text, 'Operation: u8 {', '\n    }\n')
    return [(name, int(number), method)
            for method, name, number in re.findall(r'/// \[`crate::PageCache::(\w+)`\]\n +(\w+) = ([0-9]+),', operations)]


def crate_codes(text):
    return [(name, int(number)) for name, number in re.findall(r'(\w+) = ([0-9]+),', block(text, 'Code: u32 {', '\n    }\n'))]


def crate_errors(text):
    """Of the Rust crate: each error, and whether it carries a key."""
    errors = re.sub(' *///.*\n', '', block(text, 'pub enum CacheError {\n', '\n}\n'))
    return [(name, bool(key)) for name, key in re.findall(r'(\w+)( \{\s*pgno: usize,\s*\})?,', errors)]


def what_is_odd_in_the_long_run(text):
    """Of DIFFERENCES.md: operations that are none, and codes that an operation can't be answered with."""
    answers = {operation.name: operation.answers for operation in OPERATIONS}
    rows = re.findall(r'^\| ([^|]*) \| ([^|]*) \|$', block(text, '| operation | agreed answers, code: times |\n', '\n\n'), re.M)
    if [name for name in answers if name in dict(rows)] + ['none of these'] != [name for name, _ in rows]:
        return [name for name, _ in rows]
    # no replay brings about a short list or wrong lengths
    never = {CODE['short_list'], CODE['bad_lengths']}
    return [(name, codes) for name, codes in rows[:-1]
            if not {int(code) for code in re.findall('([0-9]+):', codes)} <= set(answers[name]) - never]


def codes_explained(text):
    """Of RULES.md: all that its table of codes says, but which definitions say it."""
    rows = block(text, '| code | name | given when | value | what it leaves | said by |\n', '\n\n').splitlines()[1:]
    return [tuple(row.strip('| ').split(' | ')[:-1]) for row in rows]


REQUEST, DISPATCH = 'crates/replay_record/specs/Request.antt', 'crates/dispatch/src/operations.rt'
ANSWER, CALLS = 'crates/answer/specs/Answer.antt', 'crates/page_cache/src/lib.rt'
ORACLE, ORACLE_CODES, ORACLE_WORDS = 'oracle/src/record.rs', 'oracle/src/answer.rs', 'oracle/src/compare/words.rs'
CRATE, CRATE_ERRORS = 'host/rust/src/calls.rs', 'host/rust/src/answer.rs'
DIFFERENCES, RULES = 'docs/DIFFERENCES.md', 'docs/RULES.md'

# Of each place: its file, what reads it, what that has to find; and faults, each a text that stands there once and another one.
PLACES = {
    'requests': (REQUEST, requests, REQUESTS, [
        ('    ∷ call (evict_one places)\n', ''),
        ('call (peek r.key.0 r.option)\n    ∷ call (delete r.key.0 places)', 'call (delete r.key.0 places)\n    ∷ call (peek r.key.0 r.option)'),
        ('call (truncate r.number places)', 'call (remove_frames r.number places)'),
        ('call (switch r.option)', 'call (switch r.key)'),
        ('call (clear r.option places)', 'call (clear r.option)'),
    ]),
    'arms of dispatch': (DISPATCH, arms, ARMS, [
        ('        5 => {', '        6 => {'),
        ('            notify_page_spilled(', '            notify_page_dirty('),
        ('InsertMode::Forced', 'InsertMode::Upsert'),
        ('list, head, option),', 'list, head),'),
        ('        15 => evict(memory, list, head),\n', ''),
    ]),
    'what dispatch refuses': (DISPATCH, refused, [(str(len(OPERATIONS)), '255')], [
        (f'{len(OPERATIONS)}..=255', f'{len(OPERATIONS) + 1}..=255'),
    ]),
    'codes of answers': (ANSWER, code_equations, CAMEL_ANSWERS, [
        ('code_of Full = 8\n', 'code_of Full = 9\n'),
        ('code_of (Dirty k) = 6', 'code_of (Pinned k) = 6'),
        ('code_of NoneSelected = 19\n', ''),
    ]),
    'values of answers': (ANSWER, lambda text: equations('value_of', text), VALUES, [
        ('value_of (Pinned k) = k.0', 'value_of (Pinned k) = 0'),
        ('value_of _ = 0', 'value_of _ = 1'),
    ]),
    'operations of the oracle': (ORACLE, oracle_operations, CAMEL_OPERATIONS, [
        ('    Get,\n    Peek,\n', '    Peek,\n    Get,\n'),
        ('    Delete,\n    Resize,\n', '    Delete,\n'),
        ('    Truncate,\n    RemoveFrames,', '    Truncate,\n    FrameRemoval,'),
    ]),
    'all operations of the oracle': (ORACLE, all_of_the_oracle, CAMEL_OPERATIONS, [
        ('        Operation::Get,\n        Operation::Peek,\n', '        Operation::Peek,\n        Operation::Get,\n'),
    ]),
    'names that the oracle writes': (ORACLE_WORDS, oracle_words, [(operation.camel(), operation.name) for operation in OPERATIONS], [
        ('"remove_frames"', '"frame removal"'),
        ('Operation::Get => "get"', 'Operation::Get => "peek"'),
    ]),
    'codes of the oracle': (ORACLE_CODES, oracle_codes,
                            [(answer.upper(), str(answer.number)) for answer in ANSWERS] + [('COUNT', str(len(ANSWERS)))], [
        ('NOT_NEEDED: u8 = 18', 'NOT_NEEDED: u8 = 19'),
        ('pub const EMPTY', 'pub const NOTHING_HELD'),
        (f'COUNT: usize = {len(ANSWERS)}', f'COUNT: usize = {len(ANSWERS) - 1}'),
    ]),
    'operations of the Rust crate': (
        CRATE, crate_operations, [(operation.camel(), operation.number, METHOD.get(operation.function, operation.function)) for operation in OPERATIONS], [
            ('Get = 4,', 'Get = 14,'),
            ('Release = 17,', 'Release = 7,'),
            ('::release`]', '::release_page`]'),
            ('RemoveFrames = 9,', 'FrameRemoval = 9,'),
            ('::evict_one`]', '::delete`]'),
        ]),
    'codes of the Rust crate': (CRATE, crate_codes, CAMEL_ANSWERS, [
        ('Full = 8,', 'Full = 18,'),
        ('        Empty = 14,\n', ''),
        ('HolderLimit = 20,', 'HolderLimit = 19,'),
    ]),
    'errors of the Rust crate': (CRATE_ERRORS, crate_errors, [(answer.camel(), answer.gives_key) for answer in ANSWERS[1:]], [
        ('    /// Every slot is taken.\n    NoSlot,\n', ''),
        ('    OtherPage,\n', '    AnotherPage,\n'),
    ]),
    'answers in the long run': (DIFFERENCES, what_is_odd_in_the_long_run, [], [
        ('| get | 0:', '| lookup | 0:'),
        ('| peek | 0:', '| peek | 3: 1, 0:'),
    ]),
    'codes that RULES.md explains': (RULES, codes_explained, EXPLAINED, [
        ('| **9** |', '| **19** |'),
        ('| `empty` |', '| `nothing_held` |'),
        ('| a page that has to go is pinned | its key |', '| a page that has to go is pinned | 0 |'),
        ('| the page was touched |', '| unchanged |'),
    ]),
}


def content(path):
    return (TABLE.TOP / path).read_text(encoding='utf-8')


class Places(unittest.TestCase):
    """What is written by hand."""
    maxDiff = None

    def test_as_the_tables_have_it(self):
        for name, (path, read, wanted, _) in PLACES.items():
            with self.subTest(name, path=path):
                self.assertEqual(read(content(path)), wanted, f'{path} and the tables differ')

    def test_faults_are_found(self):
        for name, (path, read, wanted, faults) in PLACES.items():
            text = content(path)
            for old, new in faults:
                with self.subTest(name, fault=(old, new)):
                    self.assertEqual(text.count(old), 1, old)
                    self.assertNotEqual(read(text.replace(old, new)), wanted)

    def test_public_calls(self):
        """Each operation has a call of its own."""
        functions = {operation.function for operation in OPERATIONS}
        self.assertEqual(len(functions), len(OPERATIONS))
        self.assertEqual(functions - public_calls(content(CALLS)), set())


class Made(unittest.TestCase):
    """What tools/calls makes."""

    def test_as_it_would_be_made_now(self):
        self.assertEqual([path for path, _ in TOOL.stale()], [], 'run: tools/calls')

    def test_faults_are_found(self):
        for path, old, new in (
                (TOOL.HEADER, 'PC_FULL = 8,', 'PC_FULL = 7,'), (TOOL.HEADER, 'PC_OP_GET = 4,', 'PC_OP_LOOKUP = 4,'),
                (TOOL.HEADER, '    case PC_NOT_NEEDED: return "not_needed";\n', ''),
                (TOOL.HEADER, 'PC_OP_RELEASE = 17 ', 'PC_OP_RELEASE = 18 '), (TOOL.HEADER, 'PC_HOLDER_LIMIT = 20 ', 'PC_HOLDER_LIMIT = 21 '),
                (TOOL.TRACES, '| 9 | `remove_frames LIMIT`', '| 8 | `remove_frames LIMIT`'),
                (TOOL.TRACES, '| 17 | `bad_replay`', '| 17 | `bad_record`'),
                (TOOL.RULES, '| 9 | `remove_frames` | frame removal |', '| 9 | `remove_frames` | truncation |')):
            text = content(path)
            self.assertEqual(text.count(old), 1, old)
            self.assertEqual(TOOL.made(text, TOOL.PARTS[path]), text)
            self.assertEqual(TOOL.made(text.replace(old, new), TOOL.PARTS[path]), text, old)

    def test_lines_around_a_part(self):
        for text in ('', '<!-- made by tools/calls: lines -->\n', content(TOOL.TRACES) * 2):
            with self.assertRaisesRegex(ValueError, 'two lines around the lines'):
                TOOL.made(text, {'lines': TOOL.lines_of_a_trace})


class Scripts(unittest.TestCase):
    """The scripts read the tables: they have no numbers of their own."""

    def test_every_line_of_a_trace(self):
        """The lines of TRACES.md, with numbers in the place of their words, are records of their operations, and back."""
        for operation in OPERATIONS:
            line = re.sub('[A-Z]+', '7', operation.line().replace(' [PAGE]', ' loaded').replace('[', '').replace(']', ''))
            for written in [line] if '|' not in line else [re.sub(r'\w+\|\w+', word, line) for word in operation.words]:
                if 'page' not in operation.fields:
                    self.assertNotIn('loaded', written)
                record = TRACE.record_of(written.split())
                self.assertEqual(record[0], operation.number)
                self.assertEqual(TRACE.line_of(record), written)

    def test_cases_by_hand(self):
        """The records of tools/replay-cases, whose answers were worked out by hand, are answered by what the table allows."""
        for case in CASES.CASES + [CASES.NO_CACHE, CASES.STATES]:
            for record, line in case:
                code = int(line.split(' ')[0])
                good = record[0] < len(OPERATIONS)
                self.assertIn(code, OPERATIONS[record[0]].answers if good else [CODE['bad_replay']], record)


class Tables(unittest.TestCase):
    """The tables themselves."""

    def test_answers_that_follow_from_the_fields(self):
        for operation in OPERATIONS:
            with self.subTest(operation.name):
                self.assertEqual(operation.answers, sorted(set(operation.answers) & set(CODE.values())))
                creates = operation.request.startswith('creation')
                for name, given in (('done', True), ('bad_replay', True), ('not_sound', not creates),
                                    ('bad_lengths', creates), ('bad_record', 'page' in operation.fields),
                                    ('handle_elsewhere', 'handle' in operation.fields),
                                    ('too_large', operation.fields.get('number') == 'capacity')):
                    self.assertEqual(CODE[name] in operation.answers, given, name)

    def test_every_answer_is_given(self):
        self.assertEqual({code for operation in OPERATIONS for code in operation.answers}, set(CODE.values()))

    def test_faults_are_refused(self):
        text = content('docs/calls.tsv')
        for old, new, why in (
                ('\n4\tget', '\n5\tget', ':6: number 5 stands in the place of 4'),
                ('\n4\tget', '\n4\tpeek', 'peek is no name, or comes twice'),
                ('\n4\tget', '\n4\tGet', 'Get is no name'),
                ('\tevict one\t-\t', '\tevict one\t\t', 'none of them empty'),
                ('\tevict one\t-\t', '\tevict one\t', f'there have to be {len(TABLE.Operation.COLUMNS)} cells'),
                ('key handle page\t0 1 2 3 6 7 8', 'key page handle\t0 1 2 3 6 7 8', 'the fields are not some of'),
                ('key handle page\t0 1 2 3 6 7 8', 'key handle page\t0 1 2 3 six 7 8', 'the answers are not numbers'),
                ('number\tname\t', 'no.\tname\t', 'the columns are no., name')):
            with tempfile.TemporaryDirectory() as folder, self.subTest(why):
                path = TABLE.pathlib.Path(folder) / 'calls.tsv'
                self.assertEqual(text.count(old), 1, old)
                path.write_text(text.replace(old, new), encoding='utf-8')
                with self.assertRaisesRegex(ValueError, re.escape(why)):
                    TABLE.table(path, TABLE.Operation)


class Command(unittest.TestCase):
    def test_check(self):
        with mock.patch.object(TOOL.sys, 'argv', ['calls', '--check']):
            TOOL.main()
            with mock.patch.object(TOOL, 'stale', lambda: [('docs/TRACES.md', '')]), \
                    self.assertRaisesRegex(SystemExit, 'docs/TRACES.md is not as the tables have it; run: tools/calls'):
                TOOL.main()

    def test_bad_words(self):
        with mock.patch.object(TOOL.sys, 'argv', ['calls', '--chek']), self.assertRaisesRegex(SystemExit, 'tools/calls --check'):
            TOOL.main()


if __name__ == '__main__':
    unittest.main()
