"""The tables of operations and answers, docs/calls.tsv and docs/answers.tsv: a line of names, then a line for each, by its number.

An operation has
    number        the operation byte of its replay record
    name          the one word for it: in text traces, in scripts and, spelt as the language wants it, in the C header
                  (PC_OP_GET), in the Rust crate and the oracle (Operation::Get)
    document 01   document 01's words for it, or those of the request that added it
    fields        what of the record it uses, each field's meaning after a '=': of an option the word that means 1, or both
                  words with a '/' between them; '-' if it uses nothing
    answers       the numbers of the answers that it can give
    what it does  in a line
    request       what stands for it in crates/replay_record/specs/Request.antt: a constructor of crates/model
    function      the public call in crates/page_cache, and the method in host/rust: the original's name where it has one

and an answer
    number        its code
    name          the one word for it: in what tools/trace shows and, spelt as the language wants it, in the C header (PC_FULL), in
                  crates/answer, the Rust crate and the oracle
    given when
    value         what the answer's value is
    leaves        what a call that gives it leaves
"""

import pathlib
import re

TOP = pathlib.Path(__file__).resolve().parent.parent
FIELDS = ('key', 'handle', 'page', 'number', 'option')


def rows(path, columns):
    """The lines of a table, each by the names of its columns. Numbers count from 0, and no name comes twice."""
    lines = [line.split('\t') for line in path.read_text(encoding='utf-8').splitlines()]
    if tuple(lines[0]) != columns:
        raise ValueError(f'{path}:1: the columns are {", ".join(lines[0])}, not {", ".join(columns)}')
    names = set()
    for at, cells in enumerate(lines[1:]):
        where = f'{path}:{at + 2}'
        if len(cells) != len(columns) or not all(cell == cell.strip() != '' for cell in cells):
            raise ValueError(f'{where}: there have to be {len(columns)} cells, none of them empty')
        row = dict(zip(columns, cells))
        if row['number'] != str(at):
            raise ValueError(f'{where}: number {row["number"]} stands in the place of {at}')
        if not re.fullmatch('[a-z]+(_[a-z]+)*', row['name']) or row['name'] in names:
            raise ValueError(f'{where}: {row["name"]} is no name, or comes twice')
        names.add(row['name'])
        yield where, row


class Named:
    """What has a number and a name, in the spelling of each language."""

    def __init__(self, row):
        self.number = int(row['number'])
        self.name = row['name']

    def upper(self):
        return self.name.upper()

    def camel(self):
        return ''.join(word.capitalize() for word in self.name.split('_'))


class Operation(Named):
    COLUMNS = ('number', 'name', 'document 01', 'fields', 'answers', 'what it does', 'request', 'function')

    def __init__(self, where, row):
        super().__init__(row)
        words = [] if row['fields'] == '-' else row['fields'].split(' ')
        # each field's meaning, or an empty text
        self.fields = {name: meaning for name, _, meaning in (word.partition('=') for word in words)}
        if [name for name in FIELDS if name in self.fields] != list(self.fields) or len(words) != len(self.fields):
            raise ValueError(f'{where}: the fields are not some of {" ".join(FIELDS)}, in this order')
        if not re.fullmatch('[0-9]+( [0-9]+)*', row['answers']):
            raise ValueError(f'{where}: the answers are not numbers with a blank between them')
        self.answers = [int(word) for word in row['answers'].split(' ')]
        self.does, self.request, self.function = row['what it does'], row['request'], row['function']
        self.in_01 = row['document 01']
        # of a text trace: the field of the number that stands after the name, if there is one; the words for the option;
        # whether one of them has to be there, or none of them means 0
        self.first = next((name for name in ('key', 'number') if name in self.fields), None)
        option = self.fields.get('option', '').split('/')
        self.must_choose = len(option) == 2
        self.words = {word: number for number, word in zip((0, 1) if self.must_choose else (1,), option) if word}

    def line(self):
        """How the call is written in a text trace."""
        words = [self.name]
        if self.first:
            words.append((self.fields[self.first] or self.first).upper())
        if 'handle' in self.fields:
            words.append('handle=HANDLE')
        if 'page' in self.fields:
            words.append('[PAGE]')
        if self.words:
            choice = '|'.join(self.words)
            words.append(choice if self.must_choose else f'[{choice}]')
        return ' '.join(words)


class Answer(Named):
    COLUMNS = ('number', 'name', 'given when', 'value', 'leaves')

    def __init__(self, where, row):
        super().__init__(row)
        self.when, self.value, self.leaves = row['given when'], row['value'], row['leaves']
        # of a page that refuses
        self.gives_key = self.value == 'its key'


def table(path, kind):
    return [kind(where, row) for where, row in rows(path, kind.COLUMNS)]


def operations(top=TOP):
    return table(top / 'docs/calls.tsv', Operation)


def answers(top=TOP):
    return table(top / 'docs/answers.tsv', Answer)
