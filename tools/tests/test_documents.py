"""docs/RULES.md, READING.md and PROVING.md name what is there, and what the sources cite by number stands in docs/RULES.md."""

import fnmatch
import functools
import os
import re
import unittest

TOP = os.path.dirname(os.path.dirname(os.path.dirname(os.path.abspath(__file__))))
RULES, READING, PROVING = 'docs/RULES.md', 'docs/READING.md', 'docs/PROVING.md'
SOURCES = ('.ci', 'crates', 'host', 'oracle', 'tools')

WORD = re.compile(r"[^\W\d][\w']*(?:-[\w']+)*")
PATH = re.compile(r'[\w.*-]+(?:/[\w.*-]+)+/?|[\w.-]+\.(?:antt|md|py|rs|rt|svg)')
# Names, with commas or 'and' between them, that are said to stand in a file.
PLACED = re.compile(r'((?:`[^`]+`(?:, | and ))*`[^`]+`) in `([^`]+\.(?:antt|rt))`')
DECLARED = r"^\s*(?:(?:pub|abbrev|unfoldable|record|data|fn|const|struct|enum|trait) )*{}(?![\w'-])"
NUMBERS = re.compile(r'\b(rule|code|item|demand)s? (\d+(?:(?:, | to | and )\d+)*)')


def content(path):
    with open(os.path.join(TOP, path), encoding='utf-8', errors='replace') as file:
        return file.read()


@functools.cache
def files(*folders):
    """The files in these folders, without what is built there."""
    found = []
    for folder in folders:
        for place, inner, names in os.walk(os.path.join(TOP, folder)):
            inner[:] = [name for name in inner if name not in ('target', 'out', '__pycache__')]
            found += [os.path.relpath(os.path.join(place, name), TOP) for name in names]
    return found


def sources():
    """Without tests of tools, which have wrong names too."""
    return [path for path in files(*SOURCES) if not path.startswith('tools/tests/')]


@functools.cache
def places():
    """Every file and folder of the sources and documents."""
    known = {'README.md', 'crates.txt'}
    for path in files(*SOURCES, 'docs', 'traces'):
        while path:
            known.add(path)
            path = os.path.dirname(path)
    return known


@functools.cache
def known_words():
    """Every word of the sources, and of the names of their files: a wrong program is cited by its file's name."""
    words = set()
    for path in sources():
        words.update(WORD.findall(content(path)), WORD.findall(path))
    return words | {part for word in words for part in word.split('-')}


def spans(text):
    return re.findall(r'`([^`\n]+)`', re.sub(r'^```.*?^```', '', text, flags=re.M | re.S))


def standing(path):
    """The places that a path names: from the top, from a folder further down, or as CRATE/EDIT in a crate's must-fail."""
    path = path.rstrip('/')
    crate, _, edit = path.partition('/')
    shapes = (path, f'*/{path}', f'crates/{crate}/must-fail/{edit}.edit')
    return [place for place in places() if any(fnmatch.fnmatchcase(place, shape) for shape in shapes)]


def missing_paths(text):
    return [span for span in spans(text) if PATH.fullmatch(span) and not standing(span)]


def unknown_words(text):
    named = [span for span in spans(text) if not PATH.fullmatch(span)]
    return [word for span in named for word in WORD.findall(span) if word not in known_words()]


def misplaced(text):
    """Names that are said to stand in a file, and that none of that name declares."""
    wrong = []
    for names, path in PLACED.findall(' '.join(text.split())):
        declared_in = [content(place) for place in standing(path)]
        for name in WORD.findall(' '.join(spans(names))):
            if not any(re.search(DECLARED.format(re.escape(name)), source, re.M) for source in declared_in):
                wrong.append(f'{name} in {path}')
    return wrong


def headings(text):
    return re.findall(r'^#+ (.*)$', text, re.M)


def anchor(heading):
    return re.sub(r'[^\w -]', '', heading.lower()).replace(' ', '-')


def dead_links(text):
    """Links to a file that isn't there, or to a heading that it doesn't have."""
    dead = []
    for path, part in re.findall(r'\]\(([\w./-]+)(?:#([\w-]+))?\)', text):
        file = os.path.normpath(os.path.join('docs', path))
        if file not in places() or part and part not in map(anchor, headings(content(file))):
            dead.append(f'{path}#{part}')
    return dead


def cited_numbers(text):
    """What is cited by number, as ('rule', 8). '6 to 11' is cited by its ends."""
    return {(kind, int(number)) for kind, numbers in NUMBERS.findall(text) for number in re.findall(r'\d+', numbers)}


def code_rows(text):
    return [line for line in text.splitlines() if re.match(r'\| \*\*\d', line)]


def stated_numbers(text):
    stated = re.findall(r'^(?:### |- \*\*)(Rule|Item|Demand) (\d+)\.', text, re.M)
    stated += [('code', number) for row in code_rows(text) for number in re.findall(r'\*\*(\d+)\*\*', row)]
    return [(kind.lower(), int(number)) for kind, number in stated]


def without_definition(text):
    """Rules and codes beside which no definition stands with its file."""
    rules = [part for part in re.split(r'^#+ ', text, flags=re.M) if part.startswith('Rule ')]
    return [part.split('\n')[0] for part in rules + code_rows(text) if not PLACED.search(' '.join(part.split()))]


class Documents(unittest.TestCase):
    def none(self, wrong_in):
        for path in (RULES, READING, PROVING):
            self.assertEqual(wrong_in(content(path)), [], path)

    def test_paths(self):
        self.none(missing_paths)
        self.assertEqual(missing_paths('`crates/page/specs/Nosuch.antt`, `crates/page/specs/Cache.antt`, `Cache.antt`, `crates/wal*`'),
                         ['crates/page/specs/Nosuch.antt'])
        self.assertEqual(missing_paths('`model/never_touches`, `model/nosuch_edit`'), ['model/nosuch_edit'])

    def test_words(self):
        self.none(unknown_words)
        self.assertEqual(unknown_words('`may_go`, `may_not_go_at_all`, `threshold_examples`, `PageRecord::is_nosuch`, `nosuch-examples`'),
                         ['may_not_go_at_all', 'is_nosuch', 'nosuch-examples'])

    def test_places(self):
        self.none(misplaced)
        # `may_go` is used there, and declared elsewhere
        self.assertEqual(misplaced('`fresh`, `may_go` and `enter`\nin `crates/model/specs/Cache.antt`'),
                         ['may_go in crates/model/specs/Cache.antt'])
        self.assertEqual(misplaced('`may_go` in `crates/page/specs/Cache.antt`'), [])
        self.assertEqual(misplaced('`fresh` in `crates/nosuch/specs/Cache.antt`'), ['fresh in crates/nosuch/specs/Cache.antt'])

    def test_definitions(self):
        self.assertEqual(without_definition(content(RULES)), [])
        self.assertEqual(without_definition('### Rule 8. Deletion\n\nBy `deletable`.\n\n### Rule 9. Lookup\n\nBy `hit`\nin `Rules.antt`.'),
                         ['Rule 8. Deletion'])
        self.assertEqual(without_definition('| **9** | `key_exists` in `Rules.antt` |\n| **10** | `resized` |'), ['| **10** | `resized` |'])

    def test_links(self):
        self.none(dead_links)
        self.assertEqual(dead_links('[a](READING.md) [b](NOSUCH.md) [c](RULES.md#rule-8-deletion) [d](RULES.md#rule-8-nosuch)'),
                         ['NOSUCH.md#', 'RULES.md#rule-8-nosuch'])

    def test_numbers(self):
        """Whatever the sources cite by number is stated, and stated once."""
        stated = stated_numbers(content(RULES))
        self.assertEqual(len(stated), len(set(stated)))
        for path in sources():
            self.assertEqual(cited_numbers(content(path)) - set(stated), set(), path)
        self.assertEqual(cited_numbers('rules 5, 6 and 7; code 12'), {('rule', 5), ('rule', 6), ('rule', 7), ('code', 12)})
        self.assertNotIn(('rule', 15), stated)


if __name__ == '__main__':
    unittest.main()
