"""crates.txt is the map of the crates as their files have it; and what tools/crate_map.py says of maps that are not."""

import os
import tempfile
import unittest

import sharing  # by which the tools' folder is searched for modules
import crate_map

# A repository of five crates whose map is true.
CRATES = '''# A map.

## The ground

# keys
keys:
# entries,
# which hold keys
entries: keys

## The top

# what callers see
calls: entries keys
# the program
show: calls entries keys io
# for C
calls_c staticlib: calls entries keys
'''
FILES = {
    'keys/src/lib.rt': '// calls::get is only spoken of\npub struct Key(u32);\npub fn first() -> Key { Key(0) }\n',
    'entries/src/lib.rt': 'mod show;\nuse keys::Key;\npub use show::look;\npub enum Entry {\n    Held(Key),\n    Free,\n}\n',
    'entries/src/show.rt': 'pub fn look() -> u8 { quoted(b"calls::get", b\'"\') }\n',
    'calls/src/lib.rt': 'pub use entries::Entry;\nghost use Rattle.calls.specs.Called.{Called};\n',
    'calls/specs/Called.antt': '-- Rattle.show.specs is only spoken of\nuse Rattle.keys.specs.Keys.{key}\n',
    'show/src/main.rt': 'use calls::Entry;\nfn main() { io::print(1); }\n',
    'calls_c/src/lib.rt': 'use calls::Entry;\n',
    'show/must-fail/other.edit': 'Not os::open.\nfile: src/main.rt\nold: 1\nnew: keys::first()\n',
}


def in_folder(top, files):
    for path, text in files.items():
        os.makedirs(os.path.dirname(os.path.join(top, path)), exist_ok=True)
        with open(os.path.join(top, path), 'w', encoding='utf-8') as file:
            file.write(text)


def faults(crates=CRATES, files=()):
    """What is said of the repository, with another map or with more or other files of its crates."""
    with tempfile.TemporaryDirectory() as top:
        in_folder(top, {'crates.txt': crates, **{f'crates/{path}': text for path, text in {**FILES, **dict(files)}.items()}})
        return list(crate_map.Sources(crate_map.by_name(crate_map.groups(top)), top).faults())


class TheMap(unittest.TestCase):
    def test_is_what_the_files_say(self):
        self.assertEqual(list(crate_map.Sources(crate_map.by_name(crate_map.groups())).faults()), [])


class Faults(unittest.TestCase):
    def by_its_files(self, line, **repository):
        """The one thing that is said is which line a crate has to have."""
        self.assertEqual(faults(**repository), [f"crates.txt: by its files the line of {line.partition(':')[0]} is '{line}'"])

    def test_none(self):
        self.assertEqual(faults(), [])

    def test_listed_and_not_cited(self):
        self.by_its_files('entries: keys', crates=CRATES.replace('entries: keys\n', 'entries: keys os\n'))

    def test_named_in_code(self):
        self.by_its_files('show: calls entries keys io', crates=CRATES.replace(' io', ''))

    def test_named_in_a_clause(self):
        self.by_its_files('keys: libc', files={'keys/src/more.rt': 'ghost use Rattle.libc.specs.Read.{read};\n'})

    def test_named_in_a_definition(self):
        self.by_its_files('keys: check', files={'keys/specs/Keys.antt': 'use Rattle.check.specs.Same.{Same}\n'})

    def test_named_in_a_proof(self):
        self.by_its_files('keys: bytes', files={'keys/proofs/first/Answers.antt': 'use Rattle.bytes.proofs.Fill.{filled}\n'})

    def test_type_that_another_crate_hands_on(self):
        self.by_its_files('show: calls entries keys io', crates=CRATES.replace('calls entries keys io', 'calls keys io'))

    def test_type_that_a_named_type_holds(self):
        source = 'use entries::Entry;\nfn main() { io::print(1); }\n'
        self.by_its_files('show: entries keys io', crates=CRATES.replace('calls entries keys io', 'entries io'),
                          files={'show/src/main.rt': source, 'show/must-fail/other.edit': ''})

    def test_type_in_a_signature_may_be_listed(self):
        files = {'calls/src/lib.rt': 'use entries::Entry;\npub fn call() -> Entry { Entry::Free }\n',
                 'show/src/main.rt': 'fn main() { calls::call(); }\n', 'show/must-fail/other.edit': '',
                 'calls_c/src/lib.rt': 'use calls::other;\nuse entries::Entry;\n'}
        for line in 'show: calls', 'show: calls entries', 'show: calls entries keys':
            self.assertEqual(faults(CRATES.replace('show: calls entries keys io', line), files), [])
        self.by_its_files('show: calls entries', crates=CRATES.replace('calls entries keys io', 'calls entries io'), files=files)

    def test_line_of_a_static_library(self):
        self.assertEqual(faults(CRATES.replace('calls_c staticlib: calls entries keys', 'calls_c staticlib: calls')),
                         ["crates.txt: by its files the line of calls_c is 'calls_c staticlib: calls entries keys'"])

    def test_in_another_order(self):
        self.by_its_files('calls: entries keys', crates=CRATES.replace('calls: entries keys\n', 'calls: keys entries\n'))

    def test_not_from_the_ground_up(self):
        before = CRATES.replace('# keys\nkeys:\n', '').replace('## The top\n', '## The top\n\n# keys\nkeys:\n')
        self.assertIn('crates.txt: entries stands above keys, which it cites', faults(before))

    def test_edit_names_what_is_not_listed(self):
        self.assertEqual(faults(files={'keys/must-fail/other.edit': 'file: src/lib.rt\nold: 0\nnew: os::open()\n'}),
                         ['crates/keys/must-fail/other.edit names os, which keys does not list: it is refused for that name'])


class Reading(unittest.TestCase):
    def groups(self, crates):
        with tempfile.TemporaryDirectory() as top:
            in_folder(top, {'crates.txt': crates})
            return crate_map.groups(top)

    def test_groups(self):
        ground, top = self.groups(CRATES)
        self.assertEqual(ground, ('The ground', [('keys', 'keys', [], ''), ('entries', 'entries, which hold keys', ['keys'], '')]))
        self.assertEqual(top.heading, 'The top')
        self.assertEqual([(crate.name, crate.kind) for crate in top.crates], [('calls', ''), ('show', ''), ('calls_c', 'staticlib')])

    def test_no_heading_or_nothing_said(self):
        for crates in '# keys\nkeys:\n', '## The ground\n\nkeys:\n', '## The ground\n# keys\n\nkeys:\n', '## The ground\n# a\na:\nkeys:\n':
            with self.assertRaisesRegex(ValueError, 'line [0-9]: keys needs a heading'):
                self.groups(crates)

    def test_directly(self):
        crates = crate_map.by_name(self.groups(CRATES))
        self.assertEqual(crate_map.directly(crates), {'keys': [], 'entries': ['keys'], 'calls': ['entries'], 'show': ['calls'],
                                                        'calls_c': ['calls']})


if __name__ == '__main__':
    unittest.main()
