"""The C header and the Rust crate have the sizes, places and flags of the proved functions, and the README's lines for Rust are run."""

import os
import pathlib
import re
import unittest

import sharing

TOP = pathlib.Path(sharing.TOOLS).parent
TRACE = sharing.loaded(os.path.join(sharing.TOOLS, 'trace'))


def content(path):
    return (TOP / path).read_text(encoding='utf-8')


HEADER, CRATE = content('host/include/page_cache.h'), content('host/rust/src/sys.rs')
HEADS, LISTING = content('crates/c_numbers/specs/Head.antt'), content('crates/listing/specs/Listing.antt')


def proved_order(text, equation):
    """The names in a list of a definition: the last of each element's, without the number that a name's field has."""
    found = re.search(rf'^{re.escape(equation)} =\s(.*?)\[\]', text, re.M | re.S)
    return [re.sub(r'\.0$', '', element.strip(' \n()')).split('.')[-1].strip(' ()') for element in found[1].split('∷')[:-1]]


def header_places(kind, start):
    """The names of an enum's constants, which have to count from 0."""
    constants = re.findall(rf'{start}_(\w+) = ([0-9]+)', re.search(rf'enum {kind} {{(.*?)}};', HEADER, re.S)[1])
    assert [int(number) for _, number in constants] == list(range(len(constants))), constants
    return [name.lower() for name, _ in constants]


def crate_places(module):
    constants = re.findall(r'pub const (\w+): usize = ([0-9]+);', re.search(rf'pub mod {module} {{(.*?)\n}}', CRATE, re.S)[1])
    assert [int(number) for _, number in constants] == list(range(len(constants))), constants
    return [name.lower() for name, _ in constants]


def header_size(name):
    return int(re.search(rf'#define {name} ([0-9]+)$', HEADER, re.M)[1])


def crate_size(name):
    return int(re.search(rf'^pub const {name}: usize = ([0-9]+);', CRATE, re.M)[1])


class Places(unittest.TestCase):
    def test_head(self):
        proved = proved_order(HEADS, 'numbers_of h')
        self.assertEqual(proved, ['capacity', 'held', 'hand', 'spill', 'estimate'])
        self.assertEqual(header_places('pc_head_place', 'PC_HEAD'), proved)
        self.assertEqual(crate_places('head'), proved)

    def test_page(self):
        proved = proved_order(LISTING, 'numbers_of p')
        self.assertEqual(proved[:2] + proved[-1:], ['key', 'handle', 'uses'])
        self.assertEqual(header_places('pc_page_place', 'PC_PAGE'), proved)
        self.assertIn(f'let [{", ".join(proved)}] = numbers;', content('host/rust/src/record.rs'))

    def test_answer(self):
        places = header_places('pc_answer_place', 'PC_ANSWER')
        self.assertEqual(crate_places('answer'), places)
        proved = re.search(r'^answer_of es r =\s(.*?)\[\]', HEADS, re.M | re.S)[1].split('∷')[:-1]
        self.assertEqual(len(proved), len(places))
        for element, place in zip(proved, places):
            self.assertIn(place, element)


class Sizes(unittest.TestCase):
    def test_numbers(self):
        for ours, name, places in (('HEAD', 'PC_HEAD_NUMBERS', header_places('pc_head_place', 'PC_HEAD')),
                                   ('ANSWER', 'PC_ANSWER_NUMBERS', header_places('pc_answer_place', 'PC_ANSWER')),
                                   ('PAGE', 'PC_PAGE_NUMBERS', header_places('pc_page_place', 'PC_PAGE'))):
            self.assertEqual((crate_size(ours), header_size(name)), (len(places), len(places)))

    def test_slots(self):
        most = int(re.search(r'pub const MAX_SLOTS: u32 = ([0-9]+);', content('crates/page/src/cache.rt'))[1])
        self.assertEqual((header_size('PC_MAX_SLOTS'), crate_size('MAX_SLOTS')), (most, most))
        self.assertIn(f'#define PC_SLOT_WORDS(S) ({crate_size("SLOT_WORDS")} * (S))', HEADER)


class Flags(unittest.TestCase):
    def test_flags(self):
        flags = {word.upper(): bit for word, bit in TRACE.FLAGS.items()}
        self.assertEqual({name: int(bit) for name, bit in re.findall(r'PC_FLAG_(\w+) = ([0-9]+)', HEADER)}, flags)
        record = content('host/rust/src/record.rs')
        self.assertEqual({name: int(bit) for name, bit in re.findall(r'pub const (\w+): u8 = ([0-9]+);', record)}, flags)


class Readme(unittest.TestCase):
    def test_lines_for_rust(self):
        """They are lines of a documentation example, which host/rust/run runs. Those for C are run by host/c/run."""
        lines = re.findall('```rust\n(.*?)```', content('README.md'), re.S)
        self.assertEqual(len(lines), 1)
        documented = re.sub('^ */// ?', '', content('host/rust/src/cache.rs'), flags=re.M)
        self.assertTrue(lines[0] in documented, f'no example in cache.rs has these lines:\n{lines[0]}')


if __name__ == '__main__':
    unittest.main()
