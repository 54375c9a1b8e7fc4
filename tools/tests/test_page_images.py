"""Tests of tools/page-images: its checker, its databases, and that it finds faults that are planted in a checker."""

import contextlib
import functools
import io
import os
import re
import struct
import sys
import tempfile
import types
import unittest
from unittest import mock

import sharing

TOP = os.path.dirname(os.path.dirname(os.path.dirname(os.path.abspath(__file__))))
TOOL_PATH = os.path.join(TOP, 'tools/page-images')

TOOL = sharing.loaded(TOOL_PATH)

# Made once: that takes a second.
made_databases = functools.cache(TOOL.made_databases)
INTERIOR, LEAF = TOOL.INTERIOR_TABLE, TOOL.LEAF_TABLE


def page_of(number=2, size=512, reserved=0, kind=LEAF, pointers=(), content_start=400, blocks=(), last_link=0, cells=None,
            fragmented=0, magic=TOOL.MAGIC):
    """A page by hand: each block is a start and a size, and is linked to the one that follows it here."""
    image = bytearray(size)
    header = 0
    if number == 1:
        image[:len(magic)] = magic
        struct.pack_into('>H2xB', image, 16, size % 65535, reserved)
        header = 100
    links = [start for start, _ in blocks] + [last_link]
    cells = len(pointers) if cells is None else cells
    struct.pack_into('>B3HB', image, header, kind, links[0], cells, content_start, fragmented)
    length = 12 if kind in (2, 5) else 8
    struct.pack_into(f'>{len(pointers)}H', image, header + length, *pointers)
    for (start, block_size), link in zip(blocks, links[1:]):
        struct.pack_into('>2H', image, start, link, block_size)
    return TOOL.Page(bytes(image), number, size, reserved)


class Checker(unittest.TestCase):
    """The checker on pages made by hand, at each bound and beside it."""

    def fault(self, expected, **parts):
        self.assertEqual(TOOL.first_fault(page_of(**parts)), expected, parts)

    def test_length(self):
        for length in (0, 1, 100, 511, 513, 1024):
            self.assertEqual(TOOL.first_fault(TOOL.Page(bytes(length), 1, 512, 0)), ('length', length))

    def test_page_size(self):
        for size in (0, 1, 256, 511, 513, 768, 65535, 131072):
            self.assertEqual(TOOL.first_fault(TOOL.Page(bytes(size), 2, size, 0)), ('page size', 16))
        for power in range(9, 17):
            self.fault(None, size=2**power)

    def test_usable_size(self):
        self.fault(None, reserved=32)
        self.fault(('usable size', 20), reserved=33)
        self.fault(None, size=1024, reserved=255)

    def test_magic(self):
        self.fault(None, number=1)
        for at in range(16):
            wrong = TOOL.MAGIC[:at] + bytes([TOOL.MAGIC[at] ^ 1]) + b'!' * (15 - at)
            self.fault(('magic', at), number=1, magic=wrong)
        self.assertEqual(TOOL.MAGIC.hex(' '), '53 51 4c 69 74 65 20 66 6f 72 6d 61 74 20 33 00')

    def test_type(self):
        for kind in range(256):
            right = kind in (2, 5, 10, 13)
            self.fault(None if right else ('page type', 0), kind=kind)
            self.fault(None if right else ('page type', 100), kind=kind, number=1)

    def test_first_link(self):
        for number, link in ((2, 1), (1, 101)):
            wrong = ('freeblock chain', link)
            self.fault(wrong, number=number, last_link=399)
            self.fault(wrong, number=number, blocks=[(399, 4)])
            self.fault(None, number=number, blocks=[(400, 4)])
            self.fault(None, number=number, blocks=[(508, 4)])
            self.fault(wrong, number=number, last_link=509)
            self.fault(wrong, number=number, last_link=1)
            self.fault(wrong, number=number, last_link=65535)
        self.fault(None, reserved=8, blocks=[(500, 4)])
        self.fault(('freeblock chain', 1), reserved=8, blocks=[(501, 4)])

    def test_block_size(self):
        for size, right in ((0, False), (3, False), (4, True), (62, True), (63, False), (65535, False)):
            self.fault(None if right else ('freeblock chain', 452), blocks=[(450, size)])
        self.fault(None, reserved=8, blocks=[(450, 54)])
        self.fault(('freeblock chain', 452), reserved=8, blocks=[(450, 55)])
        # no sum of 16 bits
        self.fault(None, size=65536, content_start=60000, blocks=[(65532, 4)])
        self.fault(('freeblock chain', 65534), size=65536, content_start=60000, blocks=[(65532, 5)])
        self.fault(('freeblock chain', 1), size=65536, content_start=60000, last_link=65533)

    def test_later_blocks(self):
        two = [(400, 10), (410, 4)]
        self.fault(None, blocks=two)
        self.fault(('freeblock chain', 400), blocks=[(400, 11), (410, 4)])
        self.fault(None, blocks=two + [(414, 98)])
        self.fault(('freeblock chain', 416), blocks=two + [(414, 99)])
        self.fault(('freeblock chain', 410), blocks=two, last_link=413)
        for link in (1, 8, 399, 400, 404, 410, 509, 512, 65535):
            self.fault(('freeblock chain', 410), blocks=two, last_link=link)
        self.fault(('freeblock chain', 400), blocks=two[:1], last_link=400)
        row = [(start, 4) for start in range(400, 512, 4)]
        self.fault(None, blocks=row)
        self.fault(('freeblock chain', 510), blocks=row[:-1] + [(508, 3)])

    def test_chain_from_a_content_start_past_the_end(self):
        for start in (600, 0):
            self.fault(('freeblock chain', 1), content_start=start, blocks=[(450, 4)])

    def test_cell_count(self):
        # 8 and 2 * 10 are 28 on a leaf page, 12 and 20 are 32 on an interior one
        for kind, end in ((LEAF, 28), (TOOL.LEAF_INDEX, 28), (INTERIOR, 32), (TOOL.INTERIOR_INDEX, 32)):
            for number, place in ((2, 3), (1, 103)):
                start = end + place - 3
                parts = {'number': number, 'kind': kind, 'pointers': [500] * 10}
                self.fault(None, content_start=start, **parts)
                self.fault(('cell count', place), content_start=start - 1, **parts)
        self.fault(('cell count', 3), cells=32768)
        self.fault(('cell count', 3), cells=65535)
        self.fault(('cell count', 3), cells=32765, content_start=0)
        self.fault(('content start', 5), cells=32764, content_start=0)

    def test_content_start(self):
        for number, place in ((2, 5), (1, 105)):
            self.fault(None, number=number, content_start=512)
            for start in (513, 65535, 0):
                self.fault(('content start', place), number=number, content_start=start)
        self.fault(None, reserved=32, content_start=480)
        self.fault(('content start', 5), reserved=32, content_start=481)
        self.fault(None, size=65536, content_start=0)
        self.fault(('content start', 5), size=65536, reserved=1, content_start=0)
        self.fault(None, size=65536, reserved=1, content_start=65535)

    def test_fragmented_bytes(self):
        for number, place in ((2, 7), (1, 107)):
            self.fault(None, number=number, fragmented=60)
            self.fault(('fragmented bytes', place), number=number, fragmented=61)
            self.fault(('fragmented bytes', place), number=number, fragmented=255)

    def test_pointers(self):
        for number, kind, place in ((2, LEAF, 8), (2, INTERIOR, 12), (1, LEAF, 108), (1, INTERIOR, 112)):
            parts = {'number': number, 'kind': kind}
            self.fault(None, pointers=[400, 511, 450], **parts)
            for wrong in (0, 399, 512, 65535):
                for at in range(3):
                    pointers = [450] * at + [wrong] + [450] * (2 - at)
                    self.fault(('cell pointer', place + 2 * at), pointers=pointers, **parts)
        self.fault(('cell pointer', 10), pointers=[450, 0, 0])
        self.fault(('cell pointer', 8), reserved=8, pointers=[504])
        self.fault(None, reserved=8, pointers=[503])
        self.fault(None, pointers=[450, 450, 0], cells=2)

    def test_order(self):
        """All rules broken from one on: that one is told."""
        parts = {'kind': 7, 'last_link': 3, 'cells': 65535, 'content_start': 600, 'fragmented': 61}
        self.fault(('page type', 0), **parts)
        self.fault(('freeblock chain', 1), **{**parts, 'kind': LEAF})
        parts |= {'kind': LEAF, 'last_link': 0}
        self.fault(('cell count', 3), **parts)
        parts |= {'cells': None, 'pointers': [0]}
        self.fault(('content start', 5), **parts)
        self.fault(('fragmented bytes', 7), **{**parts, 'content_start': 400})
        self.fault(('cell pointer', 8), **{**parts, 'content_start': 400, 'fragmented': 0})


class Answer(unittest.TestCase):
    """What the program has to write."""

    def written(self, content, *words, reason=None):
        return [text.decode() for text in TOOL.written_for(TOOL.judged(words, content, reason))]

    def test_pages(self):
        content = page_of(1).image + bytes(512) + page_of().image[:100]
        self.assertEqual(self.written(content, 'name'), [
            'page size: 512 bytes\nreserved: 0 bytes\npage 1: yes\npage 2: no: page type, offset 0\n'
            'page 3: no: length, offset 100\npages: 3\nyes: 1\nno: 2\n', ''])
        self.assertEqual(self.written(content, 'name', '01'), [
            'page size: 512 bytes\nreserved: 0 bytes\npage 1: yes\npages: 1\nyes: 1\nno: 0\n', ''])

    def test_largest_pages(self):
        content = page_of(1, size=65536, reserved=255).image
        self.assertEqual(content[16:18], b'\0\1')
        self.assertEqual(self.written(content, 'name'), [
            'page size: 65536 bytes\nreserved: 255 bytes\npage 1: yes\npages: 1\nyes: 1\nno: 0\n', ''])

    def test_messages(self):
        right = page_of(1).image
        for message, content, words in (
                ('usage: page_check DATABASE [PAGE]', right, ()),
                ('usage: page_check DATABASE [PAGE]', right, ('name', '1', '2')),
                ('page_check: bad page number: 0', right, ('name', '0')),
                ('page_check: bad page number: 4294967295', right, ('name', '4294967295')),
                ('page_check: bad page number: ', right, ('name', '')),
                ('page_check: name: no database: length', right[:99], ('name',)),
                ('page_check: name: no database: magic, offset 3', right[:3] + b'?' + right[4:], ('name',)),
                ('page_check: name: no database: page size, offset 16', right[:16] + b'\3' + right[17:], ('name',)),
                ('page_check: name: no database: usable size, offset 20', right[:20] + b'\x21' + right[21:], ('name',)),
                ('page_check: name: no such page: 2', right, ('name', '2')),
                ('page_check: name: no such page: 4294967294', right, ('name', '4294967294'))):
            self.assertEqual(self.written(content, *words), ['', message + '\n'])
        self.assertEqual(self.written(b'', 'name', reason='why'), ['', 'page_check: name: why\n'])


class Databases(unittest.TestCase):
    def test_lack(self):
        """A database that lacks what it is made for is an error, not a pass."""
        databases = made_databases()
        self.assertEqual(TOOL.missing_in(databases), [])
        self.assertIn('pages of 512 bytes, holes', TOOL.missing_in([made for made in databases if made.page_size != 512]))
        with mock.patch.object(TOOL, 'recipes', lambda: [TOOL.Recipe('nothing', 512, 0, 'VACUUM;\n')]), \
                self.assertRaisesRegex(SystemExit, 'the databases lack: .*pages of 512 bytes, holes'):
            TOOL.made_databases()
        with mock.patch.object(TOOL, 'has_holes', lambda page: False), mock.patch.object(TOOL, 'made_by', lambda made: made), \
                mock.patch.object(TOOL, 'recipes', lambda: databases), self.assertRaisesRegex(SystemExit, 'page 1, holes'):
            TOOL.made_databases()

    def test_not_as_asked(self):
        with self.assertRaisesRegex(SystemExit, 'other sizes'):
            TOOL.made_by(TOOL.Recipe('name', 1000, 0, 'VACUUM;\n'))
        ask = TOOL.comparing.ask_sqlite
        with mock.patch.object(TOOL.comparing, 'ask_sqlite', lambda *words: ask(*words)[:2]), \
                self.assertRaisesRegex(SystemExit, 'names no b-tree page'):
            TOOL.made_by(TOOL.Recipe('name', 512, 0, 'VACUUM;\n'))
        with self.assertRaisesRegex(SystemExit, 'sqlite3: .*nosuch'):
            TOOL.made_by(TOOL.Recipe('name', 512, 0, 'SELECT nosuch;\n'))

    def test_holes(self):
        self.assertTrue(TOOL.has_holes(page_of(blocks=[(400, 4), (410, 4)], fragmented=1)))
        self.assertFalse(TOOL.has_holes(page_of(blocks=[(400, 4), (410, 4)])))
        self.assertFalse(TOOL.has_holes(page_of(blocks=[(400, 4)], fragmented=1)))

    def test_same_again(self):
        recipe = next(TOOL.recipes())
        self.assertEqual(TOOL.made_by(recipe), TOOL.made_by(recipe))


# Of each fault in a checker: what it is, and the text that is replaced.
START, START_END = 'if start < least or', 'start + LEAST_BLOCK > page.usable_end'
SIZE, SIZE_END = 'if size < LEAST_BLOCK or', 'start + size > page.usable_end'
NEXT = 'link, least = start, start + size'
COUNT, CONTENT = 'page.pointers_end <= page.content_start', 'page.content_start <= page.usable_end'
POINTER, POINTERS = 'content <= pointer < end', "f'>{page.cells}H', page.image, page.pointers_place)\n    content"
HEADER = 'self.header = 100 if number == 1 else 0'
LENGTHS = '{INTERIOR_INDEX: 12, INTERIOR_TABLE: 12, LEAF_INDEX: 8, LEAF_TABLE: 8}'
SIZES = '[512, 1024, 2048, 4096, 8192, 16384, 32768, 65536]\nLEAST'
TYPE_RULE, CHAIN_RULE = "    'page type': type_fault,\n", "    'freeblock chain': chain_fault,\n"
COUNT_RULE, CONTENT_RULE = "    'cell count': cell_count_fault,\n", "    'content start': content_start_fault,\n"
FRAGMENTED_RULE, POINTER_RULE = "    'fragmented bytes': fragmented_fault,\n", "    'cell pointer': pointer_fault,\n"
PAGE_TEST = ("    if asked and not is_page_number(asked[0]):\n"
             "        return Judgement(f'page_check: bad page number: {asked[0]}')\n")
REASON_TEST = "    if reason:\n        return Judgement(f'page_check: {name}: {reason}')\n"
FAULTS = {
    'header at 0 on page 1': (HEADER, 'self.header = 0'),
    'header at 100 on page 2': (HEADER, 'self.header = 100 if number <= 2 else 0'),
    'reserved ignored': ('self.usable_end = page_size - reserved', 'self.usable_end = page_size'),
    'reserved ignored for the usable size alone': ('page.usable_end >= LEAST_USABLE', 'page.page_size >= LEAST_USABLE'),
    'usable size 479 accepted': ('LEAST_USABLE_SIZE = 480', 'LEAST_USABLE_SIZE = 479'),
    'usable size 480 refused': ('LEAST_USABLE_SIZE = 480', 'LEAST_USABLE_SIZE = 481'),
    'page size 256 accepted': (SIZES, f'[256, {SIZES[1:]}'),
    'page size 1000 accepted': (SIZES, f'[1000, {SIZES[1:]}'),
    'page size 65536 refused': (SIZES, SIZES.replace(', 65536]', ']')),
    'page size 1 not taken for 65536': ('65536 if stored == 1 else stored', 'stored'),
    'page size 0 taken for 65536': ('65536 if stored == 1 else stored', 'stored if stored > 1 else 65536'),
    'magic ignored': ("['magic', 'page size', 'usable size']", "['page size', 'usable size']"),
    'magic without its last byte': ('enumerate(MAGIC) if', 'enumerate(MAGIC[:15]) if'),
    'place of the magic': ('next((at for at, byte in enumerate(MAGIC)', 'next((0 for at, byte in enumerate(MAGIC)'),
    'magic told after the page size': ("['magic', 'page size', 'usable size']", "['page size', 'magic', 'usable size']"),
    'usable size told before the page size': ("['magic', 'page size', 'usable size']", "['magic', 'usable size', 'page size']"),
    'type 2 refused': ('if page.type in HEADER_LENGTH', 'if page.type in (5, 10, 13)'),
    'type 5 refused': ('if page.type in HEADER_LENGTH', 'if page.type in (2, 10, 13)'),
    'type 0 accepted': (LENGTHS, LENGTHS.replace('{', '{0: 8, ')),
    'type 1 accepted': (LENGTHS, LENGTHS.replace('{', '{1: 8, ')),
    'type by its low 4 bits': ('return self.image[self.header]\n', 'return self.image[self.header] % 16\n'),
    'index leaf taken for interior': (LENGTHS, LENGTHS.replace('INDEX: 8', 'INDEX: 12')),
    'interior index taken for leaf': (LENGTHS, LENGTHS.replace('INTERIOR_INDEX: 12', 'INTERIOR_INDEX: 8')),
    'interior table taken for leaf': (LENGTHS, LENGTHS.replace('TABLE: 12', 'TABLE: 8')),
    'chain ignored': ("'freeblock chain': chain_fault", "'freeblock chain': lambda page: None"),
    'block a byte before the content accepted': (START, 'if start < least - (link == page.first_link) or'),
    'block at the content start refused': (START, 'if start < least + (link == page.first_link) or'),
    'blocks that touch refused': (NEXT, f'{NEXT} + 1'),
    'blocks that overlap by a byte accepted': (NEXT, f'{NEXT} - 1'),
    'overlap not seen': (NEXT, 'link, least = start, start + 1'),
    'overlap seen in the first 4 bytes alone': (NEXT, 'link, least = start, start + 4'),
    'backward link of the first block accepted': (NEXT, f'{NEXT} if link != page.first_link else page.header'),
    'chain not followed past the first block': (NEXT, 'return None'),
    'chain not followed past the hundredth block': (
        'while start := page.number_at(link):',
        'for _ in range(100):\n        start = page.number_at(link)\n        if not start:\n            break'),
    'block 3 bytes before the end accepted': (START_END, f'{START_END} + 1'),
    'block 4 bytes before the end refused': (START_END, START_END.replace('>', '>=')),
    'start in the reserved region accepted': (START_END, START_END.replace('usable_end', 'page_size')),
    'end of 16 bits of a block': (START_END, f'({START_END.replace(" >", ") % 65536 >")}'),
    'block of 3 bytes accepted': (SIZE, 'if size < LEAST_BLOCK - 1 or'),
    'block of 4 bytes refused': (SIZE, 'if size <= LEAST_BLOCK or'),
    'size a byte past the end accepted': (SIZE_END, f'{SIZE_END} + 1'),
    'size up to the end refused': (SIZE_END, SIZE_END.replace('>', '>=')),
    'size into the reserved region accepted': (SIZE_END, SIZE_END.replace('usable_end', 'page_size')),
    'size of 16 bits and start': (SIZE_END, f'({SIZE_END.replace(" >", ") % 65536 >")}'),
    'place of a later link': ('            return link\n', '            return page.first_link\n'),
    'place of the block for its link': ('            return link\n', '            return start\n'),
    'place of a size': ('            return start + 2\n', '            return start\n'),
    'chain from the end of the pointers on': ('page.first_link, page.content_start', 'page.first_link, page.pointers_end'),
    'chain from a content start cut to the usable end': (
        'page.first_link, page.content_start', 'page.first_link, min(page.content_start, page.usable_end - 100)'),
    'cell count ignored if it reads within the page': (COUNT, 'page.pointers_end <= max(page.content_start, page.usable_end)'),
    'pointers a byte past the content start accepted': (COUNT, f'{COUNT} + 1'),
    'pointers up to the content start refused': (COUNT, COUNT.replace('<=', '<')),
    'cell count of 15 bits': ('self.number_at(self.cell_count_place)', 'self.number_at(self.cell_count_place) % 32768'),
    'place of the cell count': ('self.header + 1, self.header + 3', 'self.header + 1, 3'),
    'content start 0 not taken for 65536': ('(self.content_start_place) or 65536', '(self.content_start_place)'),
    'content start a byte past the end accepted': (CONTENT, f'{CONTENT} + 1'),
    'content start at the end refused': (CONTENT, CONTENT.replace('<=', '<')),
    'content start in the reserved region accepted': (CONTENT, CONTENT.replace('usable_end', 'page_size')),
    '61 fragmented bytes accepted': ('LEAST_BLOCK, MOST_FRAGMENTED = 4, 60', 'LEAST_BLOCK, MOST_FRAGMENTED = 4, 61'),
    '60 fragmented bytes refused': ('LEAST_BLOCK, MOST_FRAGMENTED = 4, 60', 'LEAST_BLOCK, MOST_FRAGMENTED = 4, 59'),
    'pointer a byte before the content accepted': (POINTER, 'content - 1 <= pointer < end'),
    'pointer at the content start refused': (POINTER, 'content < pointer < end'),
    'pointer at the usable end accepted': (POINTER, 'content <= pointer <= end'),
    'pointer at the last usable byte refused': (POINTER, 'content <= pointer < end - 1'),
    'pointer into the reserved region accepted': (POINTER, 'content <= pointer < page.page_size'),
    'last pointer not looked at': (POINTERS, POINTERS.replace('{page.cells}', '{max(page.cells - 1, 0)}')),
    'first pointer alone looked at': (POINTERS, POINTERS.replace('{page.cells}', '{min(page.cells, 1)}')),
    'one pointer too many looked at': (POINTERS, POINTERS.replace('{page.cells}', '{page.cells + 1}')),
    'place of a pointer': ('page.pointers_place + 2 * first', 'page.pointers_place + first'),
    'last wrong pointer told': ('first = next(wrong, None)', 'first = max(wrong, default=None)'),
    'chain told before the type': (TYPE_RULE + CHAIN_RULE, CHAIN_RULE + TYPE_RULE),
    'cell count told before the chain': (CHAIN_RULE + COUNT_RULE, COUNT_RULE + CHAIN_RULE),
    'content start told before the cell count': (COUNT_RULE + CONTENT_RULE, CONTENT_RULE + COUNT_RULE),
    'fragmented bytes told before the content start': (CONTENT_RULE + FRAGMENTED_RULE, FRAGMENTED_RULE + CONTENT_RULE),
    'pointers told before the fragmented bytes': (FRAGMENTED_RULE + POINTER_RULE, POINTER_RULE + FRAGMENTED_RULE),
    'last page not told if it is cut': ('last = -(-len(content) // page_size)', 'last = max(len(content) // page_size, 1)'),
    'place of the length': ('else len(page.image)', 'else page.page_size'),
    '99 bytes taken for a database': ('DATABASE_HEADER_LENGTH = 100', 'DATABASE_HEADER_LENGTH = 99'),
    '100 bytes not taken for a database': ('DATABASE_HEADER_LENGTH = 100', 'DATABASE_HEADER_LENGTH = 101'),
    'page 4294967295 a number': ('MOST_PAGE_NUMBER = 4294967294', 'MOST_PAGE_NUMBER = 4294967295'),
    'page 4294967294 no number': ('MOST_PAGE_NUMBER = 4294967294', 'MOST_PAGE_NUMBER = 4294967293'),
    'page numbers of 32 bits': ('1 <= int(word) <=', '1 <= int(word) % 2**32 <='),
    'page numbers of 64 bits': ('1 <= int(word) <=', '1 <= int(word) % 2**64 <='),
    'page 0 a number': ('1 <= int(word) <=', '0 <= int(word) <='),
    'leading zeros refused': ('1 <= int(word) <=', "word[:1] != '0' and 1 <= int(word) <="),
    'digits of other scripts': ('word.isascii() and ', ''),
    'blanks in a number': ('word.isascii() and word.isdigit()', 'word.isascii() and word.strip().isdigit()'),
    'pages of 16 bits': ('    end = number * page_size', '    end = (number % 65536) * page_size'),
    'page after the last': ('int(asked[0]) > last', 'int(asked[0]) > last + 1'),
    'last page refused': ('int(asked[0]) > last', 'int(asked[0]) >= last'),
    'all pages though one was asked for': ('[int(asked[0])] if asked else', '[1] if False else'),
    'page number told after the file': (PAGE_TEST + REASON_TEST, REASON_TEST + PAGE_TEST),
    'third word ignored': ('len(words) not in (1, 2)', 'not words'),
    'no name in a message': ("{name}: no database: length'", "no database: length'"),
    'no reason in a message': ("{name}: {reason}'", "{name}: no file'"),
    'no end of line': ("'\\n'.join(lines).encode() + b'\\n'", "'\\n'.join(lines).encode()"),
    'count of the right pages': ("f'yes: {len(judgement.pages) - wrong}'", "f'yes: {len(judgement.pages)}'"),
    'page numbers of 8 bits': ("else f'page {number}: yes'", "else f'page {number % 256}: yes'"),
}


def faulty_source(fault):
    return sharing.source_with(fault, FAULTS, TOOL_PATH).split('# ── databases that SQLite makes', maxsplit=1)[0]


# How a program gets its file; the tool's own checker says the rest.
PROGRAM = '''
def answer(folder, *words):
    content, reason = b'', None
    try:
        if words:
            with open(os.path.join(folder, words[0]) if words[0] else '', 'rb') as file:
                content = file.read()
    except OSError as error:
        reason = error.strerror
    return written_for(judged(words, content, reason))
'''


def checker_with(fault=None):
    """The tool's own checker, with the fault if there is one."""
    checker = types.ModuleType('checker')
    checker.__file__ = TOOL_PATH
    exec(compile(faulty_source(fault) + PROGRAM, TOOL_PATH, 'exec'), checker.__dict__)
    return checker


def answering(fault=None):
    """What stands for a program that runs."""
    return checker_with(fault).answer


class Comparison(unittest.TestCase):
    @classmethod
    def setUpClass(cls):
        cls.cases = list(TOOL.all_cases(made_databases(), TOOL.comparing.Choice(False, 1)))

    def test_right_program(self):
        counts = TOOL.compared(self.cases, answering())
        self.assertEqual(counts.never(), [])
        self.assertGreater(sum(counts.images.values()), 5000)
        self.assertGreater(sum(counts.images[kind] for kind in TOOL.CHANGES), 3000)

    def test_planted_faults(self):
        # For the time, no files are written here, and the short ones come first: they find most faults.
        cases = sorted(self.cases, key=lambda case: len(case.content))
        judgements = [TOOL.judged(case.words, case.content, case.reason) for case in cases]
        for fault in FAULTS:
            with self.subTest(fault), self.assertRaisesRegex(TOOL.Difference, 'the program differs from the checker'):
                checker = checker_with(fault)
                for case, judgement in zip(cases, judgements):
                    given = checker.written_for(checker.judged(case.words, case.content, case.reason))
                    TOOL.check(case, judgement, given)

    def test_sqlite_has_a_say(self):
        # A checker that says no to a b-tree page is wrong, even if the program says the same.
        case = next(case for case in self.cases if case.btree_pages)
        self.assertEqual(TOOL.compared([case], answering()).files, {case.kind: 1})
        fault = '60 fragmented bytes refused'
        refused = case._replace(content=page_of(1, fragmented=60).image, btree_pages=(1,))
        with mock.patch.object(TOOL, 'MOST_FRAGMENTED', 59), \
                self.assertRaisesRegex(TOOL.Difference, 'the program says no to a b-tree page of SQLite'):
            TOOL.compared([refused], answering(fault))
        with self.assertRaisesRegex(TOOL.Difference, 'the program says no to a b-tree page of SQLite'):
            TOOL.compared([case._replace(btree_pages=(10**6,))], answering())

    def test_rule_that_nothing_broke(self):
        counts = TOOL.compared([TOOL.Case('a kind', 'right', page_of(1).image)], answering())
        self.assertEqual(len(counts.never()), 10 + 7)
        counts = TOOL.compared([TOOL.Case('a kind', 'wrong', page_of(1, kind=1).image + bytes(512))], answering())
        self.assertNotIn('page type on page 1', counts.never())
        self.assertNotIn('page type on other pages', counts.never())
        self.assertEqual(len(counts.never()), 10 + 7 - 2)

    def test_changes_stay_in_place(self):
        page = page_of(1, pointers=[450, 460], blocks=[(470, 8)])
        change = TOOL.Change('outside', ((99, b'x'), (511, b'xx'), (510, b'yz'), (600, b'x')))
        self.assertEqual(change.image_of(page), page.image[:510] + b'yz')


class Showing(unittest.TestCase):
    def shown(self, case, *difference):
        err = io.StringIO()
        with contextlib.redirect_stderr(err):
            TOOL.show(TOOL.Difference(case, 'why', *difference))
        *lines, kept = err.getvalue().splitlines()
        name = re.fullmatch(r'the file is kept: (\S+)', kept)[1]
        with open(name, 'rb') as file:
            self.assertEqual(file.read(), case.content)
        os.remove(name)
        return lines

    def test_image(self):
        case = TOOL.Case('a kind', 'a file', b'content', images=('the first', 'the second'))
        lines = b'page size: 512 bytes\nreserved: 0 bytes\npage 1: yes\npage 2: yes\npage 3: yes\n'
        self.assertEqual(self.shown(case, (lines, b''), (lines.replace(b'3: yes', b'3: no'), b'')), [
            'page-images: a kind: a file: why', "words: 'database'", 'standard output, line 5', '    expected: page 3: yes',
            '    given:    page 3: no', '    page 3 is the second'])
        self.assertEqual(self.shown(case, (lines, b''), (lines[:-1], b''))[-2:], [
            '    given:    page 3: yes (no end of line)', '    page 3 is the second'])
        self.assertEqual(self.shown(case, (lines, b''), (b'', b'a message\n'))[2:], [
            'standard output, line 1', '    expected: page size: 512 bytes', '    given:    (nothing)',
            'standard error, line 1', '    expected: (nothing)', '    given:    a message'])


class Command(sharing.Words, unittest.TestCase):
    path, program = TOOL_PATH, 'page_check'

    def test_program_with_a_fault(self):
        with tempfile.TemporaryDirectory() as folder:
            program = os.path.join(folder, 'program')
            with open(program, 'w', encoding='utf-8') as file:
                file.write(faulty_source('header at 0 on page 1') + PROGRAM)
                file.write('out, err = answer(".", *sys.argv[1:])\nsys.stdout.buffer.write(out)\nsys.stderr.buffer.write(err)\n')
            os.chmod(program, 0o755)
            run = self.command(program)
        self.assertEqual((run.returncode, run.stdout), (1, ''))
        self.assertIn('the program differs from the checker\n', run.stderr)
        self.assertIn('standard output, line 3\n    expected: page 1: yes\n    given:    page 1: no: page type, offset 0\n',
                      run.stderr)
        kept = re.search(r'the file is kept: (\S+)', run.stderr)[1]
        with open(kept, 'rb') as content:
            self.assertEqual(content.read(16), TOOL.MAGIC)
        os.remove(kept)

    def main(self, cases):
        out = io.StringIO()
        with mock.patch.multiple(TOOL, all_cases=lambda databases, choice: cases, made_databases=list), \
                mock.patch.object(TOOL.comparing, 'asked_for', lambda name: (None, answering())), \
                contextlib.redirect_stdout(out):
            try:
                TOOL.main()
            except SystemExit as end:
                return out.getvalue(), end.code
        return out.getvalue(), 0

    def test_right_program(self):
        # Each rule is broken once on page 1; those that aren't about the header of a database, once on another page too.
        right = page_of(1).image
        broken = [{'kind': 7}, {'last_link': 3}, {'cells': 65535}, {'content_start': 600}, {'fragmented': 61},
                  {'pointers': [0]}]
        contents = [page_of(1, **parts).image for parts in broken]
        contents += [right[:99], b'?' + right[1:], page_of(1, size=513).image, page_of(1, reserved=33).image]
        contents.append(right + b''.join(page_of(**parts).image for parts in broken) + right[:1])
        out, status = self.main([TOOL.Case('a kind', 'a file', content) for content in contents])
        self.assertEqual(status, 0)
        lines = [line.rsplit(maxsplit=2) for line in out.splitlines()]
        self.assertEqual(lines[1], ['a kind', '11', '18'])
        header_rules = ('page size', 'usable size', 'magic')
        self.assertEqual(lines[4:14], [[rule, '1', '0' if rule in header_rules else '1'] for rule in TOOL.RULES])
        self.assertEqual(out.splitlines()[-1], '18 images compared, no difference')

    def test_rule_that_nothing_broke(self):
        out, status = self.main([TOOL.Case('a kind', 'a file', page_of(1).image)] * 3)
        self.assertEqual(out.splitlines()[1].split(), ['a', 'kind', '3', '3'])
        self.assertNotIn('no difference', out)
        self.assertIn('page-images: nothing broke: length on page 1, ', status)


if __name__ == '__main__':
    unittest.main()
