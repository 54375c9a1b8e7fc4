"""Tests of tools/example-database: sqlite3 reads what it lays out, and the damage is what README.md says."""

import os
import pathlib
import tempfile
import unittest

import sharing

TOP = pathlib.Path(sharing.TOOLS).parent
TOOL = sharing.loaded(os.path.join(sharing.TOOLS, 'example-database'))
PAGE_IMAGES = sharing.loaded(os.path.join(sharing.TOOLS, 'page-images'))


def asked(script, content=b''):
    """The lines that sqlite3 writes, of a database with this content."""
    with tempfile.TemporaryDirectory() as folder:
        database = pathlib.Path(folder) / 'database'
        database.write_bytes(content)
        return PAGE_IMAGES.comparing.ask_sqlite(folder, 'database', script)


class ExampleDatabase(unittest.TestCase):
    def setUp(self):
        self.whole = b''.join(TOOL.whole_pages())

    def test_whole_by_sqlite(self):
        self.assertEqual(asked('PRAGMA integrity_check;', self.whole), ['ok'])
        self.assertEqual(asked('PRAGMA page_size; PRAGMA page_count; PRAGMA freelist_count;', self.whole), ['512', '11', '2'])
        self.assertEqual(asked('.filectrl reserve_bytes', self.whole), ['16'])

    def test_content(self):
        self.assertEqual(asked('.dump', self.whole), asked(TOOL.SQL + '.dump'))

    def test_uses_of_pages(self):
        uses = asked('SELECT pageno, name, pagetype FROM dbstat WHERE pageno > 1 ORDER BY pageno;', self.whole)
        self.assertEqual(uses, [
            '2|t|internal', '3|i|internal', '4|big|leaf', '5|big|overflow', '6|i|leaf', '7|i|leaf', '8|t|leaf', '9|t|leaf',
        ])

    def test_damage(self):
        damaged = TOOL.database()
        self.assertEqual(len(damaged), 10 * 512 + 100)
        places = [(at // 512 + 1, at % 512) for at, byte in enumerate(damaged) if byte != self.whole[at]]
        self.assertEqual(places, [(8, 7), (9, 13)])

    def test_judged(self):
        judgement = PAGE_IMAGES.judged(['database'], TOOL.database())
        self.assertEqual(PAGE_IMAGES.written_for(judgement), ((TOP / 'crates/page_check/stdout').read_bytes(), b''))


if __name__ == '__main__':
    unittest.main()
