"""Every name that a file of a crate brings in by a `use` line, the file says again."""

import glob
import os
import re
import unittest

import sharing  # by which the tools' folder is searched for modules
import crate_map

# `use M.{a, b}` and `use M as m`, in Rattle `ghost use ..`; and Rattle's own `use m::{A, B}`, which no `pub` passes on.
USE = re.compile(r'^(ghost )?use ([^\s{;]+?)(?:(?:\.|::)\{([^}]*)\}| as ([^\s;]+))?;?$', re.MULTILINE)
CLAUSE = re.compile(r'^ *(?:(?:pub )?ghost \w+(?::| =)|(?:requires|ensures)(?: \w+)?) \{.*?\}[;,]?$', re.MULTILINE | re.DOTALL)
# A trait of std may be brought in for the calls of what it has: by these words it is said, too.
CALLED = {'Write': {'write', 'writeln', 'write_all'}}


def brought(use):
    """The names that the line brings in, as the file has to say them."""
    _, path, names, alias = use.groups()
    several = [name.split(' as ')[-1].strip('«»') for name in re.split(r',\s*', names.strip()) if name] if names else []
    return several or [alias or path.split('::')[-1]]


def unsaid(text, ending):
    """The names that are brought in and not said again, in their order."""
    code = re.sub(crate_map.NO_CODE[ending], '', text, flags=re.DOTALL | re.MULTILINE)
    rest = USE.sub('', code)
    clauses = rest if ending == '.antt' else '\n'.join(CLAUSE.findall(rest))
    # a word of antt may have nearly any sign, and of an operator such as ◌≡◌ each part is a word
    words = {*re.findall(r'[^\s(){}\[\],;.«»]+', clauses), *(['[]'] if '[]' in clauses else [])}
    own = set(re.findall(r'\w+', CLAUSE.sub('', rest)))
    for use in USE.finditer(code):
        antt = ending == '.antt' or use[1]
        for name in brought(use):
            parts = name.split('◌')
            if not (name in words or all(part in words for part in parts if part) if antt else own & {name, *CALLED.get(name, [])}):
                yield name


class Imports(unittest.TestCase):
    def test_of_the_crates(self):
        found = []
        for part in 'src', 'specs', 'proofs':
            for path in sorted(glob.glob(os.path.join(crate_map.TOP, 'crates/*', part, '**/*.*'), recursive=True)):
                ending = os.path.splitext(path)[1]
                if ending in crate_map.NO_CODE:
                    with open(path, encoding='utf-8') as file:
                        found += [f'{os.path.relpath(path, crate_map.TOP)}: {name}' for name in unsaid(file.read(), ending)]
        self.assertEqual(found, [])

    def test_of_antt(self):
        text = '-- refl and sum\nuse A.{◌≡◌, ◌+◌, [], f, g as h, refl}\nuse A.B as b\nuse A.C as c\n\nlaw : f [] ≡ b.x -- c.x\nlaw = h.0\n'
        self.assertEqual(list(unsaid(text, '.antt')), ['◌+◌', 'refl', 'c'])
        self.assertEqual(list(unsaid('use A.{◌+◌, cons, pair}\nx = cons_of l ++ pair.fst\n', '.antt')), ['◌+◌', 'cons'])

    def test_of_rattle(self):
        text = ('use a::Head;\nuse a::{Slot, Seat};\npub use a::Key;\nghost use N.{◌/◌, ◌≤◌};\nghost use L.{length, take, «by_key», whole};\n'
                'fn f(h: Head) -> u32\n    requires short { length «by_key» ≤ 3 }\n    ensures {\n        whole result\n    }\n'
                '{\n    h.take / 2 // Slot\n}\n')
        self.assertEqual(list(unsaid(text, '.rt')), ['Slot', 'Seat', '◌/◌', 'take'])

    def test_of_a_trait(self):
        text = 'use std::io::{Error, Write};\nfn f(out: &impl Print) -> Result<(), Error> {\n    out.%s(b"x")\n}\n'
        self.assertEqual([list(unsaid(text % call, '.rt')) for call in ('write_all', 'read')], [[], ['Write']])


if __name__ == '__main__':
    unittest.main()
