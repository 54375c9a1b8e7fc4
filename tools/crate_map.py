"""crates.txt as a map, and what the crates' files cite: for tools/architecture, and for the tests that hold the one to the other.

In crates.txt a line '## ..' begins a group, with its heading. The comment lines right above a crate's line say what the crate is.
"""

import collections
import os
import re

TOP = os.path.dirname(os.path.dirname(os.path.abspath(__file__)))
# The kit's libraries: a crate lists those that it cites too, and they are no crates of this repository.
KIT = {'bytes', 'check', 'io', 'libc', 'os'}
# What is no code in a file: comments, and in Rattle what stands in a byte string or is a byte.
NO_CODE = {'.rt': r"""b'(?:\\.|[^'\\])+'|"(?:\\.|[^"\\])*"|//[^\n]*""", '.antt': r'\{-.*?-\}|(?:^|(?<=\s))--[^\n]*'}

Group = collections.namedtuple('Group', 'heading crates')
# A crate's name, what it is, and what its line lists, in that order; and 'staticlib' if it is a library for C and Rust, and else nothing.
Crate = collections.namedtuple('Crate', 'name about lists kind', defaults=[''])


def groups(top=TOP):
    """The groups of crates.txt in its order, each with its crates."""
    found, about = [], []
    with open(os.path.join(top, 'crates.txt'), encoding='utf-8') as file:
        for number, line in enumerate(file, 1):
            first, colon, lists = line.partition('#')[0].partition(':')
            name, _, kind = first.strip().partition(' ')
            if colon:
                if not found or not about:
                    raise ValueError(f"crates.txt, line {number}: {name} needs a heading '## ..' and, right above it, '# what it is'")
                found[-1].crates.append(Crate(name, ' '.join(about), lists.split(), kind.strip()))
            elif line.startswith('## '):
                found.append(Group(line[3:].strip(), []))
            about = about + [line[1:].strip()] if line.startswith('# ') else []
    return found


def by_name(listed):
    """Each crate of the groups under its name, in their order."""
    return {crate.name: crate for group in listed for crate in group.crates}


def directly(crates):
    """For each crate the crates that it lists and reaches through no other. They have to stand from the ground up."""
    below, direct = {}, {}
    for name, crate in crates.items():
        lists = [other for other in crate.lists if other in crates]
        through = set().union(*(below[other] for other in lists))
        below[name] = through | set(lists)
        direct[name] = [other for other in lists if other not in through]
    return direct


def _texts(top, name, folder, ending):
    """The code in each file of a crate's folder."""
    for path, _, files in sorted(os.walk(os.path.join(top, 'crates', name, folder))):
        for file in sorted(files):
            if file.endswith(ending):
                with open(os.path.join(path, file), encoding='utf-8') as text:
                    yield re.sub(NO_CODE[ending], '', text.read(), flags=re.MULTILINE | re.DOTALL)


def _paths(text):
    """Each path in Rattle code by its first two words: answer::Answer is ('answer', 'Answer')."""
    for first, second, several in re.findall(r'(?<![\w:])(\w+)::(?:(\w+)|\{([^}]*)\})', text):
        yield from ((first, word) for word in re.findall(r'\w+', second or several))


def _types(text):
    """Each struct and enum that Rattle code declares, and the words in it that can be types."""
    for match in re.finditer(r'\b(struct|enum)\s+(\w+)', text):
        depth, held = 0, []
        for word in re.findall(r'[{(;})]|\w+', text[match.end():]):
            depth += (word in '{(') - (word in '})')
            # an enum's variants stand at depth 1, and what they hold is deeper
            if word[0].isupper() and depth > (match[1] == 'enum'):
                held.append(word)
            if depth == 0 and word in ';})':
                break
        yield match[2], held


class Sources:
    """What the crates' files say. A type or a function is known by its crate and its name."""

    def __init__(self, crates, top=TOP):
        self.crates, self.top = crates, top
        self.code = {name: list(_texts(top, name, 'src', '.rt')) for name in crates}
        self.modules = {name: set(re.findall(r'\bmod\s+(\w+)', '\n'.join(code))) for name, code in self.code.items()}
        # the paths into other crates in each crate's code
        self.paths = {name: {path for text in code for path in _paths(text) if self._is_other(path[0], name)}
                      for name, code in self.code.items()}
        # what a crate hands on of another: under its own name, and under that of the other
        self.handed_on = {(name, path[1]): path for name, code in self.code.items() for text in code
                          for used in re.findall(r'\bpub use ([^;]*);', text) for path in _paths(used) if path in self.paths[name]}
        self.types = {(name, declared): held for name, code in self.code.items() for text in code for declared, held in _types(text)}

    def _is_other(self, word, name):
        """Whether a word in a crate's files is another crate. In code a module of its own hides a crate of that name."""
        return word != name and (word in self.crates or word in KIT) and word not in self.modules[name]

    def _origin(self, path):
        """A path into the crate that declares what it leads to."""
        while path in self.handed_on:
            path = self.handed_on[path]
        return path

    def _among(self, words, name):
        """The types among some words of a crate's code."""
        for word in words:
            yield name, word
            yield from (self._origin(path) for path in self.paths[name] if path[1] == word)

    def named(self, name):
        """The crates that the crate's files name."""
        clauses = [*self.code[name], *_texts(self.top, name, 'specs', '.antt'), *_texts(self.top, name, 'proofs', '.antt')]
        libraries = {word for text in clauses for word in re.findall(r'Rattle\.(\w+)', text)}
        return {first for first, _ in self.paths[name]} | (libraries & (KIT | {*self.crates})) - {name}

    def _declaring(self, types, name):
        """The crates, other than the one named, that declare some types or what those hold."""
        todo, seen = set(types), set()
        while todo:
            one = todo.pop()
            if one in self.types and one not in seen:
                seen.add(one)
                todo.update(self._among(self.types[one], one[0]))
        return {crate for crate, _ in seen} - {name}

    def held(self, name):
        """The crates that declare a type which the crate's code names, or which such a type holds. rt has to be able to name the types of
        the values that code reaches."""
        return self._declaring(map(self._origin, self.paths[name]), name)

    def handed(self, name):
        """The same for the signatures of the functions that the code may call. rt asks for those whose values it reaches."""
        words = {word for text in self.code[name] for word in re.findall(r'\w+', text)}
        below = self.named(name) | {self._origin(path)[0] for path in self.paths[name]}
        return self._declaring((one for other in below - KIT for text in self.code[other]
                                for function, signature in re.findall(r'\bfn\s+(\w+)([^{;]*)', text) if function in words
                                for one in self._among(re.findall(r'\w+', signature), other)), name)

    def in_edits(self, name):
        """Each must-fail edit of a crate with the other crates that are named in what it writes."""
        folder = os.path.join(self.top, 'crates', name, 'must-fail')
        for file in sorted(os.listdir(folder) if os.path.isdir(folder) else []):
            with open(os.path.join(folder, file), encoding='utf-8') as edit:
                new = ''.join(line for line in edit if line.startswith('new:'))
            words = {*re.findall(r'Rattle\.(\w+)', new), *(first for first, _ in _paths(new))}
            yield file, sorted(word for word in words if self._is_other(word, name))

    def faults(self):
        """Where crates.txt is not what the files say: a sentence for each."""
        place = {name: at for at, name in enumerate(self.crates)}
        for name, crate in self.crates.items():
            cites = self.named(name) | self.held(name) | (self.handed(name) & {*crate.lists})
            # from the nearest down to the ground, and then the kit's
            line = sorted(cites, key=lambda other: (-place.get(other, -1), other))
            if crate.lists != line:
                yield f"crates.txt: by its files the line of {name} is '{' '.join([f'{name} {crate.kind}'.strip() + ':', *line])}'"
            yield from (f'crates.txt: {name} stands above {other}, which it cites' for other in line if place.get(other, -1) > place[name])
            yield from (f'crates/{name}/must-fail/{file} names {other}, which {name} does not list: it is refused for that name'
                        for file, others in self.in_edits(name) for other in others if other not in line)
