"""What rt builds of a crate: where it stands, and how it is made if it isn't there or is older than its files. For tools/program and
tools/library.

A program stands at crates/NAME/out/NAME, a static library at crates/NAME/out/libNAME.a. The kit builds both for x86-64.
"""

import os
import pathlib
import platform
import shutil
import subprocess
import sys

import crate_map

TOP = pathlib.Path(crate_map.TOP)
PARTS = ('src', 'specs', 'proofs')
MACHINE = 'x86_64'


def give_up(why):
    sys.exit(f'{pathlib.Path(sys.argv[0]).name}: {why}')


def program(name, top=TOP):
    return top / 'crates' / name / 'out' / name


def library(name, top=TOP):
    return top / 'crates' / name / 'out' / f'lib{name}.a'


class Crate:
    """A crate of crates.txt, with those below it."""

    def __init__(self, name, top=TOP):
        self.crates = crate_map.by_name(crate_map.groups(top))
        if name not in self.crates:
            give_up(f'crates.txt has no crate {name}')
        self.name, self.top, self.folder = name, top, top / 'crates' / name
        self.below = []
        todo = [name]
        while todo:
            for other in self.crates[todo.pop()].lists:
                if other in self.crates and other not in self.below:
                    self.below.append(other)
                    todo.append(other)

    def is_current(self, made, *names):
        """Whether a file or folder is there, and no file of these crates is newer."""
        if not made.exists():
            return False
        files = [self.top / 'crates.txt']
        for name in names:
            for part in PARTS:
                for folder, _, inside in os.walk(self.top / 'crates' / name / part):
                    files += [pathlib.Path(folder, file) for file in inside]
        return max(file.stat().st_mtime_ns for file in files) <= made.stat().st_mtime_ns

    def rlib(self, name):
        return self.top / 'crates' / name / 'out/rlib' / f'{name}.rlib'

    def is_left_by_ci(self):
        """Whether the libraries below are those that 'rt ci' proved. It leaves no stamp beside them, and without one rt's other commands
        prove each library a second time."""
        return bool(self.below) and all(self.is_current(self.rlib(name), name) and not (self.rlib(name).parent / 'stamp').exists()
                                        for name in self.below)

    def over_what_ci_left(self, kit):
        """The words by which the kit's compiler proves this crate alone, over the libraries below, and makes its static library."""
        words = [kit / 'bin/rattle', 'build', '--crate-name', self.name, 'src/lib.rt', '--crate-type', 'staticlib', '--links', f'{self.name}=']
        for name in ('std', *self.crates[self.name].lists):
            words += ['--extern', f"{name}={self.rlib(name) if name in self.crates else kit / 'rlibs' / f'{name}.rlib'}"]
        for folder in (kit / 'rlibs', *(self.rlib(name).parent for name in self.below)):
            words += ['-L', f'dependency={folder}']
        return [*words, '--antt-project', kit / 'rattle/logic/antt-project.json', '--logic-built', kit / 'logic_built',
                '--toolchain', kit / 'toolchain', '--jobs', '2', '-o', f'out/lib{self.name}.a']


def run(words, folder):
    """Runs a command in a folder: whether it ended well, and what it said."""
    ran = subprocess.run(words, cwd=folder, stdin=subprocess.DEVNULL, stdout=subprocess.PIPE, stderr=subprocess.STDOUT, encoding='utf-8',
                         errors='replace', check=False)
    return ran.returncode == 0, ran.stdout


def kit():
    """The kit's folder, in which the page stands that 'rt doc' names."""
    return pathlib.Path(subprocess.run(['rt', 'doc'], stdout=subprocess.PIPE, encoding='utf-8', check=True).stdout.strip()).parent


def ready(name, made, verb, top=TOP):
    """The crate's program or library, for which rt's word is the verb. It is proved and built first if it isn't there or is old."""
    if platform.machine() != MACHINE:
        give_up(f'the Rattle kit proves and builds for x86-64 alone, and this machine is {platform.machine()}')
    crate = Crate(name, top)
    if crate.is_current(made, name, *crate.below):
        return made
    if not shutil.which('rt'):
        give_up("the Rattle kit's command rt is not on the path")
    (crate.folder / 'out').mkdir(exist_ok=True)
    if verb == 'lib' and crate.is_left_by_ci() and run(crate.over_what_ci_left(kit()), crate.folder)[0]:
        return made
    print(f'{name}: proving and building it, with all that it stands on; this takes some minutes, once', file=sys.stderr)
    is_well, said = run(['rt', verb], crate.folder)
    if not is_well or not made.is_file():
        sys.stderr.write(said)
        give_up(f"'rt {verb}' in crates/{name} did not make it")
    # rt leaves the file as it is if nothing that it is made of has changed
    os.utime(made)
    return made
