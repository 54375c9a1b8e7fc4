"""The kit's 'rt check' on a crate of this repository: for tools/proof-skeleton and tools/proof-paths."""

import os
import shutil
import subprocess
import sys

TOP = os.path.dirname(os.path.dirname(os.path.abspath(__file__)))


def usage(words):
    print(f'usage: {words}', file=sys.stderr)
    sys.exit(2)


def run(crate, *words, top=TOP):
    """What 'rt check' says of a crate, all of it as its stdout."""
    folder = os.path.join(top, 'crates', crate)
    if not os.path.isdir(folder):
        sys.exit(f'{crate}: there is no crate of that name in crates')
    if not shutil.which('rt'):
        sys.exit(f"{crate}: the Rattle kit's command rt is not on the path")
    return subprocess.run(['rt', 'check', *words], cwd=folder, stdin=subprocess.DEVNULL, stdout=subprocess.PIPE, stderr=subprocess.STDOUT,
                          encoding='utf-8', check=False)
