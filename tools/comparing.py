"""What tools/wal-logs and tools/page-images share: which cases are taken, how SQLite is asked, how a proved program is run."""

import argparse
import os
import pathlib
import random
import shutil
import subprocess
import sys

TOP = pathlib.Path(__file__).resolve().parent.parent
MOST_SECONDS = 60


def tool():
    return pathlib.Path(sys.argv[0]).name


def give_up(why):
    sys.exit(f'{tool()}: {why}')


class Choice:
    """What is taken of the cases: all that --all has, or the gate's share, by chance."""

    def __init__(self, everything, seed):
        self.everything = everything
        self.chance = random.Random(seed)

    def of(self, cases, share, share_of_all=10**9):
        cases = list(cases)
        share = share_of_all if self.everything else share
        return cases if len(cases) <= share else self.chance.sample(cases, share)


def ask_sqlite(folder, database, script):
    """The lines that the sqlite3 command writes. The database stays open to the end of the script."""
    command = ['sqlite3', '-batch', '-bail', database]
    end = subprocess.run(command, cwd=folder, input=script, text=True, capture_output=True, check=False)
    if end.returncode or end.stderr:
        give_up(f'sqlite3: {end.stderr.strip()}')
    return end.stdout.splitlines()


def runner(command):
    """Runs the program in a folder, on some words: what it writes to standard output and to standard error."""
    def run(folder, *words):
        try:
            end = subprocess.run([*command, *words], cwd=folder, stdin=subprocess.DEVNULL, capture_output=True, check=False,
                                 timeout=MOST_SECONDS)
        except subprocess.TimeoutExpired as late:
            return late.stdout or b'', f'(not done after {MOST_SECONDS} seconds)\n'.encode()
        except OSError as error:
            give_up(f'{command[0]}: {error.strerror}')
        # A program has no exit status to give, but it may have been ended by a signal.
        ended = f'(ended by signal {-end.returncode})\n' if end.returncode < 0 else ''
        return end.stdout, end.stderr + ended.encode()
    return run


def said_by_tool(name):
    """The proved program, which is built if it isn't there."""
    said = subprocess.run([TOP / 'tools/program', name], stdout=subprocess.PIPE, text=True, check=False)
    if said.returncode:
        sys.exit(said.returncode)
    return pathlib.Path(said.stdout.rstrip('\n'))


def command_of(name, program):
    program = program.resolve() if program else said_by_tool(name)
    if not os.access(program, os.X_OK) or not program.is_file():
        give_up(f"{program} is not there; 'rt run' in crates/{name} proves and builds crates/{name}/out/{name}")
    return [program]


def asked_for(name):
    """By the words of the command: the choice of cases, and what runs the program, which is the proved one if none is said."""
    parser = argparse.ArgumentParser(prog=f'tools/{tool()}')
    parser.add_argument('--all', action='store_true', dest='everything', help="all cases, not the gate's share")
    parser.add_argument('--seed', type=int, default=1, metavar='N')
    parser.add_argument('program', nargs='?', type=pathlib.Path)
    options = parser.parse_args()
    run = runner(command_of(name, options.program))
    if not shutil.which('sqlite3'):
        give_up('the command sqlite3 is not on the path; tools/needs installs it')
    return Choice(options.everything, options.seed), run
