#!/usr/bin/env python3
"""Runs the commands of README.md and of the documents for people, and compares what they print: tour.py PROGRAM [DOCUMENT ..]

documents.py says which blocks are commands, scripts, files and output. Each document is typed from its beginning to its end in a folder and a network of its own
(it needs unshare and ip). A command that prints anything else than what stands below it is wrong, and so is a script with another status than 0. Scripts that
build, install, or run a program of another make are listed and not run. docs/bac.1 has to be what `help --man` prints, docs/terminal.svg what picture.py draws.
"""

import re
import subprocess
import sys
sys.dont_write_bytecode = True  # no __pycache__ beside the sources

import tempfile
from pathlib import Path

from documents import NAMED, TOP, Desk, blocks_of, commands_of, in_own_network, shortened
from picture import drawn

DOCUMENTS = ('README.md', 'docs/GUIDE.md', 'docs/FORMATS.md', 'docs/OBJECTS.md')
OTHERS = ('sh tests/', 'sudo ', 'make ', 'bacrp ')
WAITS = re.compile(r'^(serving from 65)\d{3}$')  # a busy machine opens the kept values some milliseconds later


def settled(lines):
    """Lines that are the same on a fast and on a busy machine."""
    return [WAITS.sub(r'\1...', line) for line in lines]


class Tour:
    """What was run and compared of a document."""

    def __init__(self, desk):
        self.desk, self.ran, self.held, self.wrong, self.left_out = desk, 0, 0, [], []

    def hold(self, command, wanted, printed):
        self.held += 1
        if printed != wanted:
            self.wrong.append(f'{command}\n  wanted:  {wanted!r}\n  printed: {printed!r}')

    def type(self, block):
        for command, below in commands_of(block):
            self.ran += 1
            self.hold(command, settled(below), settled(self.desk.type(command, len(below))))

    def run(self, block, after):
        script = '\n'.join(block.lines) + '\n'
        if script.startswith(OTHERS):
            self.left_out.append(block.lines[0])
            return
        self.ran += 1
        status, printed = self.desk.run(shortened(script))
        if status:
            self.wrong.append(f'{script}  status {status}, printed: {printed!r}')
        if after and after.kind == 'text':
            self.hold(script, '\n'.join(after.lines) + '\n', printed)

    def take(self, blocks):
        for block, after in zip(blocks, [*blocks[1:], None]):
            if block.kind == 'console':
                self.type(block)
            elif block.kind == 'sh':
                self.run(block, after)
            elif block.kind == 'toml':
                (self.desk.folder / NAMED.search(block.before)[1]).write_text('\n'.join(block.lines) + '\n')


def toured(program, text):
    with tempfile.TemporaryDirectory() as folder:
        desk = Desk(Path(folder), program)
        tour = Tour(desk)
        try:
            tour.take(blocks_of(text))
        finally:
            desk.close()
    return tour


def main(program, *documents):
    wrong = []
    for name in documents or DOCUMENTS:
        tour = toured(program, (TOP / name).read_text())
        wrong += [f'{name}: {fault}' for fault in tour.wrong]
        print(f'{name}: {tour.ran} commands run, {tour.held} outputs compared, not run: {"; ".join(tour.left_out) or "none"}', flush=True)
    page = subprocess.run([Path(program).resolve(), 'help', '--man'], capture_output=True, text=True, check=False).stdout
    if page != (TOP / 'docs/bac.1').read_text():
        wrong.append('docs/bac.1 is not what `help --man` prints: make page')
    if drawn() != (TOP / 'docs/terminal.svg').read_text():
        wrong.append('docs/terminal.svg is not what picture.py draws')
    for fault in wrong:
        print(f'WRONG: {fault}')
    return 1 if wrong else 0


if __name__ == '__main__':
    if len(sys.argv) < 2:
        sys.exit(__doc__)
    in_own_network()
    sys.exit(main(*sys.argv[1:]))
