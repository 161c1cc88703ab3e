#!/usr/bin/env python3
"""foreign.py PROGRAM: `serve --keep`, `keep` and `keep --forget` refuse a database of another program and a file that is none, and leave both as they were."""
import hashlib
import os
import sqlite3
import subprocess
import sys
import tempfile

TEXTS = {'tiles': 'a database of another program', 'letter': 'not a database, or a damaged one'}


def make(folder):
    """A database with a table of another program, and a file of plain text. Returns their paths by name."""
    paths = {name: os.path.join(folder, name) for name in TEXTS}
    with sqlite3.connect(paths['tiles']) as database:
        database.execute('CREATE TABLE tiles (id INTEGER PRIMARY KEY, png BLOB)')
        database.execute("INSERT INTO tiles VALUES (1, x'00')")
    database.close()
    with open(paths['letter'], 'w', encoding='utf-8') as file:
        file.write('Dear plant, ' * 100)
    return paths


def digest(path):
    with open(path, 'rb') as file:
        return hashlib.sha256(file.read()).hexdigest()


def faults(program, folder):
    """What is wrong, a line for each."""
    for name, path in make(folder).items():
        before = digest(path)
        for words in (['serve', '--port', '47899', '--turns', '1', '--keep', path], ['keep', path], ['keep', path, '--forget', 'analog-input:0']):
            done = subprocess.run([program, *words], capture_output=True, text=True, timeout=60)
            got = (done.returncode, done.stdout, done.stderr)
            if got != (2, '', f'{path}: {TEXTS[name]}\n'):
                yield f'{" ".join(words)}: {got}'
        if digest(path) != before:
            yield f'{name} changed'


def main(program):
    with tempfile.TemporaryDirectory() as folder:
        found = list(faults(program, folder))
    for fault in found:
        print(f'WRONG: {fault}')
    print(f'{len(TEXTS)} files of others, 6 commands: {len(found)} wrong')
    return 1 if found else 0


if __name__ == '__main__':
    sys.exit(main(sys.argv[1]))
