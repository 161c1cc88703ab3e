#!/usr/bin/env python3
"""Gives one function after the other a body that always answers that memory was refused, and sees that tests fail:
    python3 tests/memory/always.py [WORD..]
takes the rows of always.tsv that have one of the words, or all: the crate, the file, the function, the error, and the crate whose tests are run, unproved, by
`rt try`; of a program with a file stdin each row there is a test. Where a file has several functions of one name, a row has Type::name. A function that tests its arguments first is named by the one that it calls
after these tests, which only answers for memory, or as `name before TEXT`: the refusal stands before the line that begins so. It prints the tests that fail,
and ends with a status other than 0 where none does."""

import itertools
import re
import shutil
import subprocess
import sys
import tempfile
from pathlib import Path

TOP = Path(__file__).resolve().parents[2]


def heads(lines, function):
    """The lines with the head of that function, of the impl of its type where one is named."""
    owner, _, name = function.rpartition('::')
    found, kind = [], ''
    for number, line in enumerate(lines):
        impl = re.match(r'impl(?:<[^>]*>)? (?:\w+ for )?(\w+)', line)
        kind = impl[1] if impl else '' if line == '}' else kind
        if re.match(rf'\s*(pub )?(pub\(crate\) )?fn {name}\b', line) and owner in ('', kind):
            found.append(number)
    return found


def refusing(text, function, error):
    """The text of a file in which that function refuses: where its body begins, or before the line that is named."""
    lines = text.split('\n')
    function, _, before = function.partition(' before ')
    found = heads(lines, function)
    if len(found) != 1:
        raise SystemExit(f'{len(found)} functions {function}')
    indent = re.match(r'\s*', lines[found[0]]).group()
    end = lines.index(indent + '}', found[0])
    body = next(number for number in range(found[0], end) if lines[number] == indent + '{' or lines[number].endswith(' {'))
    places = [number for number in range(body + 1, end) if lines[number].lstrip().startswith(before)]
    if not places:
        raise SystemExit(f'{function} has no line that begins with {before}')
    lines.insert(places[0], f'{indent}    let is_refused = true; if is_refused {{ return Err({error}); }}')
    return '\n'.join(lines)


def rows_that_differ(folder):
    """The titles of the rows of a program that print something else than its file stdout has."""
    with open(folder / 'stdin') as rows:
        ran = subprocess.run(['rt', 'try', '--seconds', '900'], cwd=folder, stdin=rows, capture_output=True, text=True)
    if not ran.stdout:
        raise SystemExit(f'{folder}: the rows did not run\n{ran.stderr}')
    wanted, printed = ((text.split('\n=')) for text in ((folder / 'stdout').read_text(), ran.stdout))
    return [row.split('\n')[0].replace(' ', '_') for row in wanted if row not in printed]


def failing(row, folder):
    """The tests that fail in a copy of the repository with that body."""
    crate, file, function, error, tests = row
    path = folder / 'crates' / crate / file
    kept = path.read_text()
    path.write_text(refusing(kept, function, error))
    if (folder / 'crates' / tests / 'stdin').exists():
        differ = rows_that_differ(folder / 'crates' / tests)
        path.write_text(kept)
        return differ
    ran = subprocess.run(['rt', 'try', '--test'], cwd=folder / 'crates' / tests, capture_output=True, text=True)
    path.write_text(kept)
    said = ran.stdout + ran.stderr
    if 'test result:' not in said:
        raise SystemExit(f'{crate} {function}: the tests did not run\n{said}')
    return re.findall(r'^test (\S+) \.\.\. FAILED', said, re.M)


def main(words):
    rows = [line.split('\t') for line in (TOP / 'tests/memory/always.tsv').read_text().splitlines()]
    rows = [row for row in rows if not words or set(words) & set(row)]
    for crate, file, function, error, _ in rows:  # a row that names nothing is told before any test is run
        refusing((TOP / 'crates' / crate / file).read_text(), function, error)
    passed = 0
    with tempfile.TemporaryDirectory() as name:
        folder = Path(name)
        shutil.copy(TOP / 'crates.txt', folder)
        shutil.copytree(TOP / 'crates', folder / 'crates', ignore=shutil.ignore_patterns('out', 'must-fail'))
        for row in rows:
            tests = failing(row, folder)
            passed += not tests
            print(f'{row[0]} {row[2]}: {len(tests)} fail in {row[4]}: {" ".join(tests[:3]) or "NONE"}', flush=True)
    return 1 if passed else 0


if __name__ == '__main__':
    sys.exit(main(sys.argv[1:]))
