#!/usr/bin/env python3
"""Asks docs/plant.toml with `bac read`, `bac write` and `bac points`: points.py PROGRAM

The table of `points` has a line for each object, with the name, value, units and description of the document. Each value is read alone and with names before it,
as JSON and as CSV. Set-points are written and read back; values beyond the limits, names that are none and objects that are none are refused. A port where nobody
listens is told at once, and a socket that never answers once the time is over.
"""

import csv
import io
import json
import socket
import subprocess
import sys
sys.dont_write_bytecode = True  # no __pycache__ beside the sources

import time
import tomllib
from pathlib import Path

from processes import ASK_SECONDS, LOOPBACK, Server, free_port

DOCUMENT = Path(__file__).resolve().parents[2] / 'docs/plant.toml'
TURNS = 100000


class Checks:
    """Runs the program, and counts what is wrong."""

    def __init__(self, program, port):
        self.program, self.port, self.count, self.wrong = program, port, 0, 0

    def run(self, command, *words, to=None):
        node = f'{LOOPBACK}:{self.port}' if to is None else to
        line = [self.program, command, '--to', node, *words]
        return subprocess.run(line, capture_output=True, text=True, timeout=ASK_SECONDS)

    def expect(self, what, found, wanted):
        self.count += 1
        if found != wanted:
            self.wrong += 1
            print(f'{what}: {found!r}, expected {wanted!r}')

    def prints(self, words, out, err='', status=0, **where):
        done = self.run(*words, **where)
        self.expect(' '.join(words), (done.stdout, done.stderr, done.returncode), (out, err, status))


def object_word(thing):
    return f"{thing['type']}:{thing['instance']}"


def value_text(thing):
    """The present-value of an object of the document as people write it; nothing where it has none."""
    value = thing.get('present-value', {})
    if isinstance(value, str):
        return value
    if 'real' in value:
        return repr(float(value['real']))
    if 'enumerated' in value:
        return value['enumerated']
    return str(value['unsigned']) if 'unsigned' in value else ''


def cells(thing):
    return [object_word(thing), thing['name'], value_text(thing), thing.get('units', ''), thing.get('description', {}).get('text', '')]


def check_points(checks, things):
    done = checks.run('points', '--device', '100')
    lines = [line.split('\t') for line in done.stdout.splitlines()]
    checks.expect('status', (done.returncode, done.stderr), (0, ''))
    checks.expect('columns', lines[:1], [['object', 'name', 'value', 'units', 'description', 'status']])
    checks.expect('points', sorted(line[:5] for line in lines[1:]), sorted(cells(thing) for thing in things))
    records = [json.loads(line) for line in checks.run('points', '--json').stdout.splitlines()]
    texts = [[record[name] or '' for name in lines[0][:5]] for record in records]
    checks.expect('records', sorted(texts), sorted(cells(thing) for thing in things))
    checks.expect('faults', [record['faults'] for record in records if record['faults']], [])
    rows = list(csv.reader(io.StringIO(checks.run('points', '--csv').stdout)))
    checks.expect('rows', rows, lines)
    # a device answers for its own instance, and for 4194303
    checks.prints(['points'], done.stdout, '', 0)
    unlisted = 'object-list: error object unknown-object (1:31)\nthe device has no such object: leave out --device, or give its own instance; bac read TYPE:INSTANCE reads one object\n'
    checks.prints(['points', '--device', '7'], '', f'device:7 {unlisted}', 1)


def check_reads(checks, things):
    valued = [thing for thing in things if value_text(thing)]
    for thing in valued:
        checks.prints(['read', object_word(thing)], value_text(thing) + '\n')
    words = [word for thing in things for word in (object_word(thing), 'object-name')]
    checks.prints(['read', *words], ''.join(f"{object_word(thing)}\tobject-name\t{thing['name']}\n" for thing in things))
    objects = [object_word(thing) for thing in valued]
    records = [json.loads(line) for line in checks.run('read', '--json', *objects).stdout.splitlines()]
    checks.expect('json', [record['object'] for record in records], objects)
    rows = list(csv.DictReader(io.StringIO(checks.run('read', '--csv', *objects).stdout)))
    checks.expect('csv', [row['object'] for row in rows], objects)


def check_writes(checks):
    checks.prints(['write', 'analog-value:1', '22.5'], 'written\n')
    checks.prints(['read', 'analog-value:1'], '22.5\n')
    checks.prints(['write', 'analog-value:1', 'present-value', '21.5', '--priority', '8'], 'written\n')
    checks.prints(['write', 'analog-value:1', 'description', 'set-point, zone'], 'written\n')
    checks.prints(['read', 'analog-value:1', 'description'], 'set-point, zone\n')
    checks.prints(['write', 'analog-value:1', 'description', '100 % of zone'], 'written\n')
    checks.prints(['read', 'analog-value:1', 'description'], '100 % of zone\n')
    beyond = 'analog-value:1 present-value: error property value-out-of-range (2:37)\n'
    checks.prints(['write', 'analog-value:1', '35.5'], '', beyond, 1)
    checks.prints(['write', 'analog-value:1', 'warm'], '', 'bad words: "warm" is not a number, such as 21.5\n', 2)
    checks.prints(['write', 'analog-value:1', '1e39'], '', 'bad words: "1e39" is beyond what a real holds (3.4e38)\n', 2)
    checks.prints(['write', 'analog-input:1', '3'], '', 'analog-input:1 present-value: error property write-access-denied (2:40)\n', 1)
    checks.prints(['read', 'analog-value:1'], '21.5\n')


def check_silence(checks):
    with socket.socket(socket.AF_INET, socket.SOCK_DGRAM) as mute:
        mute.bind((LOOPBACK, 0))
        node = f'{LOOPBACK}:{mute.getsockname()[1]}'
        begun = time.monotonic()
        done = checks.run('read', '--timeout', '0.5', 'analog-input:1', to=node)
        took = time.monotonic() - begun
        checks.expect('silent', (done.stdout, done.stderr.splitlines()[:1], done.returncode), ('', [f'no answer from {node} (waited 0.5 s)'], 1))
        checks.expect('seconds', 0.5 <= took < 5, True)
    node = f'{LOOPBACK}:{free_port()}'
    begun = time.monotonic()
    done = checks.run('points', to=node)
    took = time.monotonic() - begun
    checks.expect('nobody', (done.stdout, done.stderr.splitlines()[:1], done.returncode), ('', [f'no answer from {node} (nothing listens at this port)'], 1))
    checks.expect('at once', took < 2, True)


def main(program):
    with DOCUMENT.open('rb') as document:
        things = tomllib.load(document)['object']
    with Server(program, TURNS, options=['--objects', str(DOCUMENT), '--reuse']) as server:
        checks = Checks(program, server.port)
        check_points(checks, things)
        check_reads(checks, things)
        check_writes(checks)
        check_silence(checks)
        performed = server.finish()
    print(f'objects={len(things)} checks={checks.count} performed={performed} wrong={checks.wrong}')
    return checks.wrong != 0


if __name__ == '__main__':
    if len(sys.argv) != 2:
        raise SystemExit(__doc__)
    sys.exit(main(sys.argv[1]))
