"""Many servers polled by one `bac ask --every`, while some are dead.

    python3 tests/outside/polling.py PROGRAM [SERVERS [DEAD [ROUNDS [POINTS]]]]

Each server is a process of its own at an address of 127.0.0.0/8; the first of them, and the last ones, are never started: so many are dead. One list has so many
points of each, server after server, and is asked in rounds, one a second. It prints how many lines were answered and how many were not, how long after the round
before the rounds began, and how long the answers of a round took, from the first to the last, at the most; the status is 1 where a line of a live server was not
answered, one of a dead one was, or lines are missing or out of order."""

import collections
import csv
import datetime
import re
import subprocess
import sys
import tempfile

PORT = 47808
POINTS = ['analog-input:5 present-value', 'analog-value:1 present-value', 'device:1 object-name']
TIMEOUT = 2
LATE = re.compile(r'round \d+ is \d+ ms late')


def address_of(place):
    return f'127.0.{1 + place // 250}.{1 + place % 250}'


def list_of(servers, points):
    """A line for each point of each server, server after server."""
    return ''.join(f'@{address_of(place)} read {POINTS[point % len(POINTS)]}\n' for place in range(servers) for point in range(points))


def started(program, places, seconds):
    """The processes of the servers at these places, once each listens."""
    found = []
    for place in places:
        words = [program, 'serve', '--port', str(PORT), '--at', address_of(place), '--seconds', str(seconds)]
        found.append(subprocess.Popen(words, stdout=subprocess.DEVNULL, stderr=subprocess.PIPE, text=True))
    for process in found:
        if not process.stderr.readline().startswith('listening '):
            raise SystemExit('a server does not listen')
    return found


def rounds_of(process, lines):
    """The rows of each round, and those that are left over."""
    found, current = [], []
    for row in csv.DictReader(process.stdout):
        current.append(row)
        if len(current) == lines:
            found.append(current)
            current = []
    return found, current


def times_of(rows):
    """When these lines were answered, in seconds."""
    return [datetime.datetime.fromisoformat(row['time']).timestamp() for row in rows if row['status'] == 'answered']


def main(program, servers=200, dead=2, rounds=10, points=1):
    lines = servers * points
    first, last = min(dead, 1), servers - max(dead - 1, 0)
    processes = started(program, range(first, last), 60 + rounds * 10)
    try:
        with tempfile.NamedTemporaryFile('w', suffix='.txt') as file:
            file.write(list_of(servers, points))
            file.flush()
            words = ['--csv', '--timeout', str(TIMEOUT), '--window', '64', '--every', '1', '--times', str(rounds), '--lines', file.name]
            asking = subprocess.Popen([program, 'ask', *words], stdout=subprocess.PIPE, stderr=subprocess.PIPE, text=True)
            found, left = rounds_of(asking, lines)
            # with a dead server a round takes as long as its timeout, so later ones say that they are late
            complaint = [line for line in asking.stderr.read().splitlines() if not (dead and LATE.fullmatch(line))]
            status = asking.wait()
    finally:
        for process in processes:
            process.kill()
            process.wait()
    counts, wrong = collections.Counter(), 0
    for current in found:
        for place, row in enumerate(current):
            server = place // points
            counts[row['status']] += 1
            asked = row['peer'].split(':')[0], f"{row['object']} {row['property']}"
            wrong += asked != (address_of(server), POINTS[place % points % len(POINTS)]) or (row['status'] == 'answered') != (first <= server < last)
    answers = [times_of(current) for current in found]
    begins = [min(times) for times in answers if times]
    gaps = [later - before for before, later in zip(begins, begins[1:])]
    told = ' '.join(f'{kind.replace(" ", "-")}={count}' for kind, count in sorted(counts.items()))
    took = max((max(times) - min(times) for times in answers if times), default=0)
    print(f'servers={servers} dead={dead} rounds={len(found)} lines={lines} {told} status={status}')
    print(f'rounds began after {min(gaps, default=0):.2f} to {max(gaps, default=0):.2f} s; the answers of a round came within {took:.3f} s')
    if wrong or left or complaint or len(found) != rounds or status != (1 if dead else 0):
        print(f'WRONG: {wrong} lines, {len(left)} left over, {complaint!r}')
        return 1
    return 0


if __name__ == '__main__':
    sys.exit(main(sys.argv[1], *map(int, sys.argv[2:])))
