#!/usr/bin/env python3
"""Times `bac simulate` of a script beside the same events in a world: compare.py BAC, run in a crate made of this folder; docs/BENCHMARKS.md says how."""

import os
import resource
import statistics
import subprocess
import sys
import tempfile
from pathlib import Path

FOLDER = Path(__file__).resolve().parent
ROUNDS = 100_000
EVENTS = 4 * ROUNDS
RUNS = 7


def write_script(path):
    """An ask, its request and its reply, which come, and a pause: so many rounds."""
    with open(path, 'w') as file:
        file.write('nodes 2\n')
        for number in range(0, 2 * ROUNDS, 2):
            file.write(f'ask 0 1 read 0:5 85\ndeliver {number}\ndeliver {number + 1}\nadvance 2200\n')


def simulated(bac, script):
    """The processor time of a run, in nanoseconds, and how many of its asks ended."""
    with tempfile.TemporaryFile('w+') as output:
        before = resource.getrusage(resource.RUSAGE_CHILDREN)
        subprocess.run([bac, 'simulate', script], check=True, stdout=output)
        after = resource.getrusage(resource.RUSAGE_CHILDREN)
        output.seek(0)
        ended = sum(line.startswith('ended ') for line in output)
    return (after.ru_utime + after.ru_stime - before.ru_utime - before.ru_stime) * 1e9, ended


def world(program):
    nanoseconds, facts = map(int, subprocess.run([program, str(ROUNDS)], check=True, capture_output=True, text=True).stdout.split())
    if facts != 3 * ROUNDS:
        raise SystemExit(f'{facts} facts')
    return nanoseconds


def main(words):
    if len(words) != 1:
        print('usage: compare.py BAC', file=sys.stderr)
        return 2
    bac = str(Path(words[0]).resolve())
    subprocess.run(['rt', 'run', '--', '1'], check=True, stdout=subprocess.DEVNULL)
    with tempfile.TemporaryDirectory() as folder:
        script = str(Path(folder, 'script'))
        write_script(script)
        pairs = [(simulated(bac, script), world(str(Path('out', FOLDER.name).resolve()))) for _ in range(RUNS)]
    if any(ended != ROUNDS for (_, ended), _ in pairs):
        raise SystemExit('an ask has not ended')
    ours, theirs = [time for (time, _), _ in pairs], [time for _, time in pairs]
    print(f'{EVENTS} events, load {os.getloadavg()[0]:.1f} on {os.cpu_count()} cores')
    print(f'bac simulate {min(ours) / EVENTS:.0f} ns an event, the world alone {min(theirs) / EVENTS:.0f}')
    print(f'events a second, bac simulate over the world: {min(theirs) / min(ours):.2f}, median of {RUNS} {statistics.median(it / our for our, it in zip(ours, theirs)):.2f}')
    return 0


if __name__ == '__main__':
    sys.exit(main(sys.argv[1:]))
