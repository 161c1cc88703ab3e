#!/usr/bin/env python3
"""Measures `bac check` of lines beside a program by hand and beside `wc -l`: lines.py PROGRAM; docs/BENCHMARKS.md says more."""

import statistics
import subprocess
import sys
sys.dont_write_bytecode = True  # no __pycache__ beside the sources

import tempfile
from pathlib import Path

from capture import CLIENT, SERVER, write_captures
from check import measure

FOLDER = Path(__file__).resolve().parent
LINES = 400_000
ROUNDS = 9


def write_short(capture):
    """Writes reads of one property, of 17 octets each, from one client."""
    with open(capture, 'w') as file:
        file.writelines(f'{moment} {CLIENT} {SERVER} 810A001101040005{moment % 256:02X}0C0C000000051955\n' for moment in range(LINES))


def compare(title, programs, last):
    """Runs the programs in turn, and prints the least of each one's processor time, beside that of the first."""
    rounds = [[measure(words) for words in programs.values()] for _ in range(ROUNDS)]
    for found in rounds[0]:
        if found.output.split()[:1] != [last]:
            raise SystemExit(f'{title}: {found.output[-200:]!r}')
    times = dict(zip(programs, zip(*([found.processor_seconds for found in one] for one in rounds))))
    ours = times['bac check']
    for name, its in times.items():
        ratio, median = min(ours) / min(its), statistics.median(our / it for our, it in zip(ours, its))
        print(f'{title}, {name}: {min(its) / LINES * 1e9:.0f} ns a line; bac check over it {ratio:.2f}, median of {ROUNDS} {median:.2f}')


def main(words):
    if len(words) != 1:
        print('usage: lines.py PROGRAM', file=sys.stderr)
        return 2
    program = str(Path(words[0]).resolve())
    with tempfile.TemporaryDirectory() as folder:
        by_hand, mixed, longer, digits, short = (str(Path(folder, name)) for name in ['by_hand', 'mixed', 'longer', 'digits', 'short'])
        subprocess.run(['rustc', '-O', '--edition', '2024', '-o', by_hand, str(FOLDER / 'check_by_hand.rs')], check=True)
        write_captures(LINES, 1, mixed, longer, digits)
        write_short(short)
        for title, capture in [('94 octets a datagram', mixed), ('17 octets', short)]:
            compare(title, {'bac check': [program, 'check', capture], 'by hand': [by_hand, capture]}, f'lines={LINES}')
            counted = {'bac check': [program, 'check', capture], 'wc -l': ['wc', '-l', capture]}
            compare_counting(title, counted)
    return 0


def compare_counting(title, programs):
    rounds = [[measure(words).processor_seconds for words in programs.values()] for _ in range(ROUNDS)]
    ours, theirs = (min(times) for times in zip(*rounds))
    print(f'{title}, wc -l: {theirs / LINES * 1e9:.0f} ns a line; bac check over it {ours / theirs:.1f}')


if __name__ == '__main__':
    sys.exit(main(sys.argv[1:]))
