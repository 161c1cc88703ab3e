#!/usr/bin/env python3
"""Proves and builds the program of this folder, and runs each of its floods with the peak of its memory:
    sh tests/scratch.sh tests/flood python3 attack.py
It ends with a status other than 0 where the proof or a flood fails, or where memory passes what the node's tables can hold."""

import os
import subprocess
import sys
import time
from pathlib import Path

# Octets of the program itself, with what its allocator keeps back.
PROGRAM = 8 << 20
ENTRIES = 1_024
# The most octets of a request, and its most segments.
DATA = 65_535
# Two octets for each segment; where a list grows one by one its room may be twice its length.
LENGTHS = 2 * (DATA + 1)

# The words of each flood, and the most octets that the tables can hold in it.
FLOODS = [
    (['generated'], 2 * ENTRIES * 4_096),
    (['beginnings'], ENTRIES * 4_096),
    (['long', '1024'], ENTRIES * (DATA + 4_096)),
    (['short', '256'], 256 * (DATA + LENGTHS + 8_192)),
    (['mixed', '256'], 256 * (2 * DATA + 8_192)),
    (['empty', '256'], 256 * (LENGTHS + 8_192)),
]


def peak_so_far(process):
    """The kernel's count of the greatest resident memory since the command began, in octets."""
    try:
        status = Path(f'/proc/{process}/status').read_text()
    except OSError:
        return 0
    return next((int(line.split()[1]) * 1_024 for line in status.splitlines() if line.startswith('VmHWM:')), 0)


def measure(words):
    """Runs a flood: its status, its peak of resident memory in octets, and its seconds."""
    peak, start = 0, time.perf_counter()
    child = subprocess.Popen(words)
    while child.poll() is None:
        peak = max(peak, peak_so_far(child.pid))
        time.sleep(0.002)
    return child.returncode, peak, time.perf_counter() - start


def main():
    if subprocess.run(['rt', 'run', '--', 'beginnings']).returncode != 0:
        return 1
    wrong = 0
    for words, held in FLOODS:
        print('flood', *words, flush=True)
        status, peak, seconds = measure(['out/flood', *words])
        most = held + PROGRAM
        is_right = status == 0 and peak <= most
        print(f'status {status}, {seconds:.1f} s, peak {peak / 2**20:.1f} MiB of at most {most / 2**20:.1f}{"" if is_right else ": WRONG"}', flush=True)
        wrong += not is_right
    return 1 if wrong else 0


if __name__ == '__main__':
    os.environ['PYTHONDONTWRITEBYTECODE'] = '1'
    sys.exit(main())
