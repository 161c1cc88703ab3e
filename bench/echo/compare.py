#!/usr/bin/env python3
"""Times `bac serve` beside a bare UDP echo: compare.py BAC, run in a crate made of this folder; docs/BENCHMARKS.md says how."""

import os
import statistics
import subprocess
import sys
import tempfile
import time
from dataclasses import dataclass
from pathlib import Path

FOLDER = Path(__file__).resolve().parent
PORT = 47_999
TURNS = 1_000_000
WINDOW = 32
# the first octet of a ComplexACK, and of the request that an echo sends back
COMPLEX_ACK, REQUEST = 0x30, 0x00


@dataclass
class Asking:
    """So many requests in all, from some sockets, of which each goes round so many invoke IDs."""
    title: str
    sockets: int
    keys: int
    count: int
    runs: int


KEPT_FEW = Asking('kept answers, 2 live entries', 2, 1, 200_000, 5)
KEPT_MANY = Asking('kept answers, 64 live entries', 2, 32, 200_000, 5)
# within the slots of `serve`
NEW = Asking('new reads, until 1,024 live entries', 4, 256, 1_024, 40)


def on_processor(process):
    """Nanoseconds that a process was on a processor."""
    return int(Path(f'/proc/{process}/schedstat').read_text().split()[0])


def served(server, driver, asking, answer):
    """Datagrams a second of the clock and of the server's processor, and how many were lost."""
    with subprocess.Popen(server, stdout=subprocess.DEVNULL, stderr=subprocess.DEVNULL) as child:
        time.sleep(0.3)
        before = on_processor(child.pid)
        words = [str(number) for number in (PORT, asking.sockets, WINDOW, asking.keys, asking.count, answer)]
        passed, lost = map(int, subprocess.run([driver, *words], check=True, capture_output=True, text=True).stdout.split())
        used = on_processor(child.pid) - before
        child.terminate()
    return asking.count / passed * 1e9, asking.count / used * 1e9, lost


def compare(title, ours, theirs):
    """Of rates of runs in pairs: the most of each, which come of the least times, their ratio, and the least and the median of the pairs' ratios."""
    ratios = [our / their for our, their in zip(ours, theirs)]
    most = f'bac serve {max(ours):,.0f} datagrams/s, echo {max(theirs):,.0f}, ratio {max(ours) / max(theirs):.2f}'
    print(f'{title}: {most}; of {len(ratios)} pairs least {min(ratios):.2f}, median {statistics.median(ratios):.2f}')


def main(words):
    if len(words) != 1:
        print('usage: compare.py BAC', file=sys.stderr)
        return 2
    subprocess.run(['rt', 'run', '--', str(PORT), '1'], check=True, stdout=subprocess.DEVNULL)
    serve = [str(Path(words[0]).resolve()), 'serve', '--port', str(PORT)]
    echo = [str(Path('out', FOLDER.name).resolve()), str(PORT), str(TURNS)]
    with tempfile.TemporaryDirectory() as folder:
        driver = str(Path(folder, 'drive'))
        subprocess.run(['rustc', '-O', '--edition', '2024', '-o', driver, str(FOLDER / 'drive.rs')], check=True)
        cores = len(os.sched_getaffinity(0))
        print(f'load {os.getloadavg()[0]:.1f}, on {cores} of {os.cpu_count()} cores; {WINDOW} requests of each socket in flight')
        for asking in (KEPT_FEW, KEPT_MANY, NEW):
            pairs = [(served(serve, driver, asking, COMPLEX_ACK), served(echo, driver, asking, REQUEST)) for _ in range(asking.runs)]
            ours, theirs = (list(zip(*runs)) for runs in zip(*pairs))
            compare(f'{asking.title}, by the clock', ours[0], theirs[0])
            compare('  by the server\'s processor', ours[1], theirs[1])
            print(f'  lost {sum(ours[2])} and {sum(theirs[2])}')
    return 0


if __name__ == '__main__':
    sys.exit(main(sys.argv[1:]))
