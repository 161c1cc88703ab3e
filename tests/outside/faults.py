#!/usr/bin/env python3
"""Failing disks under `bac serve --keep`: faults.py PROGRAM [SEED [MOST]]

A server on a new file is asked bursts of writes, while disk.c makes one of its calls fail: the K-th write with ENOSPC, as all later ones, or after half of its
octets, or with EIO that once; or the K-th sync with EIO. K goes from 1 to MOST (350), or to the last call of that kind. As root, small file systems are filled too.

A run of which a call failed has to end: with status 2 and a reason while it opens its file, and otherwise with status 3, `keep fault` and a line with the file. Then a server
starts on what it left, on a disk that has room, and has to find each write that was answered, and no other but those of the round that was under way. The same has to hold
where the power is cut at the end, and only some of what was written since the last sync is there."""

import sys
sys.dont_write_bytecode = True  # no __pycache__ beside the sources

import errno
import os
import random
import shutil
import subprocess
import tempfile
import time
from collections import Counter
from concurrent.futures import ThreadPoolExecutor
from contextlib import contextmanager
from itertools import accumulate
from pathlib import Path

from kept import DATABASE, LOG, MEMORY, answers_in, built_watch, log_of, rounds_in, run_watched, states_of, writes_from
from power import File, Run, fault_of

WORKERS = 4
BURSTS, LONGEST = 130, 60
KINDS = [('write', errno.ENOSPC, 'on'), ('write', errno.ENOSPC, 'short'), ('write', errno.EIO, 'once'), ('sync', errno.EIO, 'once')]
IMAGES = 2  # of each failed sync
SMALL = range(24, 700, 12)  # KB of the file systems that are filled


def may_be_left(bursts, answered):
    """How many writes may be found where so many were answered: those, or with them a round of the burst that was asked."""
    end = next((end for end in accumulate(map(len, bursts)) if end > answered), answered)
    return range(answered, end + 1)


def verdict_of(program, bursts, states, folder, ran, draws):
    """How a run ended, whether a call failed in it, and what is wrong with it."""
    path, asker, events, status, said = ran
    places = answers_in(events, asker)
    failed = any(event.kind == 'F' for event in events)
    run = Run(bursts, events, places, rounds_in(events, places), states, str(Path(folder, 'objects.toml')))
    faults = []
    if not is_right_end(status, failed, len(places), said):
        faults.append(f'status {status}, a call failed: {failed}, {len(places)} answered, {said!r}')
    images = [[Path(name).read_bytes() if Path(name).exists() else None for name in (log_of(path), path)]]
    images += cut_images(events, draws) if failed and status == 3 else []
    for image in images:
        with tempfile.TemporaryDirectory(dir=folder) as own:
            fault, _ = fault_of(program, run, may_be_left(bursts, len(places)), image, own)
        faults += [fault] if fault else []
    return 'served all' if status is None else f'status {status}', failed, faults


def is_right_end(status, failed, answered, said):
    """Whether a run may end so: refused at its start, with a fault of its keeper, or, if no call failed, not at all."""
    if status is None:
        return not failed
    return status == 2 and not answered or status == 3 and said.splitlines()[-2:-1] == ['keep fault']


def cut_images(events, draws):
    """What a power cut may leave of the files at the end."""
    files = {LOG: File(), DATABASE: File()}
    for event in events:
        if event.file in files and event.kind in 'WTS':
            files[event.file].take(event)
    return [[files[file].left('some', draws) for file in (LOG, DATABASE)] for _ in range(IMAGES)]


def failing(program, bursts, states, watch, folder, kind, k):
    """A run whose K-th call of a kind fails."""
    what, number, how = kind
    with tempfile.TemporaryDirectory(dir=folder) as own:
        ran = run_watched(program, bursts, own, watch, f'{what} {k} {number} {how}')
        return verdict_of(program, bursts, states, own, ran, random.Random(f'{kind} {k}'))


def counted(ends):
    return ', '.join(f'{count} {end}' for end, count in sorted(ends.items()))


def run_kind(program, bursts, states, watch, folder, kind, counts, most):
    """All runs of a kind. Returns what is wrong."""
    last = min(most, counts[kind[0]])
    with ThreadPoolExecutor(WORKERS) as pool:
        verdicts = list(pool.map(lambda k: failing(program, bursts, states, watch, folder, kind, k), range(1, last + 1)))
    ends = Counter(end for end, _, _ in verdicts)
    title = f'{kind[0]} {errno.errorcode[kind[1]]} {kind[2]}'
    print(f'{title}: {last} runs, {sum(failed for _, failed, _ in verdicts)} with a call that failed: {counted(ends)}', flush=True)
    return [f'{kind} {k}: {fault}' for k, (_, _, faults) in enumerate(verdicts, 1) for fault in faults]


@contextmanager
def small_disk(folder, size):
    """A file system of so many KB."""
    subprocess.run(['mount', '-t', 'tmpfs', '-o', f'size={size}k', 'tmpfs', folder], check=True)
    try:
        yield folder
    finally:
        subprocess.run(['umount', folder], check=True)


def fill(program, bursts, states, watch, folder, size):
    """A run on a file system of so many KB, of which another server reads what is left in a place with room."""
    with tempfile.TemporaryDirectory(dir=folder) as own, tempfile.TemporaryDirectory(dir=folder) as disk, small_disk(disk, size):
        path, asker, events, status, said = run_watched(program, bursts, own, watch, disk=disk)
        for name in (path, log_of(path)):
            if Path(name).exists():
                shutil.copy(name, own)
        return verdict_of(program, bursts, states, own, (str(Path(own, 'kept.db')), asker, events, status, said), random.Random(size))


def fill_all(program, bursts, states, watch, folder):
    with ThreadPoolExecutor(WORKERS) as pool:
        verdicts = list(pool.map(lambda size: fill(program, bursts, states, watch, folder, size), SMALL))
    ends = Counter(end for end, _, _ in verdicts)
    print(f'file systems of {SMALL[0]} to {SMALL[-1]} KB: {len(verdicts)} runs: {counted(ends)}', flush=True)
    return [f'{size} KB: {fault}' for size, (_, _, faults) in zip(SMALL, verdicts) for fault in faults]


def main(words):
    program, seed, most = str(Path(words[0]).resolve()), *(int(word) for word in (words[1:] + ['1', '350'][len(words) - 1:]))
    bursts = writes_from(f'{seed} faults', BURSTS, LONGEST)
    states, begin, wrong = states_of(bursts), time.monotonic(), []
    with tempfile.TemporaryDirectory(dir=MEMORY) as folder:
        watch = built_watch(folder)
        with tempfile.TemporaryDirectory(dir=folder) as own:
            events = run_watched(program, bursts, own, watch)[2]
        kinds = Counter(event.kind for event in events)
        counts = {'write': kinds['W'] + kinds['T'], 'sync': kinds['S'] + kinds['D']}
        print(f'{len(states) - 1} writes: {counts["write"]} writes to the disk, {counts["sync"]} syncs')
        for kind in KINDS:
            wrong += run_kind(program, bursts, states, watch, folder, kind, counts, most)
        if os.geteuid() == 0:
            wrong += fill_all(program, bursts, states, watch, folder)
    for fault in wrong[:20]:
        print(f'WRONG: {fault}')
    print(f'{len(wrong)} wrong in {time.monotonic() - begin:.0f} s')
    return 1 if wrong else 0


if __name__ == '__main__':
    sys.exit(main(sys.argv[1:]))
