#!/usr/bin/env python3
"""Measures `bac serve --keep`: keep.py PROGRAM [FOLDER]; docs/BENCHMARKS.md says more.

FOLDER is on the disk that is measured, otherwise the folder that this runs in. Syncs of the bare disk, writes one at a time and bursts of 32 writes take turns, so that
all three meet the same load."""

import os
import statistics
import subprocess
import sys
sys.dont_write_bytecode = True  # no __pycache__ beside the sources

import tempfile
import time
from pathlib import Path

sys.path.insert(0, str(Path(__file__).resolve().parent.parent / 'tests' / 'outside'))
from kept import ANALOG_VALUE, DESCRIPTION, PRESENT_VALUE, Asker, document, is_written, log_of, real_value, started, text_value, write_of

TURNS = 5  # what is asked in these has to fit in the 65,536 slots of a server
SLICE = 1.0  # seconds of one side's turn
BLOCK = 4096
BLOCKS = 64  # of the file whose blocks are synced in turn, about as long as a log
BURST = 32
OBJECTS = 10_000
STARTS = 5


def on_processor(process):
    """Nanoseconds that a process was on a processor."""
    return int(Path(f'/proc/{process}/schedstat').read_text().split()[0])


def memory(process, name):
    """Kibibytes of memory of a process, by a name of the kernel's."""
    lines = Path(f'/proc/{process}/status').read_text().splitlines()
    return next(int(line.split()[1]) for line in lines if line.startswith(name))


class Syncs:
    """A file of blocks, of which one after the other is written and synced."""

    def __init__(self, folder):
        self.file, self.at = os.open(Path(folder, 'blocks'), os.O_RDWR | os.O_CREAT), 0
        os.pwrite(self.file, bytes(BLOCK * BLOCKS), 0)
        os.fsync(self.file)

    def step(self):
        os.pwrite(self.file, self.at.to_bytes(8, 'big') * (BLOCK // 8), self.at % BLOCKS * BLOCK)
        os.fdatasync(self.file)
        self.at += 1


class Writes:
    """Writes of the house's set-point, so many at once, each of another value."""

    def __init__(self, asker, process, count):
        self.asker, self.process, self.count = asker, process, count

    def step(self):
        first = self.asker.asked
        requests = [lambda id, number=first + place: write_of(id, ANALOG_VALUE, 1, PRESENT_VALUE, real_value(number % 100_000)) for place in range(self.count)]
        if not self.asker.ask(requests, lambda: self.process.poll() is None):
            raise SystemExit('the server ended')
        if not all(is_written(self.asker.answered.pop(number)) for number in range(first, first + self.count)):
            raise SystemExit('a write was not performed')


def rate_of(side):
    """How many steps a second a side makes in its turn."""
    begin, steps = time.perf_counter(), 0
    while (passed := time.perf_counter() - begin) < SLICE:
        side.step()
        steps += 1
    return steps / passed


def measure_writes(program, folder):
    """Syncs of the disk, writes and bursts, in turn."""
    process, port, said = started(program, str(Path(folder, 'writes.db')))
    if not said[-1].startswith('listening'):
        raise SystemExit(f'no server: {said}')
    with Asker(port) as asker:
        sides = [Syncs(folder), Writes(asker, process, 1), Writes(asker, process, BURST)]
        rates, used = [[], [], []], [0, 0, 0]
        for _ in range(TURNS):
            for number, side in enumerate(sides):
                before = on_processor(process.pid)
                rates[number].append(rate_of(side))
                used[number] += (on_processor(process.pid) - before) / (rates[number][-1] * SLICE)
    process.kill()
    process.communicate()
    print(f'syncs of {BLOCK} octets: {statistics.median(rates[0]):.0f} a second (of {TURNS} turns least {min(rates[0]):.0f}, most {max(rates[0]):.0f})')
    for title, number, each in (('one at a time', 1, 1), (f'bursts of {BURST}', 2, BURST)):
        ratios = [ours / theirs for ours, theirs in zip(rates[number], rates[0])]
        print(f'writes, {title}: {statistics.median(rates[number]) * each:.0f} a second; {title if each > 1 else "writes"} over syncs: median '
              f'{statistics.median(ratios):.2f}, least {min(ratios):.2f}, most {max(ratios):.2f}; {used[number] / TURNS / 1000 / each:.0f} us of the processor each')


def start_of(program, words, path):
    """Seconds until a server listens, its memory then, and the most it had until then, in KB."""
    begin = time.perf_counter()
    if path:
        process, _, said = started(program, path, words)
    else:
        process, said = subprocess.Popen([program, 'serve', '--port', '47998', *words], stderr=subprocess.PIPE, text=True), []
        said.append(process.stderr.readline())
    passed = time.perf_counter() - begin
    if not said[-1].startswith('listening'):
        raise SystemExit(f'no server: {said}')
    found = passed, on_processor(process.pid) / 1e9, memory(process.pid, 'VmRSS'), memory(process.pid, 'VmHWM')
    process.kill()
    process.communicate()
    return found


def write_all(program, words, path):
    """Writes both properties of each object once, so that each has a cell."""
    process, port, _ = started(program, path, words)
    cells = [(instance, number) for instance in range(1, OBJECTS + 1) for number in (DESCRIPTION, PRESENT_VALUE)]
    values = {DESCRIPTION: lambda instance: text_value(f'written {instance}'), PRESENT_VALUE: real_value}
    begin = time.perf_counter()
    with Asker(port) as asker:
        for at in range(0, len(cells), BURST):
            requests = [lambda id, cell=cell: write_of(id, ANALOG_VALUE, *cell, values[cell[1]](cell[0])) for cell in cells[at:at + BURST]]
            if not asker.ask(requests, lambda: process.poll() is None):
                raise SystemExit('the server ended')
        if not all(map(is_written, asker.answered.values())):
            raise SystemExit('a write was not performed')
    passed = time.perf_counter() - begin
    process.kill()
    process.communicate()
    sizes = [Path(name).stat().st_size // 1024 for name in (path, log_of(path))]
    print(f'{len(cells)} cells written in {passed:.1f} s; the database has {sizes[0]} KiB, its log {sizes[1]} KiB')


def measure_starts(program, folder):
    objects, path = Path(folder, 'objects.toml'), str(Path(folder, 'starts.db'))
    objects.write_text(document(OBJECTS, 0))
    words = ('--objects', str(objects))
    write_all(program, words, path)
    fresh = (str(Path(folder, f'fresh{number}.db')) for number in range(STARTS))
    for title, paths in (('without --keep', [None] * STARTS), ('with a new file', fresh), (f'with {2 * OBJECTS} cells', [path] * STARTS)):
        passed, used, resident, most = zip(*(start_of(program, words, each) for each in paths))
        print(f'start with {OBJECTS} objects, {title}: least {min(passed):.2f} s, median {statistics.median(passed):.2f}, least {min(used):.2f} s of the processor; '
              f'{max(resident) / 1024:.1f} MiB resident, at most {max(most) / 1024:.1f}')


def main(words):
    if not 1 <= len(words) <= 2:
        print('usage: keep.py PROGRAM [FOLDER]', file=sys.stderr)
        return 2
    program = str(Path(words[0]).resolve())
    print(f'load {os.getloadavg()[0]:.1f}, {os.cpu_count()} cores')
    with tempfile.TemporaryDirectory(dir=words[1] if len(words) > 1 else '.') as folder:
        measure_writes(program, folder)
        measure_starts(program, folder)
    return 0


if __name__ == '__main__':
    sys.exit(main(sys.argv[1:]))
