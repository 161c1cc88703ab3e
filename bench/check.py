#!/usr/bin/env python3
"""Measures `bac check` on a capture, beside tshark on the same datagrams: check.py PROGRAM [LINES]; docs/BENCHMARKS.md says more."""

import os
import subprocess
import sys
sys.dont_write_bytecode = True  # no __pycache__ beside the sources

import tempfile
import time
from dataclasses import dataclass
from pathlib import Path

from capture import write_captures

LINES = 1_000_000
TIMES = 10
RUNS = 3


@dataclass
class Measure:
    seconds: float
    processor_seconds: float
    kibibytes: int
    output: str


def measure(words):
    """Runs a command alone: seconds of the clock and of the processor, the peak of its resident memory, and what it printed."""
    with tempfile.TemporaryFile('w+') as output:
        peak, start = 0, time.perf_counter()
        child = subprocess.Popen(words, stdout=output, stderr=subprocess.DEVNULL)
        ended, status, usage = os.wait4(child.pid, os.WNOHANG)
        while not ended:
            peak = max(peak, peak_so_far(child.pid))
            time.sleep(0.002)
            ended, status, usage = os.wait4(child.pid, os.WNOHANG)
        seconds, child.returncode = time.perf_counter() - start, os.waitstatus_to_exitcode(status)
        output.seek(0)
        return Measure(seconds, usage.ru_utime + usage.ru_stime, peak, output.read())


def peak_so_far(process):
    """The kernel's count of the greatest resident memory since the command began; that of wait4 counts this script's own at the fork too."""
    try:
        status = Path(f'/proc/{process}/status').read_text()
    except OSError:
        return 0
    return next((int(line.split()[1]) for line in status.splitlines() if line.startswith('VmHWM:')), 0)


def quickest(words):
    """The least times of some runs, with the greatest peak of memory of them all."""
    runs = [measure(words) for _ in range(RUNS)]
    return Measure(min(run.seconds for run in runs), min(run.processor_seconds for run in runs), max(run.kibibytes for run in runs), runs[0].output)


def checked(program, capture, last):
    found = quickest([program, 'check', str(capture)])
    if found.output.splitlines()[-1:] != [last]:
        raise SystemExit(f'bac check: {found.output[-200:]!r}')
    return found


def checked_lines(program, capture, lines):
    return checked(program, capture, f'lines={lines} good={lines} bad=0')


def shown(title, found, lines, octets):
    rate, megabytes = lines / found.seconds, octets / found.seconds / 1e6
    times = f'{found.seconds:.2f} s ({found.processor_seconds:.2f} s of processor)'
    print(f'{title}: {times}, {rate:,.0f} lines/s, {megabytes:.0f} MB/s of datagrams, peak {found.kibibytes:,} KiB')


def main(words):
    if len(words) not in (1, 2):
        print('usage: check.py PROGRAM [LINES]', file=sys.stderr)
        return 2
    program, lines = words[0], int(words[1]) if len(words) == 2 else LINES
    with tempfile.TemporaryDirectory() as folder:
        capture, long_capture, digits, pcap = (Path(folder, name) for name in ['capture.txt', 'long.txt', 'digits.txt', 'datagrams.pcap'])
        octets = write_captures(lines, TIMES, capture, long_capture, digits)
        subprocess.run(['text2pcap', '-q', '-u', '47808,47808', '-r', '^(?<data>[0-9A-F]+)$', str(digits), str(pcap)], check=True, stderr=subprocess.DEVNULL)
        compare(program, capture, long_capture, pcap, lines, octets)
    return 0


def compare(program, capture, long_capture, pcap, lines, octets):
    print(f'{lines} lines, {octets / lines:.0f} octets a datagram, load {os.getloadavg()[0]:.1f} on {os.cpu_count()} cores')
    ours = checked_lines(program, capture, lines)
    shown('bac check', ours, lines, octets)
    packets = checked(program, pcap, f'frames={lines} good={lines} bad=0 other=0')
    shown('bac check of the file that tshark reads', packets, lines, octets)
    theirs = quickest(['tshark', '-n', '-r', str(pcap), '-Y', '_ws.malformed'])
    shown('tshark', theirs, lines, octets)
    longer = checked_lines(program, long_capture, lines * TIMES)
    shown(f'bac check, {TIMES} times the lines', longer, lines * TIMES, octets * TIMES)
    print(f'lines a second, bac check over tshark: {theirs.seconds / ours.seconds:.2f}')
    print(f'datagrams a second, bac check of that file over tshark, over lines: {theirs.seconds / packets.seconds:.2f}, {ours.seconds / packets.seconds:.2f}')
    print(f'processor time, bac check over tshark: {ours.processor_seconds / theirs.processor_seconds:.3f}')
    print(f'peak memory, bac check over tshark: {ours.kibibytes / theirs.kibibytes:.4f}')
    print(f'peak memory, {TIMES} times the lines over the lines: {longer.kibibytes / ours.kibibytes:.3f}')


if __name__ == '__main__':
    sys.exit(main(sys.argv[1:]))
