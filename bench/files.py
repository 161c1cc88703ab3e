#!/usr/bin/env python3
"""Measures `bac check` of capture files beside lines of the same datagrams: files.py PROGRAM [DATAGRAMS]; docs/BENCHMARKS.md says more."""

import os
import statistics
import sys
sys.dont_write_bytecode = True  # no __pycache__ beside the sources

import tempfile
from pathlib import Path

from capture import CLIENT, SERVER, datagrams, packet, pcap_head, pcap_record, pcapng_head, pcapng_record
from check import measure

DATAGRAMS = 400_000
ROUNDS = 9
ETHERNET = 1
FRONT = bytes.fromhex('020000000009 020000000005 0800')
LINK_OCTETS = 4  # of a link address of a line, before its port


def frame(from_client, octets):
    ends = [bytes.fromhex(CLIENT)[:LINK_OCTETS], bytes.fromhex(SERVER)[:LINK_OCTETS]]
    return (FRONT + packet(*(ends if from_client else reversed(ends)), octets)).ljust(60, b'\0')


def write(folder, count):
    """Writes the same datagrams, one a millisecond, as lines and as Ethernet in pcap and pcapng. Answers the files, and the octets of all datagrams."""
    paths, octets_in_all = [Path(folder, name) for name in ('lines', 'pcap', 'pcapng')], 0
    lines, pcap, pcapng = (path.open('wb') for path in paths)
    with lines, pcap, pcapng:
        pcap.write(pcap_head(ETHERNET))
        pcapng.write(pcapng_head(ETHERNET))
        for moment, (from_client, octets) in enumerate(datagrams(count)):
            ends, octets_in_all = f'{CLIENT} {SERVER}' if from_client else f'{SERVER} {CLIENT}', octets_in_all + len(octets)
            lines.write(f'{moment} {ends} {octets.hex().upper()}\n'.encode())
            whole = frame(from_client, octets)
            pcap.write(pcap_record(moment, whole))
            pcapng.write(pcapng_record(moment, whole))
    return paths, octets_in_all


def timed(program, path, count):
    """The processor time of one run."""
    found = measure([program, 'check', str(path)])
    kind, rest = ('lines', '') if path.name == 'lines' else ('frames', ' other=0')
    if found.output.splitlines()[-1:] != [f'{kind}={count} good={count} bad=0{rest}']:
        raise SystemExit(f'bac check of {path.name}: {found.output[-200:]!r}')
    return found.processor_seconds


def main(words):
    if len(words) not in (1, 2):
        print('usage: files.py PROGRAM [DATAGRAMS]', file=sys.stderr)
        return 2
    program, count = str(Path(words[0]).resolve()), int(words[1]) if len(words) == 2 else DATAGRAMS
    with tempfile.TemporaryDirectory() as folder:
        paths, octets = write(folder, count)
        print(f'{count} datagrams of {octets / count:.0f} octets, load {os.getloadavg()[0]:.1f} on {os.cpu_count()} cores')
        rounds = [[timed(program, path, count) for path in paths] for _ in range(ROUNDS)]
        of_lines, *_ = columns = list(zip(*rounds))
        for path, times in zip(paths, columns):
            size, ratio = path.stat().st_size, statistics.median(line / its for line, its in zip(of_lines, times))
            rate = f'{min(times) / count * 1e9:.0f} ns a datagram, {count / min(times):,.0f} a second of processor, {size / min(times) / 1e6:.0f} MB/s of the file'
            print(f'bac check of {path.name}: {rate}; its rate over that of lines {min(of_lines) / min(times):.2f}, median of {ROUNDS} {ratio:.2f}')
    return 0


if __name__ == '__main__':
    sys.exit(main(sys.argv[1:]))
