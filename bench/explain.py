#!/usr/bin/env python3
"""Measures `bac explain` on a capture file, beside `bac check` and tshark: explain.py PROGRAM [DATAGRAMS]."""

import os
import subprocess
import sys
sys.dont_write_bytecode = True  # no __pycache__ beside the sources

import tempfile
from pathlib import Path

from capture import SEED, Exchanges, packet, pcap_head, pcap_record
from check import quickest

DATAGRAMS = 1_000_000
TIMES = 10
CLIENTS = 64
SERVER = bytes([10, 0, 0, 9])
RAW = 101  # packets of IP
BEGIN = 1_700_000_000_000
APART = 4  # milliseconds: in 65,000 so few transactions begin that no invoke ID comes again


class Clients(Exchanges):
    """The same exchanges of many clients, each of which goes on from one invoke ID to the next."""

    drawn = 0

    def draw(self):
        self.client, self.invoke = self.drawn % CLIENTS, self.drawn // CLIENTS % 256
        self.drawn += 1
        self.client_route, self.server_route = self.routes()
        return self.random.choice(self.kinds)()


def write_capture(path, count):
    """Writes so many datagrams as a pcap file of packets of IP (link layer 101)."""
    exchanges, made = Clients(SEED), 0
    with open(path, 'wb') as file:
        file.write(pcap_head(RAW))
        while made < count:
            for from_client, octets in exchanges.draw()[:count - made]:
                ends = [bytes([10, 0, 1, exchanges.client]), SERVER]
                file.write(pcap_record(BEGIN + made * APART, packet(*(ends if from_client else reversed(ends)), octets)))
                made += 1


def shown(title, found, count):
    times = f'{found.seconds:.2f} s ({found.processor_seconds:.2f} s of processor)'
    print(f'{title}: {times}, {count / found.seconds:,.0f} datagrams/s, peak {found.kibibytes:,} KiB; {found.output.splitlines()[-1:]}')


def main(words):
    program, count = words[0], int(words[1]) if len(words) == 2 else DATAGRAMS
    with tempfile.TemporaryDirectory() as folder:
        short, long = Path(folder, 'short.pcap'), Path(folder, 'long.pcap')
        write_capture(short, count)
        write_capture(long, count * TIMES)
        print(f'{count} datagrams, load {os.getloadavg()[0]:.1f} on {os.cpu_count()} cores')
        explained = quickest([program, 'explain', str(short)])
        shown('bac explain', explained, count)
        shown('bac check', quickest([program, 'check', str(short)]), count)
        shown('tshark', quickest(['tshark', '-n', '-r', str(short), '-Y', '_ws.malformed']), count)
        longer = quickest([program, 'explain', str(long)])
        shown(f'bac explain of {TIMES} times as many', longer, count * TIMES)
        print(f'peak memory on {TIMES} times as many: {longer.kibibytes / explained.kibibytes:.2f}')
    return 0


if __name__ == '__main__':
    sys.exit(main(sys.argv[1:]))
