#!/usr/bin/env python3
"""Times reading and writing of APDUs, beside by_hand.rs: compare.py, run in a crate made of this folder; docs/BENCHMARKS.md says how."""

import os
import statistics
import subprocess
import sys
sys.dont_write_bytecode = True  # no __pycache__ beside the sources

import tempfile
from pathlib import Path

FOLDER = Path(__file__).resolve().parent
sys.path.insert(0, str(FOLDER.parent))

from capture import Exchanges, SEED, fewest, head

COUNT = 20_000
RUNS = 7


class Apdus(Exchanges):
    """Exchanges as APDUs alone, with long lists of values in place of network messages."""

    def sent(self, from_client, apdu, expecting=False, message=False):
        return apdu

    def network_message(self):
        values = b''.join(self.values() for _ in range(self.random.randrange(1, 20)))
        names = self.property()
        if self.random.random() < 0.5:
            return [self.confirmed(15, names + b'\x3E' + values + b'\x3F')]
        return [self.complex_ack(12, names + b'\x3E' + values + b'\x3F')]

    def values(self):
        """A value, a bit string, or values between a pair of tags."""
        kind = self.random.randrange(4)
        if kind == 0:
            return b'\x0E' + self.value() + b'\x1E' + self.value() + b'\x1F\x21' + fewest(self.random.randrange(256)) + b'\x0F'
        return b'\x82\x05\xA0' if kind == 1 else self.value()


def damaged(chance, apdu):
    """The APDU; one of eight has an octet changed."""
    if chance.random.random() > 0.125:
        return apdu
    at = chance.random.randrange(len(apdu))
    return apdu[:at] + chance.random.randbytes(1) + apdu[at + 1:]


def write_apdus(path):
    exchanges, made = Apdus(SEED), 0
    with open(path, 'wb') as file:
        while made < COUNT:
            for apdu in exchanges.draw()[:COUNT - made]:
                apdu = damaged(exchanges, apdu)
                file.write(len(apdu).to_bytes(2, 'big') + apdu)
                made += 1


def run(words):
    """The first line that a program prints, and its times by name."""
    first, *times = subprocess.run(words, check=True, capture_output=True, text=True).stdout.splitlines()
    return first, {name: int(time) for name, time in map(str.split, times)}


def main():
    with tempfile.TemporaryDirectory() as folder:
        apdus, by_hand = Path(folder, 'apdus'), Path(folder, 'by_hand')
        write_apdus(apdus)
        subprocess.run(['rustc', '-O', '--edition', '2024', '-o', str(by_hand), str(FOLDER / 'by_hand.rs')], check=True)
        subprocess.run(['rt', 'run', '--', str(apdus)], check=True, stdout=subprocess.DEVNULL)
        runs = [(run([str(Path('out', FOLDER.name).resolve()), str(apdus)]), run([str(by_hand), str(apdus)])) for _ in range(RUNS)]
        compare(runs, apdus.stat().st_size - 2 * COUNT)


def counts(told):
    """How many APDUs a program's first line tells of, and how many of them were read; the others were refused, and are not written."""
    apdus, read = told.split(' APDUs, ')
    if int(apdus) != COUNT or not told.endswith(' rewritten true'):
        raise SystemExit(f'not each APDU was looked at and written as it was: {told}')
    return {'reading': COUNT, 'writing': int(read.split()[0])}


def compare(runs, octets):
    told = runs[0][0][0]
    print(told)
    for other, _ in (program for pair in runs for program in pair):
        if other != told:
            raise SystemExit(f'they differ: {other}')
    print(f'{octets / COUNT:.0f} octets an APDU, load {os.getloadavg()[0]:.1f} on {os.cpu_count()} cores')
    read, written = counts(told).values()
    # the third row's by_hand goes over each message for its length first, as the crates do
    for name, count, other in (('reading', read, 'reading'), ('writing', written, 'writing'), ('writing', written, 'at_once')):
        ours, theirs = ([times[which] for _, times in one] for which, one in zip((name, other), zip(*runs)))
        ratio, median = min(ours) / min(theirs), statistics.median(our / their for our, their in zip(ours, theirs))
        print(f'{name}, of {count} APDUs: {min(ours) / count:.1f} ns an APDU, by hand ({other}) {min(theirs) / count:.1f}, ratio {ratio:.2f}, median of {len(runs)} {median:.2f}')


if __name__ == '__main__':
    main()
