#!/usr/bin/env python3
"""Prints altered copies of datagrams as a table for compare.py, from a fixed seed: mutate.py SEED COPIES FILE.."""

import random
import sys
sys.dont_write_bytecode = True  # no __pycache__ beside the sources

from readings import read_datagrams


def altered(datagram, draws):
    """The datagram with an octet or two changed, left out or added, mostly with the length that it then has."""
    octets = bytearray(datagram)
    for _ in range(draws.choice([1, 1, 1, 2])):
        alter(octets, draws)
    if draws.random() < 0.95 and len(octets) > 3:
        octets[2:4] = len(octets).to_bytes(2, 'big')
    return octets


def alter(octets, draws):
    at, way = draws.randrange(len(octets)), draws.choice(['octet', 'bit', 'out', 'in'])
    if way == 'octet':
        octets[at] = draws.randrange(256)
    elif way == 'bit':
        octets[at] ^= 1 << draws.randrange(8)
    elif way == 'in':
        octets.insert(at, draws.randrange(256))
    elif len(octets) > 1:
        del octets[at]


def main(words):
    draws, copies = random.Random(int(words[0])), int(words[1])
    for datagram in read_datagrams(words[2:])[0]:
        for _ in range(copies):
            print(f'{altered(bytes.fromhex(datagram), draws).hex().upper()}\taltered')


if __name__ == '__main__':
    main(sys.argv[1:])
