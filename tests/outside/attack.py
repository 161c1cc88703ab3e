#!/usr/bin/env python3
"""Attacks `bac serve` with datagrams of ill will, and then asks it: attack.py PROGRAM SEED SECONDS [FILE..], or attack.py PROGRAM plain SECONDS FILE

What it sends with a seed: mutated requests, segments, acknowledgements, replies and frames with routes, made from the seed by this script's own generator,
and altered copies of the datagrams in the files. With `plain`: the datagrams of the file as they stand and in their order, again and again; a line has a link
and a datagram, as tests/flood prints them with `print N`. All that the server sends back has to be well formed, by `bac check`.
In the end an honest ask has to be answered: at once, or, where the attack holds all places of the reply table, when the life of its entries is over.
"""

import itertools
import random
import socket
import sys
sys.dont_write_bytecode = True  # no __pycache__ beside the sources

import subprocess
import tempfile
import time
from pathlib import Path

from mutate import altered
from processes import LOOPBACK, Server, ask
from readings import read_datagrams

TURNS = 1_000_000
EACH_SECOND = 8_000  # datagrams; a turn of the server takes one
SENDERS = 50  # sockets, so as many peers without a route
LIFE = 65  # seconds after which an entry of the reply table gives way
READ = ['read', '0:5', '85']
VALUE = 'answered read 444290999A'

APPEND = bytes.fromhex('C4028000010E31FF')


def octets(*numbers):
    return bytes(number % 256 for number in numbers)


def client_apdu(draws):
    """An APDU of a client: a request whole or in segments, an acknowledgement, an Abort."""
    number, place = draws.randrange(4), draws.randrange(6)
    forms = [
        octets(0x00, 0x05, number, 0x0C) + bytes.fromhex('0C000000051955'),
        octets(0x02, 0x70, number, 0x06) + bytes.fromhex('C4028000010E310021640F'),
        octets(0x00, 0x05, number, 0x07) + APPEND + octets(0x61, place, 0x0F),
        octets(0x0E, 0x05, number, 0, 0x20, 0x07) + APPEND[:5],
        octets(0x0E, 0x05, number, place, draws.randrange(256), 0x07) + APPEND[5:],
        octets(0x0A, 0x05, number, place, 0x20, 0x07, 0x61, place, 0x0F),
        octets(0x0E, draws.randrange(256), number, place, 0x20, 0x07) + draws.randbytes(draws.randrange(1470)),
        octets(0x40 + draws.randrange(4), number, draws.randrange(256), draws.randrange(256)),
        octets(0x70, number, place),
    ]
    return draws.choice(forms)


def server_apdu(draws):
    """An APDU of a server, for which no request was sent."""
    number, place = draws.randrange(4), draws.randrange(6)
    forms = [
        octets(0x30, number, 0x0C) + bytes.fromhex('0C0000000519553E444290999A3F'),
        octets(0x3C, number, place, 0x20, 0x0C, 0x0C, 0, 0),
        octets(0x20, number, 0x0F),
        octets(0x50, number, 0x0C) + bytes.fromhex('9102911F'),
        octets(0x60, number, 9),
        octets(0x71, number, place),
        octets(0x41, number, place, place + 1),
        octets(0x10, 8),
    ]
    return draws.choice(forms)


def framed(draws, apdu):
    """The datagram of an APDU; one in five has come through a router, from one of many stations."""
    if draws.randrange(5) == 0:
        address = draws.randbytes(draws.randrange(1, 9))
        layer = octets(0x01, 0x0C, 0, draws.randrange(1, 9), len(address)) + address
    else:
        layer = octets(0x01, 0x04)
    return octets(0x81, 0x0A, (len(layer) + len(apdu) + 4) >> 8, len(layer) + len(apdu) + 4) + layer + apdu


def shot(draws, worked):
    """A datagram: one in four is an altered copy of a worked one, and of the others one in four is altered."""
    if worked and draws.randrange(4) == 0:
        return bytes(altered(draws.choice(worked), draws))
    apdu = server_apdu(draws) if draws.randrange(4) == 0 else client_apdu(draws)
    datagram = framed(draws, apdu)
    return bytes(altered(datagram, draws)) if draws.randrange(4) == 0 else datagram


def shots(seed, worked):
    """Pairs of a sender's number and a datagram without an end, from a seed."""
    draws = random.Random(seed)
    for number in itertools.count():
        yield number * 7919 % SENDERS, shot(draws, worked)


def plain_shots(path):
    """The pairs of a file's lines, again and again: each link has one sender, which it may share with other links."""
    pairs = [line.split(' ') for line in Path(path).read_text().splitlines()]
    lines = [(int(link, 16) // 65536 % SENDERS, bytes.fromhex(datagram)) for link, datagram in pairs]
    return itertools.cycle(lines)


class Attack:
    """Sockets that send to a server, what they have sent, and the distinct datagrams that came back."""

    def __init__(self, port):
        self.server, self.sent, self.came, self.answers = (LOOPBACK, port), 0, 0, set()
        self.sockets = [socket.socket(socket.AF_INET, socket.SOCK_DGRAM) for _ in range(SENDERS)]
        for opened in self.sockets:
            opened.bind((LOOPBACK, 0))
            opened.setblocking(False)

    def __enter__(self):
        return self

    def __exit__(self, *_):
        for opened in self.sockets:
            opened.close()

    def run(self, datagrams, seconds):
        begin = time.monotonic()
        while (passed := time.monotonic() - begin) < seconds:
            while self.sent < passed * EACH_SECOND:
                sender, datagram = next(datagrams)
                self.sockets[sender].sendto(datagram, self.server)
                self.sent += 1
            self.hear()
            time.sleep(0.001)
        time.sleep(1)
        self.hear()

    def hear(self):
        for opened in self.sockets:
            try:
                while True:
                    self.answers.add(opened.recv(65535))
                    self.came += 1
            except BlockingIOError:
                pass


def checked(program, datagrams):
    """What `bac check` says last of these datagrams."""
    with tempfile.NamedTemporaryFile('w', suffix='.txt') as capture:
        for place, datagram in enumerate(sorted(datagrams)):
            capture.write(f'{place} 7F000001BAC0 7F000001BAC1 {datagram.hex().upper()}\n')
        capture.flush()
        done = subprocess.run([program, 'check', capture.name], capture_output=True, text=True, timeout=600)
    return done.stdout.splitlines()[-1]


def asked_until_answered(program, port):
    """How honest asks end, one after the other, with the seconds since the attack, until one is answered or the life of the entries is over."""
    begin, ends = time.monotonic(), []
    while True:
        since = time.monotonic() - begin
        ends.append((round(since), ask(program, port, READ)))
        if ends[-1][1] != 'aborted 0' or since > LIFE + 5:
            return ends
        time.sleep(5)


def main(words):
    program, seed, seconds = words[0], words[1], float(words[2])
    if seed == 'plain':
        datagrams = plain_shots(words[3])
    else:
        datagrams = shots(int(seed), [bytes.fromhex(datagram) for datagram in read_datagrams(words[3:])[0]])
    with Server(program, TURNS) as server, Attack(server.port) as attack:
        before = server.memory()
        attack.run(datagrams, seconds)
        missed = server.missed()
        ends = asked_until_answered(program, server.port)
        after = server.memory()
        performed = server.finish(600)
    count = len(attack.answers)
    verdict = checked(program, attack.answers)
    print(f'sent {attack.sent} datagrams, of which the system dropped {missed}; {attack.came} came back, {count} of them distinct: {verdict}')
    print('honest asks: ' + ', '.join(f'{line} after {since} s' for since, line in ends))
    print(f'performed {performed} requests; at most {before} KB of memory before, {after} KB after')
    return 0 if ends[-1][1] == VALUE and verdict == f'lines={count} good={count} bad=0' and count > 0 else 1


if __name__ == '__main__':
    sys.exit(main(sys.argv[1:]))
