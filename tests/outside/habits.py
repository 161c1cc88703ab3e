#!/usr/bin/env python3
"""Clients of another make, which use their invoke IDs again, beside one `bac serve`: habits.py PROGRAM [SECONDS]

One reads a value ten times a second with its invoke IDs in turn, while `bac ask` writes another value each half second: no value that it reads may be more than one
second old. Another has one invoke ID for all requests: it switches the pump on, off and on, and reads it each time. A third asks the same append twice under one
invoke ID, as after a lost answer: it may be performed once. A fourth reads a long file twelve times, from a server of four slots. All of it goes against `serve`,
and with `--strict`, where the first has to meet an old value, the second has to be refused, and the fourth after four reads. The last line says what was wrong.
"""

import socket
import struct
import subprocess
import sys
import tempfile
sys.dont_write_bytecode = True  # no __pycache__ beside the sources

import time

from filling import DOCUMENT, LENGTH, read_of
from processes import LOOPBACK, free_port, has_port

HEAD = bytes.fromhex('810A')
NPDU = bytes.fromhex('0104')
READ_SETPOINT = bytes.fromhex('0C0C008000011955')
READ_PUMP = bytes.fromhex('0C0C014000011955')
APPEND = bytes.fromhex('07C4028000010E31FF61410F')  # one octet, 41
PERIOD = 0.1
FRESH = 1.0
TIMEOUT = 3
SLOTS = 4
FILES = 12


def switched(state):
    """A WriteProperty of the present-value of binary-value 1."""
    return bytes.fromhex('0F0C0140000119553E91') + bytes([state]) + bytes.fromhex('3F')


class Client:
    """A socket of a client."""

    def __init__(self, port):
        self.socket = socket.socket(socket.AF_INET, socket.SOCK_DGRAM)
        self.socket.settimeout(TIMEOUT)
        self.socket.connect((LOOPBACK, port))

    def ask(self, invoke_id, service):
        """The APDU of the answer to a request in one APDU."""
        apdu = bytes([0x02, 0x05, invoke_id]) + service
        self.socket.send(HEAD + (4 + len(NPDU) + len(apdu)).to_bytes(2, 'big') + NPDU + apdu)
        return self.socket.recv(1500)[6:]

    def file(self, invoke_id):
        """How many octets the answer to a read of the long file has, in segments that are acknowledged one by one; 0 where it is an Abort."""
        self.socket.send(read_of(invoke_id, LENGTH, True))
        octets = 0
        while True:
            apdu = self.socket.recv(1500)[6:]
            if is_abort(apdu):
                return 0
            octets += len(apdu) - 5
            self.socket.send(HEAD + bytes.fromhex('000A') + NPDU + bytes([0x40, apdu[1], apdu[2], 1]))
            if not apdu[0] & 4:
                return octets


def is_abort(apdu):
    return apdu[0] >> 4 == 7


def real_in(apdu):
    """The Real of a ReadProperty-ACK of a present-value, as text."""
    return apdu[apdu.index(bytes.fromhex('3E44')) + 2:][:4].hex()


class Moving:
    """A value that `bac ask` writes, and since when it is there."""

    def __init__(self, program, port):
        self.program, self.port, self.number, self.since = program, port, 0, {}

    def move(self):
        self.number += 1
        words = [self.program, 'ask', '--port', str(self.port), '--fail', 'write', 'analog-value:1', 'present-value', f'real:{self.number}']
        subprocess.run(words, check=True, stdout=subprocess.DEVNULL)
        self.since[self.number] = time.monotonic()

    def age(self, value):
        """How long a value had been replaced when it was read, in seconds; 0 for the newest."""
        replaced = self.since.get(value + 1)
        return time.monotonic() - replaced if replaced else 0


def oldest_read(program, port, seconds):
    """The age of the oldest value that a client with its invoke IDs in turn reads, and how many it reads."""
    client, moving = Client(port), Moving(program, port)
    oldest, reads, begin, next_move = 0, 0, time.monotonic(), 0
    while time.monotonic() < begin + seconds:
        if time.monotonic() >= next_move:
            moving.move()
            next_move = time.monotonic() + 0.5
        value = int(struct.unpack('>f', bytes.fromhex(real_in(client.ask(reads % 256, READ_SETPOINT))))[0])
        oldest, reads = max(oldest, moving.age(value)), reads + 1
        time.sleep(PERIOD)
    return oldest, reads


def switches(port):
    """How many of on, off and on, and of the reads in between, are answered as a relay would, by a client with one invoke ID."""
    client, right = Client(port), 0
    for state in (1, 0, 1):
        right += not is_abort(client.ask(9, switched(state)))
        answer = client.ask(9, READ_PUMP)
        right += not is_abort(answer) and bytes.fromhex('3E91') + bytes([state]) in answer
    return right


def appends(port):
    """The answers to an append and to its repeat."""
    client = Client(port)
    return client.ask(7, APPEND), client.ask(7, APPEND)


def files(port):
    """How many reads of the long file are answered, under one invoke ID after the other."""
    client = Client(port)
    return sum(client.file(number) > LENGTH for number in range(FILES))


def beside(program, options, seconds, meets):
    """What a function of a server's port meets."""
    port = free_port()
    words = [program, 'serve', '--port', str(port), '--seconds', str(seconds + 60), *options]
    server = subprocess.Popen(words, stdout=subprocess.DEVNULL, stderr=subprocess.DEVNULL)
    try:
        while not has_port(server.pid, port):
            time.sleep(0.02)
        return meets(port)
    finally:
        server.kill()
        server.wait()


def served(program, options, seconds):
    """What the four clients meet."""
    def three(port):
        first, second = appends(port)
        return *oldest_read(program, port, seconds), switches(port), first == second and not is_abort(first)

    with tempfile.NamedTemporaryFile('w', suffix='.toml') as document:
        document.write(DOCUMENT)
        document.flush()
        long_reads = beside(program, ['--slots', str(SLOTS), '--objects', document.name, *options], seconds, files)
    return *beside(program, options, seconds, three), long_reads


def main(program, seconds=40):
    wrong = 0
    for options, is_fresh in (([], True), (['--strict'], False)):
        oldest, reads, right, once, long_reads = served(program, options, seconds)
        wrong += (oldest <= FRESH) != is_fresh or (right == 6) != is_fresh or not once or long_reads != (FILES if is_fresh else SLOTS)
        print(f'{" ".join(["serve", *options])}: reads={reads} oldest={oldest:.1f} s switches={right} of 6 append={"once" if once else "WRONG"} files={long_reads} of {FILES}')
    print(f'wrong={wrong}')
    return 1 if wrong else 0


if __name__ == '__main__':
    sys.exit(main(sys.argv[1], *map(int, sys.argv[2:])))
