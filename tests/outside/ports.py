#!/usr/bin/env python3
"""The ports of many processes of `bac ask`: ports.py PROGRAM [AT_ONCE [SECONDS]]

So many processes of `bac ask` begin at once, at a silent device and at one that answers each request with an Error, and as soon as one ends the next one
begins. No two that begin within 165 seconds may have one port, and each has to end as its device says. An ask of the silent device takes 12 seconds, and
ports are in use again from 166 seconds on.
"""

import sys
sys.dont_write_bytecode = True  # no __pycache__ beside the sources

import itertools
import socket
import subprocess
import threading
import time
from collections import defaultdict
from concurrent.futures import ThreadPoolExecutor

from processes import LOOPBACK

REST = 165  # seconds between the ends of a share and the next client of its port
FIRST_PORT, LAST_PORT, BACNET_PORTS = 32_768, 58_704, range(47_808, 47_824)
SILENT_EVERY = 10  # one of so many asks is of the silent device
READ = ['read', '0:5', '85']
ENDS = {False: 'answered error', True: 'timed-out'}


class Device:
    """A device that is silent, or answers each request with an Error. It keeps when each port asked."""

    def __init__(self, is_silent):
        self.is_silent, self.asked = is_silent, defaultdict(list)
        self.socket = socket.socket(socket.AF_INET, socket.SOCK_DGRAM)
        self.socket.setsockopt(socket.SOL_SOCKET, socket.SO_RCVBUF, 1 << 22)
        self.socket.bind((LOOPBACK, 0))
        self.port = self.socket.getsockname()[1]
        threading.Thread(target=self.hear, daemon=True).start()

    def hear(self):
        while True:
            octets, (_, port) = self.socket.recvfrom(2048)
            if len(octets) < 9 or octets[6] >> 4 != 0:
                # no request: forger.py beside this one, say, sends answers to every port
                continue
            self.asked[port].append((time.monotonic(), octets[8]))
            if not self.is_silent:
                error = bytes([0x81, 0x0A, 0, 13, 1, 0, 0x50, octets[8], 12, 0x91, 1, 0x91, 31])
                self.socket.sendto(error, (LOOPBACK, port))


def ask(program, device):
    words = [program, 'ask', '--port', str(device.port), '--text', *READ]
    done = subprocess.run(words, capture_output=True, text=True, timeout=300)
    return done.stdout.startswith(ENDS[device.is_silent])


def ask_on(program, devices, number, end):
    """Asks one after the other until a moment. Answers how many ended as they should, and how many did not."""
    counts = [0, 0]
    for asked in itertools.count(number):
        counts[not ask(program, devices[asked % SILENT_EVERY == 0])] += 1
        if time.monotonic() >= end:
            return counts


def begins_of(devices):
    """The first requests of clients, by port: those of one client lie less than 60 seconds apart, and have one invoke ID."""
    begins = defaultdict(list)
    for device in devices:
        for port, asked in device.asked.items():
            last = None
            for moment, invoke_id in asked:
                if last is None or invoke_id != last[1] or moment > last[0] + 60:
                    begins[port].append(moment)
                last = moment, invoke_id
    return begins


def wrong_in(begins):
    for port, moments in begins.items():
        if not FIRST_PORT <= port <= LAST_PORT or port in BACNET_PORTS:
            yield f'port {port}'
        for one, other in zip(sorted(moments), sorted(moments)[1:]):
            if other < one + REST:
                yield f'port {port} again after {other - one:.3f} s'


def main(words):
    program = words[0]
    at_once, seconds = map(int, (words[1:] + ['300', '400'][len(words) - 1:])[:2])
    devices = [Device(is_silent) for is_silent in (False, True)]
    end = time.monotonic() + seconds
    with ThreadPoolExecutor(at_once) as pool:
        counts = list(pool.map(lambda number: ask_on(program, devices, number, end), range(at_once)))
    begins = begins_of(devices)
    wrong = list(wrong_in(begins))
    ended = sum(count[0] for count in counts)
    lost = sum(count[1] for count in counts)
    again = sum(len(moments) - 1 for moments in begins.values())
    for text in wrong:
        print(f'WRONG: {text}')
    print(f'{ended} asks ended as they should, {lost} did not; {len(begins)} ports, {again} times one in use again; {len(wrong)} wrong')
    return 1 if wrong or lost else 0


if __name__ == '__main__':
    sys.exit(main(sys.argv[1:]))
