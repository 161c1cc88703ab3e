#!/usr/bin/env python3
"""Forged answers to `bac ask`, sent blindly: forger.py PROGRAM [ASKS [SEED]]

The forger has the address of a device that is silent, and knows to 250 ms when a `bac ask` of it began. It sees no request. It sends one answer to each pair
of a port and an invoke ID that the time of day alone would tell (a pair each 11 microseconds: so `bac ask` once chose them), and as many to pairs that it
draws. An ask is forged if it prints one of these answers. The status is 1 if more than one of the asks is forged: a drawn pair may be right by chance, once in
6.6 million.
"""

import sys
sys.dont_write_bytecode = True  # no __pycache__ beside the sources

import random
import socket
import subprocess
import time
from pathlib import Path

from processes import LOOPBACK, links_of

KNOWN = 250_000  # microseconds: what the forger knows of the moment at which a client began
EACH, PAIRS = 11, 27_344 * 256  # the pairs that the time of day alone would tell
FIRST_PORT, BACNET_PORT, BACNET_PORTS = 32_768, 47_808, 16
PORTS = 25_921  # those of the clients of today
WAIT = 12  # seconds: an ask waits so long for its answer
FORGED = '42C80000'  # 100.0
READ = ['read', '0:5', '85']
ANSWER = bytes.fromhex('0C000000051955' '3E44' + FORGED + '3F')


def port_of(place):
    """The port at a place, behind the first: those of BACnet/IP are passed over."""
    port = FIRST_PORT + place
    return port if port < BACNET_PORT else port + BACNET_PORTS


def told_pairs(began):
    """The pairs that the time of day tells in the span before the moment at which the client was seen."""
    for number in range((began - KNOWN) // EACH, began // EACH + 1):
        yield port_of(number % PAIRS // 256), number % PAIRS % 256


def drawn_pairs(drawing, count):
    for _ in range(count):
        yield port_of(drawing.randrange(PORTS)), drawing.randrange(256)


def answer_of(invoke_id):
    """A ComplexACK with that invoke ID: the answer to the read."""
    octets = bytes([1, 0, 0x30, invoke_id, 12]) + ANSWER
    return bytes([0x81, 0x0A]) + (4 + len(octets)).to_bytes(2, 'big') + octets


def udp_sockets():
    """The numbers of the UDP sockets of this machine."""
    return {line.split()[9] for line in Path('/proc/net/udp').read_text().splitlines()[1:]}


def children_of(process):
    """The process and those that it became or started: the program may stand behind a script."""
    try:
        started = Path(f'/proc/{process}/task/{process}/children').read_text().split()
    except OSError:
        return [process]
    return [process] + [child for one in started for child in children_of(int(one))]


def wait_for_socket(process):
    """Waits until a client has a socket. Answers when, in microseconds since 1970 began, or None."""
    end = time.monotonic() + WAIT
    while time.monotonic() < end:
        links = [link for one in children_of(process) for link in links_of(one)]
        if any(f'socket:[{number}]' in links for number in udp_sockets()):
            return time.time_ns() // 1000
        time.sleep(0.001)
    return None


def forge(device, began, drawing):
    """Sends the answers. Answers how many."""
    pairs = list(told_pairs(began))
    pairs += drawn_pairs(drawing, len(pairs))
    for port, invoke_id in pairs:
        device.sendto(answer_of(invoke_id), (LOOPBACK, port))
    return len(pairs)


def ask(program, device, drawing):
    """One ask of the device. Answers what it printed, and how many answers were sent to it blindly."""
    words = [program, 'ask', '--port', str(device.getsockname()[1]), '--timeout', str(WAIT), *READ]
    with subprocess.Popen(words, stdout=subprocess.PIPE, stderr=subprocess.DEVNULL, text=True) as client:
        began = wait_for_socket(client.pid)
        sent = forge(device, began, drawing) if began else 0
        return client.communicate(timeout=10 * WAIT)[0].strip(), sent


def main(words):
    program, asks, seed = words[0], int((words + ['8'])[1]), int((words[1:] + ['1', '1'])[1])
    drawing, forged, sent = random.Random(seed), 0, 0
    for _ in range(asks):
        with socket.socket(socket.AF_INET, socket.SOCK_DGRAM) as device:
            device.bind((LOOPBACK, 0))
            said, count = ask(program, device, drawing)
        if count == 0:
            raise SystemExit(f'a client had no socket within {WAIT} s: {said!r}')
        forged += FORGED in said
        sent += count
    print(f'{forged} of {asks} asks forged, by {sent} answers')
    return 1 if forged > 1 else 0


if __name__ == '__main__':
    sys.exit(main(sys.argv[1:]))
