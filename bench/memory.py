#!/usr/bin/env python3
"""Measures the memory of idle nodes and of simulated networks: memory.py PROGRAM; docs/BENCHMARKS.md says more."""

import socket
import subprocess
import sys
sys.dont_write_bytecode = True  # no __pycache__ beside the sources

import tempfile
import time
from pathlib import Path

PORT = 47_998


def private(process):
    """Kibibytes of memory that a process alone has."""
    sizes = Path(f'/proc/{process}/smaps_rollup').read_text().splitlines()
    return sum(int(line.split()[1]) for line in sizes if line.startswith(('Private_Clean:', 'Private_Dirty:')))


def of_server(bac, slots):
    with subprocess.Popen([bac, 'serve', '--port', str(PORT), '--slots', str(slots)], stdout=subprocess.DEVNULL, stderr=subprocess.PIPE) as child:
        child.stderr.readline()  # it listens
        time.sleep(0.5)
        found = private(child.pid)
        child.terminate()
    return found


def asked(port, reads):
    """Makes so many reads of one APDU, each new to the server, and waits for each answer."""
    for first in range(0, reads, 256):
        with socket.socket(socket.AF_INET, socket.SOCK_DGRAM) as asker:
            asker.settimeout(5)
            asker.connect(('127.0.0.1', port))
            for invoke_id in range(min(256, reads - first)):
                asker.send(bytes.fromhex('810A001101040005') + bytes([invoke_id]) + bytes.fromhex('0C0C000000051955'))
                assert asker.recv(1500)[6] == 0x30, 'an answer is no ComplexACK'


def of_entries(bac, entries):
    """Octets of a server's own for each live entry of a short reply, and KiB 70 seconds after the last."""
    with subprocess.Popen([bac, 'serve', '--port', str(PORT), '--strict'], stdout=subprocess.DEVNULL, stderr=subprocess.PIPE) as child:
        child.stderr.readline()  # it listens
        time.sleep(0.5)
        before = private(child.pid)
        asked(PORT, entries)
        found = private(child.pid)
        time.sleep(70)
        after = private(child.pid)
        child.terminate()
    return (found - before) * 1024 // entries, before, after


def of_network(bac, folder, nodes, rounds):
    """The peak of a simulation of so many nodes, of which each asks the next one, so many times in all."""
    script = Path(folder, 'script')
    lines = [f'nodes {nodes}'] + [f'ask {n % nodes} {(n + 1) % nodes} read 0:5 85' for n in range(rounds)]
    script.write_text('\n'.join(lines) + '\n')
    # GNU time is small itself: the kernel's peak of a child begins with what its parent had when it forked
    timed = subprocess.run(['/usr/bin/time', '-f', '%M', bac, 'simulate', str(script)], stdout=subprocess.DEVNULL, stderr=subprocess.PIPE, text=True, check=True)
    return int(timed.stderr.split()[-1])


def main(words):
    if len(words) != 1:
        print('usage: memory.py PROGRAM', file=sys.stderr)
        return 2
    bac = str(Path(words[0]).resolve())
    for slots in (1, 64, 256, 1_024, 65_536):
        print(f'bac serve, {slots} slots at each end: {of_server(bac, slots)} KiB of its own')
    each, before, after = of_entries(bac, 50_000)
    print(f'bac serve --strict, 50000 live entries of a read: {each} octets each; {before} KiB before, {after} KiB 70 seconds after the last')
    with tempfile.TemporaryDirectory() as folder:
        for nodes in (1, 2, 4, 8, 16):
            print(f'bac simulate, {nodes} nodes: peak {of_network(bac, folder, nodes, 0)} KiB; with 32 asks {of_network(bac, folder, nodes, 32)}')
    return 0


if __name__ == '__main__':
    sys.exit(main(sys.argv[1:]))
