#!/usr/bin/env python3
"""Kills `bac serve --keep` at random moments while clients append to a file: keep.py PROGRAM [KILLS [SEED]] [losses]

Sixteen clients append four octets at a time to file 1, each its own number and a count, and send an append again that is not answered. After `kill -9` the
database is read with sqlite3: each append that was answered is there once, each other one at most once, and nothing is between them. Each life has a new file.

With `losses` the clients ask through proxy.py, which drops, repeats, delays and reorders datagrams, and four lives in turn have one file and one port. A later life
begins with a server that waits for 65 seconds; one in three is killed once while it starts. Up to a hundred files have their lives side by side."""

import random
import shutil
import signal
import socket
import subprocess
import sys
import tempfile
import threading
import time
sys.dont_write_bytecode = True  # no __pycache__ beside the sources

from concurrent.futures import ThreadPoolExecutor
from contextlib import ExitStack
from pathlib import Path

from kept import append_of, kept_cells, log_of
from processes import LOOPBACK, free_port
from proxy import Network

CLIENTS = 16
LONGEST = 0.4  # seconds of a life
LONGEST_LOSSY = 3.0
AGAIN = 0.5  # seconds until an append is sent again
MOST = 250  # appends of a client in a life: each has an invoke ID of its own
FILE = 1
HOUSE = b'OK'  # what file 1 of the house has
LIVES = 4  # of a file, with losses
FILES = 100  # side by side
WAITS = 65.1  # seconds until a server that starts again performs requests
EARLY = 3  # one in so many later lives is killed while it starts, within so many seconds
EARLY_SECONDS = 0.05


class Client(threading.Thread):
    """Appends until it is told to stop, one at a time; counts what was answered."""

    def __init__(self, number, port):
        super().__init__(daemon=True)
        self.number, self.server, self.answered, self.asked, self.stopped, self.refused = number, (LOOPBACK, port), 0, 0, False, None

    def run(self):
        with socket.socket(socket.AF_INET, socket.SOCK_DGRAM) as link:
            link.bind((LOOPBACK, 0))
            link.settimeout(AGAIN)
            while not self.stopped and self.asked < MOST:
                self.asked += 1
                if not self.is_answered(link, self.asked):
                    return
                self.answered = self.asked

    def is_answered(self, link, count):
        datagram = append_of(count, FILE, bytes([self.number]) + count.to_bytes(3, 'big'))
        while not self.stopped:
            try:
                link.sendto(datagram, self.server)
                apdu = link.recv(2048)[6:]
                while apdu[1] != count:  # a copy of an earlier answer
                    apdu = link.recv(2048)[6:]
            except (TimeoutError, ConnectionError):
                continue
            if apdu[0] >> 4 == 3:
                return True
            self.refused = apdu.hex()
            return False
        return False


def kept_file(path):
    """The octets of file 1 in a copy of the database at that path (sqlite3 empties the log of what it reads), and None if it has none."""
    with tempfile.TemporaryDirectory(dir=Path(path).parent) as folder:
        copy = str(Path(folder, 'copy.db'))
        shutil.copy(path, copy)
        shutil.copy(log_of(path), log_of(copy))
        return kept_cells(copy)[1].get(FILE)


def server_at(program, port, path):
    words = [program, 'serve', '--port', str(port), '--keep', path]
    return subprocess.Popen(words, stdout=subprocess.DEVNULL, stderr=subprocess.PIPE, text=True)


def kill(server):
    server.send_signal(signal.SIGKILL)
    server.wait()
    server.stderr.close()


def live_once(server, ports, seconds):
    """Clients append by these ports for so many seconds, until the server is killed. Returns them."""
    clients = [Client(number, port) for number, port in enumerate(ports)]
    for client in clients:
        client.start()
    time.sleep(seconds)
    kill(server)
    for client in clients:
        client.stopped = True
    for client in clients:
        client.join()
    return clients


def faults_of(clients, before, kept):
    """What is wrong with the octets that are kept, where a file had others before."""
    faults = [f'client {client.number} got {client.refused}' for client in clients if client.refused]
    if kept is None:
        return faults + (['an answered append is lost'] if any(client.answered for client in clients) or before != HOUSE else [])
    if not kept.startswith(before) or (len(kept) - len(before)) % 4:
        return faults + ['the file is torn']
    found = [kept[at:at + 4] for at in range(len(before), len(kept), 4)]
    for client in clients:
        counts = [int.from_bytes(each[1:], 'big') for each in found if each[0] == client.number]
        if counts != list(range(1, len(counts) + 1)):
            faults.append(f'client {client.number} has appends {counts}')
        if not client.answered <= len(counts) <= client.asked:
            faults.append(f'client {client.number} has {len(counts)} appends, {client.answered} answered of {client.asked}')
    return faults


class Chain:
    """Lives of one file, the faults that were found after them, and how many appends were answered, and kept and not answered."""

    def __init__(self, program, chance):
        self.program, self.chance, self.faults, self.answered, self.ahead, self.starts_killed = program, chance, [], 0, 0, 0

    def live(self, lives, longest, routes=None):
        """Lives, one after the other; with routes the clients ask by them."""
        with tempfile.TemporaryDirectory() as folder, ExitStack() as ways:
            path, port, before = str(Path(folder) / 'kept.db'), free_port(), HOUSE
            ports = [ways.enter_context(routes(port)) for _ in range(CLIENTS)] if routes else [port] * CLIENTS
            for life in range(lives):
                if life and self.chance.randrange(EARLY) == 0:
                    self.starts_killed += 1
                    server = server_at(self.program, port, path)
                    time.sleep(self.chance.random() * EARLY_SECONDS)
                    kill(server)
                server = self.started(port, path, life)
                clients = live_once(server, ports, self.chance.random() * longest)
                kept = kept_file(path)
                self.faults += [f'{path}, life {life}: {fault}' for fault in faults_of(clients, before, kept)]
                done = sum(client.answered for client in clients)
                self.answered += done
                if kept is not None:
                    self.ahead += (len(kept) - len(before)) // 4 - done
                    before = kept
        return self

    def started(self, port, path, life):
        """A server that performs requests."""
        server = server_at(self.program, port, path)
        said = server.stderr.readline()
        if said.startswith('listening') and not life:
            return server
        if said.startswith('listening') and server.stderr.readline().startswith('serving from'):
            time.sleep(WAITS)
            return server
        kill(server)
        raise SystemExit(f'no server in life {life}: {said}')


def main(words):
    is_lossy = 'losses' in words
    program, *numbers = (word for word in words if word != 'losses')
    kills, seed = (*map(int, numbers), *(20, 1)[len(numbers):])
    if not is_lossy:
        chain = Chain(program, random.Random(seed))
        for _ in range(kills):
            chain.live(1, LONGEST)
        chains = [chain]
    else:
        chains = lossy_lives(program, kills // LIVES, seed)
    for fault in (faults := [fault for chain in chains for fault in chain.faults])[:20]:
        print(f'WRONG: {fault}')
    answered, ahead, early = (sum(getattr(chain, name) for chain in chains) for name in ('answered', 'ahead', 'starts_killed'))
    print(f'{kills} kills{f", and {early} of servers that started" if early else ""}: {answered} appends answered, '
          + (f'{len(faults)} wrong' if faults else f'none lost, none twice; {ahead} kept and not answered'))
    return 1 if faults else 0


def lossy_lives(program, files, seed):
    """The lives of so many files, whose clients ask through one network."""
    with Network(seed) as network, ThreadPoolExecutor(min(FILES, files)) as pool:
        number = iter(range(files * CLIENTS))

        def live(file):
            chance = random.Random(f'{seed} {file}')
            time.sleep(chance.random() * WAITS)  # so that they do not all live at once
            return Chain(program, chance).live(LIVES, LONGEST_LOSSY, lambda port: network.route(port, next(number)))

        chains = list(pool.map(live, range(files)))
    print(f'network: {network.summary()}')
    return chains


if __name__ == '__main__':
    sys.exit(main(sys.argv[1:]))
