#!/usr/bin/env python3
"""Two clients write the set-points of examples/c/plant through a network that loses 30 % of the datagrams: controller.py OUT SEED

OUT has `plant` and `ask`, as `make -C tests/c check` makes them. Each client writes one of the two set-points, a value of its own each time, some of them
outside the limits. The controller prints and logs each write that it performed: none may be told twice, each that was answered has to be told, none outside
the limits, and its log file has to be as long as what it told. At the end the set-points are the last ones that were told.
"""

import struct
import subprocess
import sys
sys.dont_write_bytecode = True  # no __pycache__ beside the sources

from concurrent.futures import ThreadPoolExecutor

import proxy
from proxy import Network

LOST = 0.3
WRITES, OUTSIDE_EVERY = 12, 4
LEAST, MOST = 5.0, 35.0


class Plant:
    """A process of examples/c/plant, at a port that it chose."""

    def __init__(self, out):
        self.process = subprocess.Popen([f'{out}/plant', '0', '600'], stdout=subprocess.PIPE, stderr=subprocess.PIPE, text=True)
        self.port = int(self.process.stdout.readline().removeprefix('port '))

    def finish(self):
        """Ends it: what it printed, and what it complained of."""
        self.process.terminate()
        return self.process.communicate()


def ask(out, port, words):
    """The line that examples/c/ask prints."""
    done = subprocess.run([f'{out}/ask', str(port), *words], capture_output=True, text=True, timeout=120)
    return done.stdout.strip()


def value_of(client, number):
    """The value of a write: no two are the same, and some are outside the limits."""
    value = 10.0 + client * 10 + number / 2
    return value + 50 if number % OUTSIDE_EVERY == OUTSIDE_EVERY - 1 else value


def line_of(client, value):
    return f'set 2:{client} {value:.2f} priority 0'


def writes(out, network, port, client):
    """The writes of one client, one after the other: the line that is told of each if it is performed, its value, and how it ended."""
    done = []
    for number in range(WRITES):
        value = value_of(client, number)
        with network.route(port, client * WRITES + number) as way:
            done.append((line_of(client, value), value, ask(out, way, ['2', str(client), '85', '44' + struct.pack('>f', value).hex()])))
    return done


def judge(asked, told):
    """What is wrong with what was told of the writes."""
    wrong = [f'{line}: nobody asked for it' for line in told if line not in [line for line, _, _ in asked]]
    for line, value, end in asked:
        count, fits = told.count(line), LEAST <= value <= MOST
        if count > 1 or (count and not fits) or (end == 'answered written' and not count):
            wrong.append(f'{line}: told {count} times, {end}')
        if not fits and end not in ('answered error 2:37', 'ended timed out', 'ended expired'):
            wrong.append(f'{line}: {end}')
    return wrong


def last_of(told, client):
    """The set-point that was told last."""
    return [line.split()[2] for line in told if line.startswith(f'set 2:{client} ')][-1]


def main(words):
    out, seed = words[0], int(words[1])
    proxy.DROPPED = LOST
    plant = Plant(out)
    with Network(seed) as network, ThreadPoolExecutor(2) as pool:
        asked = [write for each in pool.map(lambda client: writes(out, network, plant.port, client), (1, 2)) for write in each]
        network.wait_until_empty()
        summary = network.summary()
    ends = [ask(out, plant.port, ['2', str(client), '85']) for client in (1, 2)]
    log = ask(out, plant.port, ['10', '1', '42'])
    printed, complaints = plant.finish()
    told = printed.splitlines()
    wrong = judge(asked, told)
    if complaints:
        wrong.append(f'plant says {complaints!r}')
    for client, end in zip((1, 2), ends):
        last = '44' + struct.pack('>f', float(last_of(told, client))).hex().upper()
        if end != f'answered read {last}':
            wrong.append(f'set-point {client}: {end}, not {last}')
    octets = bytes.fromhex(log.removeprefix('answered read '))
    if int.from_bytes(octets[1:], 'big') != len(printed):
        wrong.append(f'the log has {int.from_bytes(octets[1:], "big")} octets, and {len(printed)} were told')
    answered = sum(end.startswith('answered') for _, _, end in asked)
    print(f'controller: {len(asked)} writes through a network that loses {LOST:.0%}, {answered} answered, {len(told)} performed; {summary}')
    for text in wrong:
        print(f'WRONG: {text}')
    return 1 if wrong or not told else 0


if __name__ == '__main__':
    sys.exit(main(sys.argv[1:]))
