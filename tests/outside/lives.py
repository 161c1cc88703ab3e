#!/usr/bin/env python3
"""Generated scripts for `bac simulate`, whose nodes change their stores and restart again and again: lives.py PROGRAM FIRST COUNT [strangers]

Scripts number FIRST and on, COUNT of them, of 500 events each. What the program prints is followed on stores of the script's own: each ask is performed at most
once, and never while its server waits; none is accepted while its client waits; each ends at most once, in the life of its client in which it was asked; and an
answer is the one that its server's store gave when it was performed. Moments are chosen at both edges of the waits, too.

With `strangers`, each node has a clock of its own, which begins anywhere and is made faster and slower again and again, and strangers ask nodes, answer them
and send what they like. What is performed for a stranger is performed on the same stores, and not again under its invoke ID while the entry lives; an ask of a
stranger is answered with what that stranger has just sent.
"""

import sys
sys.dont_write_bytecode = True  # no __pycache__ beside the sources

import random
import subprocess
from collections import Counter
from concurrent.futures import ThreadPoolExecutor

NODES = 3
EVENTS = 500
BATCH = 50  # so many events are guessed before the program is run again: a copy that is not there ends a script
SERVES, ASKS = 65_000, 75_000  # how long the ends of a restarted node wait
FILE_LIMIT = 60_000
KEEP = 65_000  # how long an entry of a reply table lives
PARTS = 1_000_000  # of a millisecond
DRIFT = 1_000
LINKS = ('10.0.0.9:47808', '10.0.0.9:47809', '192.168.7.200:1')
PAUSES = (1, 7, 2_000, 3_000, 5_000, 8_000, 30_000, 60_000)
MARK = 'advance 0'  # prints `nothing`: the end of what the event before it prints


def datagram(octets):
    """The octets of an NPDU in a frame of BACnet/IP."""
    return (b'\x81\x0A' + (len(octets) + 4).to_bytes(2, 'big') + octets).hex().upper()


def asking(invoke_id, words):
    """A stranger's request, in one APDU."""
    kind, rest = words[0], words[2:]
    if kind == 'append':
        octets = bytes.fromhex(rest[0])
        length = bytes([0x65, len(octets)]) if len(octets) > 4 else bytes([0x60 + len(octets)])
        return datagram(b'\x01\x04\x00\x05' + bytes([invoke_id, 7]) + bytes.fromhex('C4028000010E31FF') + length + octets + b'\x0F')
    place = {'0:5': '0C000000051955', '2:1': '0C008000011955'}[words[1]]
    value = '3E' + rest[1] + '3F' if kind == 'write' else ''
    return datagram(b'\x01\x04\x00\x05' + bytes([invoke_id, 15 if kind == 'write' else 12]) + bytes.fromhex(place + value))


class Node:
    def __init__(self, start):
        self.file, self.values = b'OK', {'0:5': '444290999A', '2:1': '4400000000'}
        self.clock, self.rate = start * PARTS, PARTS  # by its own clock
        self.restarts = []
        self.served = {}  # when a request of a stranger was performed in this life, by its link and invoke ID

    def shows(self):
        return self.clock // PARTS

    def waits(self, wait):
        return bool(self.restarts) and self.shows() - self.restarts[-1] <= wait

    def until(self, moment):
        """After how many milliseconds of real time its clock shows that."""
        return -((self.clock - moment * PARTS) // self.rate)

    def restart(self, anew):
        """A clock of its own begins at 0."""
        self.clock = 0 if anew else self.clock
        self.served = {}
        self.restarts.append(self.shows())

    def perform(self, words):
        """What a request is answered, and what it makes of the store."""
        kind, at, rest = words[0], words[1], words[2:]
        if kind == 'read':
            return f'answered read {self.values[at]}'
        if kind == 'write':
            self.values[at] = rest[1]
            return 'answered written'
        if kind == 'get':
            position, count = int(rest[0]), int(rest[1])
            if position > len(self.file):
                return 'answered error'
            octets = self.file[position:position + count]
            return f'answered file {int(position + count >= len(self.file))} {position} {octets.hex().upper() or "_"}'
        position, octets = len(self.file), bytes.fromhex(rest[0])
        if position + len(octets) > FILE_LIMIT:
            return 'answered error'
        self.file += octets
        return f'answered position {position}'


class Story:
    def __init__(self, number, strangers):
        self.chance, self.lines, self.strangers = random.Random(number), [], strangers
        starts = [self.chance.choice((0, 7, 4_294_967_295, self.chance.randrange(2**32))) if strangers else 0 for _ in range(NODES)]
        self.nodes, self.now, self.asks, self.copies, self.read = [Node(start) for start in starts], 0, [], 0, 0
        self.head = [f'clock {node} {start}' for node, start in enumerate(starts)] if strangers else []
        self.counts = Counter()

    def number(self):
        return self.chance.randrange(NODES)

    def real(self):
        return '44' + self.chance.randbytes(4).hex().upper()

    def words(self):
        many = self.chance.randbytes(self.chance.choice((3, 40, 3_000))).hex().upper()
        return self.chance.choice((f'append 10:1 {many}', f'append 10:1 {many}', 'read 0:5 85', 'read 2:1 85', f'write 2:1 85 {self.real()}', 'get 10:1 0 4000'))

    def pause(self, passed):
        """Some time passes; often until a node has waited, or a millisecond before or after. So much has passed since the last run."""
        moments = [(node, r + wait + more) for node in self.nodes for r in node.restarts[-1:] for wait in (SERVES, ASKS) for more in (-1, 0, 1)]
        moments += [(node, at + KEEP + more) for node in self.nodes for at, _ in node.served.values() for more in (0, 1)]
        moments = [node.until(moment) - passed for node, moment in moments]
        moments = [moment for moment in moments if moment > 0]
        if moments and self.chance.random() < 0.3:
            return self.chance.choice(moments)
        return self.chance.choice(PAUSES)

    def stranger(self):
        """A stranger asks a node or answers it, is asked, or sends what it likes; or a clock goes faster or slower."""
        draw, node, link = self.chance.random(), self.number(), self.chance.choice(LINKS)
        if draw < 0.2:
            return f'pace {node} {self.chance.choice((0, DRIFT, -DRIFT, self.chance.randrange(-DRIFT, DRIFT + 1)))}', None
        if draw < 0.7:
            invoke_id = self.chance.randrange(3)
            words = self.chance.choice((f'append 10:1 {self.chance.randbytes(self.chance.choice((1, 40))).hex().upper()}', 'read 0:5 85', f'write 2:1 85 {self.real()}')).split()
            return f'stranger {node} {link} {asking(invoke_id, words)}', (invoke_id, words)
        if draw < 0.8:
            return f'ask {node} {link} read 0:5 85', None
        if draw < 0.95:
            value = self.real()
            answer = datagram(bytes.fromhex(f'010030{self.chance.randrange(6):02X}0C0C0000000519553E{value}3F'))
            return f'stranger {node} {link} {answer}', ('answer', f'answered read {value}')
        return f'stranger {node} {link} {self.chance.randbytes(self.chance.randrange(20)).hex().upper()}', None

    def event(self, copies, now):
        draw = self.chance.random()
        if draw < 0.15:
            client = self.number()
            return f'ask {client} {(client + 1) % NODES} {self.words()}'
        if draw < 0.18:
            return f'restart {self.number()}'
        if draw < 0.23:
            return self.chance.choice((f'set {self.number()} 0:5 85 {self.real()}', f'file {self.number()} 10:1 {self.chance.randbytes(5).hex().upper()}'))
        if draw < 0.31:
            return f'advance {self.pause(now)}'
        if draw < 0.42 or not copies:
            return f'tick {self.number()}'
        return f'deliver {max(0, copies - 1 - min(self.chance.randrange(6), self.chance.randrange(6)))}'

    def guess(self):
        """The next events, each with a mark behind it."""
        copies, passed, batch, meant = self.copies, 0, [], []
        for _ in range(BATCH):
            event, means = self.stranger() if self.strangers and self.chance.random() < 0.3 else (self.event(copies, passed), None)
            copies += (event.startswith('ask') and ':4' not in event) or (event.startswith('deliver') and self.chance.random() < 0.5)
            passed += int(event.split()[1]) if event.startswith('advance') else 0
            batch += [event, MARK]
            meant.append(means)
        return batch, meant

    def must(self, holds, what):
        if not holds:
            raise SystemExit(f'WRONG: {what}: at {self.now}, event {len(self.lines) // 2}')

    def asked(self, event, line):
        _, client, server, *words = event.split()
        waits = self.nodes[int(client)].waits(ASKS)
        if line.startswith('refused'):
            self.must(line == 'refused 2' and waits, f'{event[:40]}: {line}')
            self.counts['asks refused'] += 1
            return
        self.must(not waits and line.split()[1] == str(len(self.asks)), f'{event[:40]}: {line}')
        stranger = server if ':' in server else None
        self.must(stranger is None or line.split()[2] == stranger, f'{event[:40]}: {line}')
        self.asks.append({'client': int(client), 'life': len(self.nodes[int(client)].restarts), 'server': None if stranger else int(server), 'stranger': stranger, 'words': words, 'reply': None, 'end': None})
        self.counts['strangers asked' if stranger else 'asked'] += 1

    def performed(self, ask):
        self.must(ask['stranger'] is None, 'performed')
        server = self.nodes[ask['server']]
        self.must(ask['reply'] is None and not server.waits(SERVES), 'performed')
        ask['reply'] = server.perform(ask['words'])
        self.counts['performed'] += 1
        self.counts['performed by one that restarted'] += bool(server.restarts)

    def serves(self, event, means, node, link, how):
        """A stranger's request is performed, and not again under its invoke ID in this life until its entry has died."""
        kind, at, source, _ = event.split()
        server, (invoke_id, words) = self.nodes[int(node)], means
        self.must(kind == 'stranger' and at == node and source == link and not server.waits(SERVES), f'served {node} {link}')
        last, _ = server.served.get((link, invoke_id), (None, None))
        self.must(last is None or server.shows() - last > KEEP, f'served {node} {link} again')
        reply = server.perform(words)
        self.must(how == reply or how.startswith(reply + ' '), f'{how[:60]} for {reply[:60]}')
        server.served[link, invoke_id] = (server.shows(), words)
        self.counts['performed for strangers'] += 1
        self.counts['performed for strangers again'] += last is not None

    def ended(self, ask, how, event, means):
        self.must(ask['end'] is None and ask['life'] == len(self.nodes[ask['client']].restarts), 'ended')
        ask['end'] = how
        if ask['stranger'] and how.startswith('answered'):
            _, node, link, *_ = event.split()
            self.must(means == ('answer', how) and int(node) == ask['client'] and link == ask['stranger'], f'{how} at {event[:40]}')
            self.counts['answered by strangers'] += 1
            return
        if how.startswith('answered'):
            self.must(ask['reply'] is not None and (how == ask['reply'] or how.startswith(ask['reply'] + ' ')), f'{how[:60]} for {str(ask["reply"])[:60]}')
        self.counts[how.split()[0] if how.startswith('answered') else how] += 1

    def happens(self, event, means, lines):
        """An event, and what was printed of it."""
        kind, *rest = event.split()
        if kind == 'ask':
            self.asked(event, lines[0])
        elif kind == 'advance':
            self.now += int(rest[0])
            for node in self.nodes:
                node.clock += int(rest[0]) * node.rate
        elif kind == 'pace':
            self.nodes[int(rest[0])].rate = PARTS + int(rest[1])
            self.must(lines == [f'paced {rest[0]} {rest[1]}'], event)
            self.counts['paces'] += 1
        elif kind == 'restart':
            self.nodes[int(rest[0])].restart(self.strangers)
            self.counts['restarts'] += 1
        elif kind == 'set':
            self.nodes[int(rest[0])].values[rest[1]] = rest[3]
        elif kind == 'file':
            self.nodes[int(rest[0])].file = bytes.fromhex(rest[2])
        for line in lines:
            word, *more = line.split(' ', 2)
            if word == 'performed':
                self.performed(self.asks[int(more[0])])
            elif word == 'served':
                self.serves(event, means, more[0], *more[1].split(': ', 1))
            elif word == 'ended':
                self.ended(self.asks[int(more[0])], more[1], event, means)
            elif word == 'sent':
                self.copies += 1

    def goes_on(self, program):
        """The script so far and the next events are run; what was printed before is passed over."""
        batch, meant = self.guess()
        script = '\n'.join([f'nodes {NODES}', *self.head, *self.lines, *batch]) + '\n'
        out = subprocess.run([program, 'simulate', '-'], input=script, capture_output=True, text=True).stdout.splitlines()
        new, place = out[self.read:], 0
        for event, means in zip(batch[::2], meant):
            if place < len(new) and new[place].startswith('line '):
                break
            end = new.index('nothing', place + 1)
            self.lines += [event, MARK]
            self.happens(event, means, new[place:end])
            place = end + 1
        self.read += place


def followed(program, number, strangers):
    story = Story(number, strangers)
    while len(story.lines) < 2 * EVENTS:
        story.goes_on(program)
    story.counts['events'] = len(story.lines) // 2
    return story.counts


def main(words):
    program, first, count, strangers = words[0], int(words[1]), int(words[2]), words[3:] == ['strangers']
    with ThreadPoolExecutor(4) as pool:
        counts = sum(pool.map(lambda number: followed(program, number, strangers), range(first, first + count)), Counter())
    print(', '.join(f'{number} {name}' for name, number in sorted(counts.items(), key=lambda it: -it[1])))
    print('0 wrong')


if __name__ == '__main__':
    main(sys.argv[1:])
