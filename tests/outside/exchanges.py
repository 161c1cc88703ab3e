"""Generated transactions for explain.py: for each pair of peers, when who sends which datagram."""

import random
from dataclasses import dataclass

from captures import End

APPEND = '07C4028000010E31FF61AA0F'
WORDS = ['0C0C0000{0:04X}1955', '0F0C0080000119553E4442{0:02X}00003F', APPEND, '1A']
CHOICES = [0x0C, 0x0F, 0x07, 0x1A]
EDGES = [1, 5, 700, 5_000, 5_001, 10_000, 10_001, 20_000, 45_000, 65_000, 65_001]
NOISE = ['810B000801001008', '810A00080100 1008', '810A000701 8000', '810000060030', '810A000C0120FFFF00FF1008']  # none has a part in a transaction


@dataclass(frozen=True)
class Peer:
    """A link, and the network and address behind it where a router stands there."""

    end: End
    network: int = 0
    address: bytes = b''

    def octets(self):
        return self.network.to_bytes(2, 'big') + bytes([len(self.address)]) + self.address if self.network else b''


CLIENTS = [Peer(End('10.0.0.5')), Peer(End('10.0.0.6', 47_823)), Peer(End('10.0.0.7'), 5, b'\x2A')]
SERVERS = [Peer(End('10.0.0.9')), Peer(End('10.0.0.10'), 65_534, bytes.fromhex('0A000001BAC0'))]


@dataclass(frozen=True)
class Sent:
    """A datagram: when, in milliseconds, from whom to whom."""

    moment: int
    source: Peer
    to: Peer
    datagram: bytes


def datagram(source, to, apdu):
    control = (0x20 if to.network else 0) | (0x08 if source.network else 0) | (0x04 if apdu[0] >> 4 == 0 else 0)
    npdu = bytes([1, control]) + to.octets() + source.octets() + (b'\xFF' if to.network else b'') + apdu
    return b'\x81\x0A' + (len(npdu) + 4).to_bytes(2, 'big') + npdu


# ---- the APDUs of one transaction: when, whether the client sends, and its octets

def request(number, invoke_id, limits):
    """One of some whole requests."""
    return bytes([0x00, limits, invoke_id]) + bytes.fromhex(WORDS[number % 4].format(number % 256))


def answer(number, invoke_id, other):
    """What answers it; or something else."""
    front = bytes([0x30, invoke_id])
    whole = [front + bytes.fromhex(f'0C0C0000{number % 256:04X}19553E4442{90 + other:02X}999A3F'), bytes([0x20, invoke_id, 0x0F]),
             front + bytes.fromhex(f'0709{2 + other:02X}'), bytes([0x60, invoke_id, 9])][number % 4]
    return whole if other < 2 else [bytes([0x71, invoke_id, 1]), bytes([0x50, invoke_id, CHOICES[number % 4], 0x91, 1, 0x91, 31])][other % 2]


def foreign(chance, number, invoke_id):
    """An answer of another service."""
    choice = CHOICES[(number + chance.randrange(1, 4)) % 4]
    return chance.choice([bytes([0x20, invoke_id, choice]), bytes([0x50, invoke_id, choice, 0x91, 1, 0x91, 31]), bytes([0x30, invoke_id, choice, 0x09, 0x02])])


def exchange(chance, number, invoke_id, begin):
    asked, now = request(number, invoke_id, chance.choice([5, 5, 5, 4])), begin
    for _ in range(chance.choice([1, 1, 1, 2, 3, 4, 5, 6])):
        yield now, True, asked
        now += chance.choice(EDGES) if chance.randrange(6) == 0 else chance.randrange(1, 4_000)
    kind = chance.randrange(12)
    if kind == 0:
        return
    if kind == 1:
        yield now, True, bytes([0x70, invoke_id, 4])
        return
    if kind == 2:
        yield now, False, foreign(chance, number, invoke_id)
    for other in chance.choice([[0], [0], [0, 0], [0, 1], [1], [2], [0, 3]]):
        now += chance.choice(EDGES)
        yield now, False, answer(number, invoke_id, other)


def segment(by_client, invoke_id, choice, number, more, contents):
    front = bytes([0x08 | (4 if more else 0), 5, invoke_id]) if by_client else bytes([0x38 | (4 if more else 0), invoke_id])
    return front + bytes([number % 256, 4, choice]) + contents


def acknowledgement(chance, by_client, invoke_id, place):
    """A SegmentACK of the other side, mostly of what came last."""
    kind = (0x41 if by_client else 0x40) | (2 if chance.randrange(4) == 0 else 0)
    return bytes([kind, invoke_id, max(0, place - chance.choice([0, 0, 0, 1])) % 256, chance.choice([1, 1, 2, 4])])


def segments(chance, invoke_id, begin, count, losses):
    """A request or an answer in segments, of which one in so many is missing; some come twice, too often, too early, or were never sent."""
    now, by_client, contents = begin, chance.randrange(3) > 0, bytes([chance.randrange(3)])
    choice = 0x0F if by_client else 0x0C
    if not by_client:
        yield now, True, request(0, invoke_id, 5)
    for place in range(count):
        if chance.randrange(losses) == 0:
            continue
        number = chance.randrange(256) if chance.randrange(3 * losses) == 0 else place
        for _ in range(chance.choice([1] * losses + [2, 6])):
            now += chance.randrange(1, 50)
            yield now, by_client, segment(by_client, invoke_id, choice, number, place + 1 < count, contents + bytes([number % 256]))
        if chance.randrange(5):
            now += 1
            yield now, not by_client, acknowledgement(chance, by_client, invoke_id, place)
    yield from broken_off(chance, by_client, invoke_id, now)


def broken_off(chance, by_client, invoke_id, now):
    """How segments end: with an answer, with the Abort of one side, or both, or with nothing more."""
    ends = chance.choice([[], ['server'], ['client'], ['server', 'client'], ['answer'], ['answer'], ['answer', 'server']])
    for end in ends:
        now += chance.choice([1, 9, 5_001])
        if end == 'answer' and not by_client:
            continue
        octets = {'server': bytes([0x71, invoke_id, 1]), 'client': bytes([0x70, invoke_id, 4]), 'answer': bytes([0x20, invoke_id, 0x0F])}[end]
        yield now, end == 'client', octets


# ---- all of them

def story(chance, number):
    """The APDUs of a transaction at some moment."""
    begin, invoke_id = chance.randrange(400_000), chance.randrange(24)
    if number == 0:
        return segments(chance, invoke_id, begin, 300, 30)
    if number % 5 == 3:
        return segments(chance, invoke_id, begin, chance.randrange(2, 7), 6)
    return exchange(chance, chance.randrange(512), invoke_id, begin)


def pairs(seed):
    """For each pair of a client and a server its datagrams, in the order of their moments."""
    chance, found = random.Random(seed), {}
    for client in CLIENTS:
        for server in SERVERS:
            apdus = [each for number in range(60) for each in story(chance, number)]
            sent = [Sent(now, *((client, server) if by_client else (server, client)), datagram(*((client, server) if by_client else (server, client)), apdu))
                    for now, by_client, apdu in apdus]
            sent += [Sent(chance.randrange(400_000), client, server, bytes.fromhex(octets)) for octets in NOISE]
            found[client, server] = sorted(sent, key=lambda it: it.moment)
    return found


def crowd():
    """More requests at a time than may be open, then answers to all of them."""
    server = SERVERS[0]
    clients = [Peer(End(f'10.0.1.{number}')) for number in range(66)]
    asked = [(client, invoke_id) for client in clients for invoke_id in range(256)]
    sent = [Sent(number, client, server, datagram(client, server, request(0, invoke_id, 5))) for number, (client, invoke_id) in enumerate(asked)]
    return sent + [Sent(20_000 + number, server, client, datagram(server, client, answer(0, invoke_id, 0))) for number, (client, invoke_id) in enumerate(asked)]
