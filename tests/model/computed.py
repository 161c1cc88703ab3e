#!/usr/bin/env python3
"""Runs that the definitions compute (Examples, Edges, Drift, Beyond and LateStarts in crates/bac_protocol/specs), played by the model: computed.py

A script has words. `ask`; `d5` delivers copy 5, `n5` where no slot is free, `d2..9` copies 2 to 9; `e10` lets 10 ms pass; `tick`, `client` and `server` tick;
`restart-client`, `restart-server`, `begin0:7` and `again` start ends, with clocks at 0 or at 7. What was sent and logged has to be what the definitions compute:
`q` is a request, `r` a reply, `q3` and `r3` their segments, `+3` and `-3` SegmentACKs, `x` an Abort.
"""

import sys
sys.dont_write_bytecode = True  # no __pycache__ beside the sources

from bounds import WHOLE, longer, times
from judge import judge
from server import Rules
from transfer import Abort, ComplexAck, Limits, Request, SegmentAck, Settings
from world import Node, Setup, World

KEY = (0, 1, 0)
HERE = Setup()


def letters(apdu):
    """What a copy is, in short."""
    if type(apdu) is SegmentAck:
        return f'{"-" if apdu.nak else "+"}{apdu.number}'
    head = {Request: 'q', ComplexAck: 'r', Abort: 'x'}[type(apdu)]
    return head if type(apdu) is Abort or apdu.segment is None else f'{head}{apdu.segment.number}'


def words_of(fact):
    """What a fact says, in short."""
    word = fact[2][0] if fact[0] == 'ended' else fact[0]
    return f'{word} {fact[1]}'


class Play:
    """A script that is played: the octets of requests and replies, and the greatest window."""

    def __init__(self, script, setup=HERE, octets=(13, 3), window=32):
        self.world = World(setup, [Node(Settings(Limits(50, True, 100_000), window), Rules(False, None), 5) for _ in range(3)])
        self.octets, self.count = octets, 0
        for word in script.split():
            self.play(word)
        self.sent = ' '.join(letters(apdu) for _, _, apdu, _ in self.world.copies.values())
        self.log = ', '.join(words_of(fact) for fact in self.world.log)
        self.wrong = judge(self.world)

    def do(self, *event):
        self.count += 1
        self.world.do(self.count, event)

    def play(self, word):
        settings = self.world.nodes[0].client.settings
        plain = {'client': [('tick_client', 0)], 'server': [('tick_server', 1)], 'tick': [('tick_client', 0), ('tick_server', 1)],
                 'restart-client': [('restart_client', 0, 0, settings)], 'restart-server': [('restart_server', 1, 0, settings, Rules(False, None), None)],
                 'again': [('begin_again', 0, 0, settings)]}
        if word == 'ask':
            self.do('ask', KEY, 7, ((2 * self.count + 1) * 100_000 + self.octets[0] - 1) * 100_000 + self.octets[1], 50)
        elif word in plain:
            for event in plain[word]:
                self.do(*event)
        elif word.startswith('begin'):
            self.do('begin', *map(int, word[5:].split(':')))
        elif word[0] == 'e':
            by, *owns = map(int, word[1:].split(':'))
            self.do('advance', by, (*(owns or (by, by)),) * 3)
        else:
            first, _, last = word[1:].partition('..')
            for number in range(int(first), int(last or first) + 1):
                self.do('deliver', list(self.world.copies)[number], word[0] == 'd')


TWICE, MIXED, OTHER = 'performed twice', 'answered with what is no reply to it', 'performed another request than the one asked'
AT_ONCE, LATE = 'ask d0', 'e60000 client e5000 d2'
OLD = 'e5000 d0 e65000 server e5000'
AGAIN = 'ask d2 d3 d4 d6'
SEGMENT = 'ask e60000 client e5000 d1 e65000 client server e5000'
UNSEEN = 'ask e60000 client e5000 d1 e65000 server e5000'
TWO = {'octets': (13, 60)}
CLOCKS = 'ask d0 e60060:60000:60120 client e{0}:{0}:{1} d2'

# Each: its name, the run, what is wrong with it, and what it sends or logs, where that is said.
RUNS = [
    ('four copies', Play('ask d0 d0 d0 d0'), None, 'q r r r r'),
    ('lost answer', Play('ask d0 e2999 tick e1 tick d2 d3'), None, 'q r q r'),
    ('nothing delivered', Play('ask e3000 tick e3000 tick e3000 tick e3000 tick'), None, 'asked 0, timed out 0'),
    ('last moment', Play('ask e60000 tick'), None, 'q q'),
    ('too late', Play('ask e60001 tick'), None, 'asked 0, expired 0'),
    ('last reply', Play('ask e5000 d0 e50000 tick d2 e5000 d3'), None, 'asked 0, performed 0, answered 0'),
    ('no slot', Play('ask n0 d1'), None, 'asked 0, aborted 0'),
    ('old copy', Play('ask e5000 d0'), None, 'q r'),
    ('older copy', Play('ask e5001 d0'), None, 'q'),
    ('held', Play('ask e135000 tick ask e1 ask'), None, 'asked 0, expired 0, asked 1'),
    ('lost SegmentACK', Play('ask d0 d1 d2 d3 e2000 tick d6 d8', octets=(111, 3)), None, 'q0 +0 q1 q2 +2 r q1 q2 r'),
    ('out of order', Play('ask d0 d1 d3 d3 d2 d2 d4 d5 d6 d7', octets=(111, 3)), None, 'q0 +0 q1 q2 -0 -0 -1 q2 +2 r'),
    ('in time', Play('ask d0 d1 e6000 tick e1999 d4 d5', octets=(111, 3)), None, 'q0 +0 q1 q2 q1 q2 +2 r'),
    ('out of time', Play('ask d0 d1 e6000 tick e2000 d4 d6 d5', octets=(111, 3)), None, 'q0 +0 q1 q2 q1 q2 x x'),
    ('later pass', Play('ask d0 d1 d2 d3 d4 e3000 tick d6 d7', octets=(111, 3)), None, 'q0 +0 q1 q2 +2 r q0 r'),
    ('stopped reply', Play('ask d0 d1 d2 d3 d5 d6 e2000 tick e2000 tick e2000 tick e1000 tick e1000 tick d19', octets=(13, 273), window=3), None,
     'q r0 +0 r1 r2 r3 -1' + ' r2 r3 r4' * 4 + ' q r2 r3 r4'),
    ('two segments', Play('ask d0..4', octets=(13, 48)), None, 'q r0 +0 r1 +1'),
    ('long request', Play('ask d0..311', octets=(13_165, 3)), None, 'asked 0, performed 0, answered 0'),
    ('entry too short', Play(f'{AT_ONCE} {LATE}', times(keep=64_999)), TWICE, None),
    ('entry', Play(f'{AT_ONCE} {LATE}'), None, 'asked 0, performed 0'),
    ('server waits too short', Play(f'{AT_ONCE} restart-server {LATE}', times(server_waits=64_999)), TWICE, None),
    ('server waits', Play(f'{AT_ONCE} restart-server {LATE}'), None, 'asked 0, performed 0, restarted 1'),
    ('client waits too short', Play(f'ask restart-client {OLD} {AGAIN}', times(client_waits=74_999), **TWO), MIXED, None),
    ('invoke ID held too short', Play(f'{SEGMENT} ask d3 d4 d5 d7', times(hold=134_999), **TWO), MIXED, None),
    ('clocks apart too far', Play(CLOCKS.format(4877, 4881), longer(WHOLE)), TWICE, None),
    ('clocks apart', Play(CLOCKS.format(4876, 4880), Setup(pace=WHOLE)), None, 'asked 0, performed 0'),
    ('client begins late', Play('e100000 begin0:0 ask d0 d1'), None, 'asked 0, performed 0, answered 0'),
    ('server begins late', Play('ask e3000 begin1:5 client d1 d2'), None, 'asked 0, performed 0, answered 0'),
    ('active server begins', Play('ask d0 begin1:65001 d0', Setup(guards_begin=False)), TWICE, None),
    ('active client begins', Play('ask d0 d0 d1 begin0:135001 ask d2', Setup(guards_begin=False)), MIXED, None),
    ('after end, refused', Play(f'ask restart-client {OLD} again ask', **TWO), None, 'asked 0, performed 0'),
    ('after end, too soon', Play(f'ask restart-client {OLD} again {AGAIN}', Setup(quiet_less=1), **TWO), MIXED, None),
    ('after end', Play(f'ask restart-client {OLD} e1 again ask d2..6', **TWO), None, 'asked 0, performed 0, asked 1, performed 1, answered 1'),
    ('after ask, too soon', Play(f'{UNSEEN} again ask d3 d4 d5 d7', Setup(quiet_less=1), **TWO), MIXED, None),
    ('after ask', Play(f'{UNSEEN} e1 again ask d3..7', **TWO), None, 'asked 0, performed 0, asked 1, performed 1, answered 1'),
    ('misread', Play('ask d0..260 d2 d261 d263..304', Setup(overtake=lambda window: 259), (13_165, 3), 64), OTHER, None),
    ('not misread', Play('ask d0..260 d2 d261 d263..304', Setup(overtake=lambda window: 258), (13_165, 3), 64), None, 'asked 0'),
]


def main():
    """Compares all, and names those that differ."""
    differ = [name for name, run, wrong, told in RUNS if run.wrong != wrong or told not in (None, run.sent, run.log)]
    for name in differ:
        run = next(run for other, run, _, _ in RUNS if other == name)
        print(f'{name}: {run.wrong}; sent {run.sent}; log {run.log}')
    print(f'computed runs={len(RUNS)} different={len(differ)}')
    return 1 if differ else 0


if __name__ == '__main__':
    sys.exit(main())
