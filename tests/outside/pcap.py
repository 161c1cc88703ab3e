#!/usr/bin/env python3
"""Captures of `bac simulate --pcap` beside what `bac simulate` prints of the same scripts: pcap.py PROGRAM FIRST COUNT [--tshark]

Written scripts, and generated ones number FIRST and on, COUNT of them. A capture has to hold the datagrams that are sent, at the same moments, with right
header checksums; with --tshark tshark too has to see them, none of them malformed. What `bac explain` prints of the capture has to be what the rules in
transactions.py make of those datagrams; it has to have one transaction for each ask, in which the server's answer is what was performed, and the client's end
where it was answered; and so many requests and answers in all as were sent.
"""

import json
import random
import re
import subprocess
import sys
sys.dont_write_bytecode = True  # no __pycache__ beside the sources

import tempfile
from collections import Counter
from dataclasses import dataclass, field
from pathlib import Path

import captures
from explain import findings_of, without_words
from sightings import seen
from transactions import Watch

LOST = 'nodes 2\nask 0 1 append 10:1 AABBCC\ndeliver 0\nadvance 3000\ntick 0\ndeliver 2\ndeliver 3\n'
KINDS = ['read 0:5 85', 'read 0:9 85', 'write 2:1 85 real:180', 'append 10:1 AA', 'put 10:1 0 4D', 'get 10:1 0 100', 'append 10:1 ' + '5A' * 2000]
ASKS = [*KINDS, 'get 10:1 0 4000', 'get 10:1 0 4000', 'read 8:1 76', 'append 10:1 ' + 'A5' * 3000]
FIELDS = ['frame.time_epoch', 'ip.src', 'ip.dst', 'udp.srcport', 'udp.dstport', 'ip.checksum.status', 'udp.payload', '_ws.malformed']
EVENTS, BATCH = 120, 12
PAUSES = [1, 50, 700, 2_000, 3_000, 4_000]
SENT, ASKED = re.compile(r'sent (\d+) (\d+)>(\d+) ([0-9A-F]+)'), re.compile(r'asked (\d+) id (\d+)')
REQUESTS = ('read ', 'write ', 'append ', 'put ', 'get ', 'confirmed-request', 'request segment ')
ANSWERS = ('simple-ack', 'complex-ack', 'reply segment ', 'error ', 'reject ')
LINK = '10.0.0.{}:47808'


# ---- scripts

def written_scripts():
    yield LOST
    for kind in KINDS:
        lines = ['nodes 16', f'ask 3 15 {kind}']
        for number in range(12):
            yield '\n'.join(lines) + '\n'
            lines += [f'advance {number * 37}', f'deliver {number}']


def event(chance, nodes, copies):
    """One of the next events; of the copies that were sent some last one is delivered, or an earlier one again."""
    draw = chance.random()
    if draw < 0.1 or not copies:
        client = chance.randrange(nodes)
        return [f'ask {client} {(client + chance.randrange(1, nodes)) % nodes} {chance.choice(ASKS)}']
    if draw < 0.2:
        return [f'advance {chance.choice(PAUSES)}', *(f'tick {node}' for node in range(nodes))]
    return [f'deliver {max(0, copies - 1 - min(chance.randrange(4), chance.randrange(4 if draw < 0.9 else 40)))}']


def generated_script(program, number):
    """Events are guessed, some at a time: where a copy is not there, they are guessed again."""
    chance = random.Random(number)
    nodes, copies = chance.randrange(2, 5), 0
    lines = [f'nodes {nodes}' + chance.choice(['', ' window 2 overtake 64', ' window 1 overtake 8'])]
    while len(lines) <= EVENTS:
        for _ in range(BATCH):
            lines += event(chance, nodes, copies)
            copies += chance.randrange(2)
        printed = run([program, 'simulate'], '\n'.join(lines) + '\n').decode()
        fault = re.search(r'^line (\d+): fault 2$', printed, re.M)
        lines = lines[:int(fault[1]) - 1] if fault else lines
        copies = len(SENT.findall(printed))
    return '\n'.join(lines) + '\n'


def run(words, script):
    with tempfile.NamedTemporaryFile('w', suffix='.txt') as file:
        file.write(script)
        file.flush()
        return subprocess.run([*words, file.name], capture_output=True).stdout


# ---- what `bac simulate` prints

@dataclass
class Ask:
    """An ask that was accepted: its transaction, its moment, and what was performed and how it ended, as `--text` has it."""

    key: tuple = ()
    moment: int = 0
    performed: str | None = None
    ended: str | None = None


@dataclass
class Story:
    sent: list = field(default_factory=list)  # a moment, from whom to whom, and octets
    asks: list = field(default_factory=list)
    counts: Counter = field(default_factory=Counter)

    def hear(self, now, event_words, line, ids, octets):
        """One line below an event."""
        word, _, rest = line.partition(' ')
        if word == 'asked':
            _, client, server, *_ = event_words
            self.asks.append(Ask((LINK.format(client), LINK.format(server), ids[int(rest)]), now))
        elif word in ('performed', 'ended'):
            number, _, how = rest.partition(': ')
            setattr(self.asks[int(number)], word, how)
        elif word == 'sent':
            number, ends, what = rest.split(' ', 2)
            self.sent.append((now, *ends.split('>'), octets[int(number)]))
            self.counts['requests'] += what.startswith(REQUESTS)
            self.counts['answers'] += what.startswith(ANSWERS)


def told(program, script):
    """The datagrams and asks of a script: octets and invoke IDs stand in the plain lines, moments and words in those of --text."""
    plain, story = run([program, 'simulate'], script).decode(), Story()
    octets = {int(number): hexadecimal for number, _, _, hexadecimal in SENT.findall(plain)}
    ids = {int(number): int(invoke_id) for number, invoke_id in ASKED.findall(plain)}
    now, event_words = 0, []
    for line in run([program, 'simulate', '--text'], script).decode().splitlines():
        if line.startswith('  '):
            story.hear(now, event_words, line[2:], ids, octets)
        elif not line.startswith('line '):  # where the script ends early
            moment, *event_words = line.split(' ')
            now = int(moment)
    return story


def rows_of(story):
    return [f'{now / 1000:.3f}|10.0.0.{a}|10.0.0.{b}|{octets}' for now, a, b, octets in story.sent]


# ---- what the capture holds

def read_rows(capture):
    """The rows of a file of pcap of IPv4 alone."""
    rows = []
    for moment, whole in captures.read_pcap(capture):
        is_well = captures.checksum(whole[:20]) == 0 and whole[20:24] == b'\xBA\xC0' * 2 and int.from_bytes(whole[2:4], 'big') == len(whole)
        hosts = ['.'.join(str(octet) for octet in whole[at:at + 4]) for at in (12, 16)]
        rows.append(f'{moment / 1e9:.3f}|{hosts[0]}|{hosts[1]}|{whole[28:].hex().upper()}' + ('' if is_well else ' not well'))
    return rows


def shown(path):
    """The same rows, as tshark has them."""
    words = ['tshark', '-r', path, '-o', 'ip.check_checksum:TRUE', '-T', 'fields', '-E', 'separator=|']
    for name in FIELDS:
        words += ['-e', name]
    rows = []
    for line in subprocess.run(words, capture_output=True, text=True, check=True).stdout.splitlines():
        moment, source, target, port, other, status, octets, malformed = line.split('|')
        first = int(octets[12:14], 16)
        is_segment = first >> 4 in (0, 3) and first & 8  # tshark joins segments of equal invoke IDs, and marks what comes out
        is_well = (port, other) == ('47808', '47808') and (is_segment or not malformed) and status in ('1', 'Good')
        rows.append(f'{float(moment):.3f}|{source}|{target}|{octets.upper()}' + ('' if is_well else f' {line}'))
    return rows


# ---- what `bac explain` prints of it

@dataclass
class Block:
    """A transaction: its request line and its answer line, if it has one, each with how many datagrams it counts and its words."""

    key: tuple
    moment: int = 0
    asked: int = 0
    name: str = ''
    answers: int = 0
    words: str = ''
    end: str = ''


def block_of(it):
    """The object of a transaction."""
    block = Block((it['client'], it['server'], it['invoke_id']), it['asked_at'], it['requests'] + it['segments'])
    block.end = 'given up' if it['given_up'] else it['status']
    if it['answers']:
        name = {'error': 'answered', 'unanswered': 'began'}.get(it['status'], it['status'])
        is_begun = it['status'] == 'aborted' and it['answer'] is None
        block.name, block.answers, block.words = 'began' if is_begun else name, it['answers'] + it['answer_segments'], it['answer_text']
    return block


def blocks_of(program, path):
    lines = subprocess.run([program, 'explain', '--json', path], capture_output=True, text=True).stdout.splitlines()
    return [block_of(it) for it in map(json.loads, lines) if it['kind'] == 'transaction']


def is_answer(block, how):
    """Whether the answer of a block is that of an ending as `--text` has it; of an answer in segments the words tell its service alone."""
    wanted = how.removeprefix('answered ') if how.startswith('answered ') else how
    wanted = wanted.split(' ', 1)[-1] if block.name in ('rejected', 'aborted') else 'acknowledged' if wanted == 'written' else wanted
    is_same = 'in segments' in block.words or block.words == wanted
    return block.name in (how.split(' ')[0], 'began') and is_same


def faults_of(story, blocks):
    """What is not as the asks have it."""
    by_key = {(block.key, block.moment): block for block in blocks}
    if len(by_key) != len(story.asks) or len(blocks) != len(story.asks):
        yield f'{len(blocks)} transactions, not {len(story.asks)}'
        return
    for ask in story.asks:
        block = by_key.get((ask.key, ask.moment))
        if block is None:
            yield f'no transaction of {ask}'
        elif ask.performed and not is_answer(block, ask.performed):
            yield f'{block}, performed: {ask}'
        elif not ask.performed and block.name in ('answered', 'began'):
            yield f'{block}, not performed: {ask}'
        elif (ask.ended or '').startswith(('answered', 'rejected')) and (not is_answer(block, ask.ended) or block.name == 'began'):
            yield f'{block}, ended: {ask}'
        elif (ask.ended or '').startswith('aborted') and 'aborted' not in block.name + block.end and 'given up' not in block.end:
            yield f'{block}, aborted: {ask}'
    counts = {'requests': sum(block.asked for block in blocks), 'answers': sum(block.answers for block in blocks if block.name != 'aborted')}
    if counts != {name: story.counts[name] for name in counts}:
        yield f'{counts}, not {story.counts}'


def watched(story):
    watch = Watch()
    for number, (now, source, to, octets) in enumerate(story.sent, 1):
        watch.see(seen(number, now, LINK.format(source), LINK.format(to), bytes.fromhex(octets)))
    watch.end()
    return watch


def wrong_of(program, script, story, by_tshark):
    """What is wrong with the capture of a script."""
    with tempfile.TemporaryDirectory() as folder:
        path = Path(folder, 'capture.pcap')
        path.write_bytes(run([program, 'simulate', '--pcap'], script))
        rows = read_rows(path.read_bytes())
        also = shown(str(path)) if by_tshark else rows
        lines = subprocess.run([program, 'explain', str(path)], capture_output=True, text=True).stdout.splitlines()
        blocks = blocks_of(program, str(path))
    watch = watched(story)
    wrong = [f'{rows}, not {rows_of(story)}'] if rows != rows_of(story) else []
    wrong += [f'tshark: {also}'] if also != rows else []
    wrong += [f'{lines}, not {watch.lines}'] if [without_words(line) for line in lines] != watch.lines else []
    return wrong + list(faults_of(story, blocks)), watch


def end_of(ask):
    """The front of how an ask ended."""
    words = (ask.ended or 'open').split(' ')
    return ' '.join(words[:2] if words[1:2] == ['error'] else words[:1])


def main(words):
    by_tshark = '--tshark' in words
    program, first, count = (word for word in words if word != '--tshark')
    program = str(Path(program).resolve())
    if by_tshark:
        captures.need('tshark')
    totals, ends, findings = Counter(), Counter(), Counter()
    scripts = [*written_scripts(), *(generated_script(program, number) for number in range(int(first), int(first) + int(count)))]
    for script in scripts:
        story = told(program, script)
        wrong, watch = wrong_of(program, script, story, by_tshark)
        for text in wrong:
            print(f'WRONG {script[:200]}: {text[:2000]}')
        totals.update(scripts=1, frames=len(story.sent), asks=len(story.asks), performed=sum(ask.performed is not None for ask in story.asks),
                      requests=story.counts['requests'], answers=story.counts['answers'], wrong=bool(wrong))
        ends.update(end_of(ask) for ask in story.asks)
        findings += findings_of(watch)
    print(', '.join(f'{number} {end}' for end, number in ends.most_common()))
    print('findings: ' + ', '.join(f'{number} {finding}' for finding, number in findings.most_common()))
    print(' '.join(f'{name}={number}' for name, number in totals.items()))
    return 1 if totals['wrong'] else 0


if __name__ == '__main__':
    sys.exit(main(sys.argv[1:]))
