#!/usr/bin/env python3
"""`bac explain` of generated captures: explain.py PROGRAM FIRST COUNT [--tshark]

Seeds FIRST and on, COUNT of them, each with transactions of three clients and two servers (exchanges.py) as capture files in several formats. What the rules of
docs/FORMATS.md, told again in transactions.py, make of the frames has to be what `bac explain` prints, as lines and as objects of JSON, but for what requests and answers carry; so too with filters, and where more
transactions are open than may be. And README.md has to draw docs/lost.pcapng as it does. With --tshark, text2pcap and mergecap write the files as pcapng, editcap as
pcap with micro- and nanoseconds, and tshark tells the frames' moments and addresses; what it shows of their APDUs has to be what was read from the octets here.
"""

import json
import random
import re
import subprocess
import sys
sys.dont_write_bytecode = True  # no __pycache__ beside the sources

import tempfile
from collections import Counter
from pathlib import Path

import captures
import exchanges
from sightings import SEGMENT_ACK, seen
from transactions import Selection, Watch

BEGIN = 1_000_000_000_000  # milliseconds since 1970
FIELDS = ['frame.time_epoch', 'ip.src', 'udp.srcport', 'ip.dst', 'udp.dstport', 'bacapp.type', 'bacapp.invoke_id', 'bacapp.sequence_number',
          'bacapp.NAK', 'bacapp.SRV', 'bacapp.window_size', 'udp.payload']
FORMATS = ['pcapng', 'pcap', 'nsecpcap']
FRAGMENT, CUT = 'fragment', 'truncated'


# ---- captures that this script writes

WRITERS = {
    'pcap of Ethernet': lambda frames: captures.pcap(captures.ETHERNET, [(now, captures.ethernet(whole, [0x8100])) for now, whole in frames]),
    'pcap of nanoseconds': lambda frames: captures.pcap(captures.RAW, frames, '>', 1),
    'pcapng of nanoseconds': lambda frames: captures.pcapng(captures.COOKED_2, [(now, captures.cooked_2(whole)) for now, whole in frames], '>'),
    'pcapng of microseconds': lambda frames: captures.pcapng(captures.NULL, [(now, captures.loopback(whole)) for now, whole in frames], '<', 6),
    'pcapng of milliseconds': lambda frames: captures.pcapng(captures.COOKED, [(now, captures.cooked(whole)) for now, whole in frames], '<', 3),
}


def spoiled(chance, whole):
    """A frame that cannot be looked at, and why."""
    if chance.randrange(2):
        return whole[:6] + b'\x20\x00' + whole[8:], FRAGMENT
    more = 100  # a short Ethernet frame is padded by less
    return whole[:2] + (len(whole) + more).to_bytes(2, 'big') + whole[4:24] + (len(whole) - 20 + more).to_bytes(2, 'big') + whole[26:], CUT


def frames_of(seed, sent):
    """Each frame: its moment in nanoseconds, its packet, why it cannot be looked at, and what was sent. Some come before an earlier one, some are spoiled, and
    some are over IPv6, which no transaction is."""
    chance, found = random.Random(seed), []
    for it in sent:
        moment = (BEGIN + it.moment) * captures.MILLISECOND + chance.randrange(captures.MILLISECOND)
        whole, why = captures.packet(it.source.end, it.to.end, it.datagram), None
        if chance.randrange(200) == 0:
            whole, why = spoiled(chance, whole)
        elif chance.randrange(200) == 0:
            whole, it = captures.packet(captures.End('fd00::5'), captures.End('fd00::9'), it.datagram), None
        found.append((moment, whole, why, it))
    for place in range(0, len(found) - 1, 97):
        found[place], found[place + 1] = found[place + 1], found[place]
    return found


def watched(frames, selection=Selection()):
    watch = Watch(selection)
    for number, (moment, _, why, it) in enumerate(frames, 1):
        if why:
            watch.see_unread(number, moment // captures.MILLISECOND, why)
        else:
            watch.see(it and seen(number, moment // captures.MILLISECOND, str(it.source.end), str(it.to.end), it.datagram))
    watch.end()
    return watch


def in_order(found):
    return sorted((it for sent in found.values() for it in sent), key=lambda it: it.moment)


# ---- captures that Wireshark's programs write

def text_of(client, sent):
    """The input of text2pcap: a direction, a moment, and a dump."""
    lines = []
    for it in sent:
        octets = ' '.join(f'{octet:02x}' for octet in it.datagram)
        moment = BEGIN + it.moment
        lines += [f'{"I" if it.source == client else "O"} {moment // 1000}.{moment % 1000:03d}', f'0000 {octets}', '']
    return '\n'.join(lines) + '\n'


def write_captures(folder, found):
    """The same frames in each of the formats."""
    parts = []
    for number, ((client, server), sent) in enumerate(found.items()):
        text, part = folder / f'{number}.txt', folder / f'{number}.pcapng'
        text.write_text(text_of(client, sent))
        ends = ['-4', f'{client.end.host},{server.end.host}', '-u', f'{client.end.port},{server.end.port}']
        subprocess.run(['text2pcap', '-q', '-D', '-t', '%s.%f', *ends, str(text), str(part)], check=True, capture_output=True)
        parts.append(str(part))
    whole = folder / 'all.pcapng'
    subprocess.run(['mergecap', '-w', str(whole), *parts], check=True, capture_output=True)
    for name in FORMATS:
        subprocess.run(['editcap', '-F', name, str(whole), str(folder / f'all.{name}.cap')], check=True, capture_output=True)
        yield name, folder / f'all.{name}.cap'


def shown(path):
    """The fields of each frame."""
    words = ['tshark', '-n', '-r', str(path), '-o', 'bacapp.desegment:FALSE', '-T', 'fields', '-E', 'separator=|', '-E', 'occurrence=f']
    words += [word for name in FIELDS for word in ('-e', name)]
    done = subprocess.run(words, capture_output=True, text=True)
    if done.returncode:
        words = [word for word in words if word not in ('-o', 'bacapp.desegment:FALSE')]
        done = subprocess.run(words, capture_output=True, text=True, check=True)
    return [line.split('|') for line in done.stdout.split('\n') if line]


def is_shown(apdu, fields):
    """Whether tshark shows the same of an APDU."""
    kind, invoke_id, sequence, nak, server, window = fields
    if apdu is None:
        return kind in ('', '1')
    same = (int(kind), int(invoke_id)) == (apdu.kind, apdu.invoke_id)
    if apdu.segment is not None:
        same = same and (int(sequence), int(window)) == (apdu.segment, apdu.window)
    if apdu.kind == SEGMENT_ACK:
        same = same and (nak in ('1', 'True'), server in ('1', 'True')) == (apdu.nak, apdu.by_server)
    return same


def watched_by_tshark(path):
    """What the rules make of the frames that tshark shows, and how many of them it shows otherwise."""
    watch, differ = Watch(), 0
    for number, fields in enumerate(shown(path), 1):
        moment, source, source_port, to, to_port, *rest, payload = fields
        seconds, part = moment.split('.')
        it = seen(number, int(seconds) * 1000 + int(part[:3]), f'{source}:{source_port}', f'{to}:{to_port}', bytes.fromhex(payload))
        differ += not is_shown(it and it.apdu, rest)
        watch.see(it)
    watch.end()
    return watch, differ


# ---- the comparison

COUNTS = r'(?: times=\d+)?(?: more-segments=\d+)?(?= )'
HEAD = re.compile(r'\S+T\S+Z \S+ > \S+ id \d+' + COUNTS)
ANSWER = re.compile(r'  \w+ after=\d+ms' + COUNTS)


def without_words(line):
    """A line of `bac explain` without the words of the request or the answer."""
    head = HEAD.match(line) or ANSWER.match(line)
    return head[0] if head else line


def is_explained(program, path, watch, title):
    """Whether `bac explain` prints those lines of a file, and ends with their status."""
    done = subprocess.run([program, 'explain', *watch.selection.words(), str(path)], capture_output=True, text=True, timeout=120)
    ours = [without_words(line) for line in done.stdout.split('\n')[:-1]]
    if ours == watch.lines and done.returncode == watch.status() and not done.stderr:
        return are_objects(program, path, watch, title)
    differ = [(one, two) for one, two in zip(ours, watch.lines) if one != two]
    print(f'WRONG {title}: {differ[:3]}, {len(ours)} lines, not {len(watch.lines)}, status {done.returncode}, {done.stderr}')
    return False


CARRIED = ('request', 'request_text', 'answer', 'answer_text')


def are_objects(program, path, watch, title):
    """Whether `bac explain --json` prints those objects of a file, apart from what APDUs carry, and ends with their status."""
    done = subprocess.run([program, 'explain', '--json', *watch.selection.words(), str(path)], capture_output=True, text=True, timeout=120)
    whole = [json.loads(line) for line in done.stdout.split('\n')[:-1]]
    ours = [{name: value for name, value in it.items() if name not in CARRIED} for it in whole]
    carried = all(set(CARRIED) <= set(it) for it in whole if it['kind'] == 'transaction')
    if ours == watch.objects and carried and done.returncode == watch.status(of_lines=False) and not done.stderr:
        return True
    differ = [(one, two) for one, two in zip(ours, watch.objects) if one != two]
    print(f'WRONG {title}, JSON: {differ[:2]}, {len(ours)} objects, not {len(watch.objects)}, status {done.returncode}, {done.stderr}')
    return False


def is_readme_right(program):
    """Whether the capture of docs/ is drawn as README.md has it."""
    top = Path(__file__).resolve().parents[2]
    _, _, behind = (top / 'README.md').read_text().partition('$ bac explain --pairs --values docs/lost.pcapng\n')
    done = subprocess.run([program, 'explain', '--pairs', '--values', str(top / 'docs/lost.pcapng')], capture_output=True, text=True, timeout=60)
    return bool(done.stdout) and behind.startswith(done.stdout.rstrip('\n'))


def selections(seed, frames):
    """Some filters: each alone, and more at once."""
    chance = random.Random(seed)
    ends = [end for _, _, _, it in frames if it for end in (it.source.end, it.to.end)]
    one, other = chance.choice(ends), chance.choice(ends)
    slower = chance.choice([1, 10, 100, 1_000, 3_000, 10_000])
    yield from [Selection(fail=True), Selection(unanswered=True), Selection(errors=True), Selection(repeated=True), Selection(findings=True)]
    yield Selection(strict_ids=True)
    yield from [Selection(slower=slower), Selection(peer=str(one.host))]
    for _ in range(4):
        peer = chance.choice([None, str(one), str(other.host)])
        yield Selection(*(chance.randrange(2) == 0 for _ in range(4)), chance.choice([None, slower]), peer, *(chance.randrange(2) == 0 for _ in range(2)))


def written(program, folder, title, frames, seed):
    """Whether a capture is explained in each format, and with filters; and what has to be printed."""
    watch, right = watched(frames), True
    for name, write in WRITERS.items():
        path = folder / 'capture'
        path.write_bytes(write([(moment, whole) for moment, whole, _, _ in frames]))
        right &= is_explained(program, path, watch, f'{title}, {name}')
    for selection in selections(seed, frames):
        right &= is_explained(program, path, watched(frames, selection), f'{title}, {selection}')
    return right, watch


def written_by_tshark(program, folder, title, found):
    right = True
    for name, path in write_captures(folder, found):
        watch, differ = watched_by_tshark(path)
        if differ:
            print(f'WRONG {title}, {name}: tshark shows {differ} frames otherwise')
        right &= is_explained(program, path, watch, f'{title}, {name}') and not differ
    return right, watch


def findings_of(watch):
    return Counter(line.split(': ', 1)[1].rsplit(',', 1)[0] for line in watch.lines if line.startswith('frame '))


def main(words):
    by_tshark = '--tshark' in words
    program, first, count = (word for word in words if word != '--tshark')
    if by_tshark:
        captures.need('tshark', 'text2pcap', 'mergecap', 'editcap')
    wrong = 0 if is_readme_right(program) else 1
    print('README: ' + ('WRONG' if wrong else 'right'))
    findings, lines, frames = Counter(), 0, 0
    with tempfile.TemporaryDirectory() as name:
        for seed in range(int(first), int(first) + int(count)):
            found = exchanges.pairs(seed)
            if by_tshark:
                right, watch = written_by_tshark(program, Path(name), f'seed {seed}', found)
            else:
                right, watch = written(program, Path(name), f'seed {seed}', frames_of(seed, in_order(found)), seed)
            findings, lines, frames, wrong = findings + findings_of(watch), lines + len(watch.lines), frames + watch.frames, wrong + (not right)
            if int(count) == 1:
                print(watch.lines[-1])
        if not by_tshark:
            right, watch = written(program, Path(name), 'crowd', frames_of(0, exchanges.crowd()), 0)
            wrong += not right
            print(f'crowd: {watch.lines[-1]}')
    print('\n'.join(f'{number} times {finding}' for finding, number in findings.most_common()))
    print(f'seeds={count} formats={len(FORMATS if by_tshark else WRITERS)} lines={lines} frames={frames} wrong={wrong}')
    return 1 if wrong else 0


if __name__ == '__main__':
    sys.exit(main(sys.argv[1:]))
