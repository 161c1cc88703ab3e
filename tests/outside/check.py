#!/usr/bin/env python3
"""`bac check` of capture files beside `bac check` of lines: check.py PROGRAM SEED [--text] [--tshark]

The same datagrams, good and bad, as lines and as frames of each link layer and header that docs/FORMATS.md names ("check"), in files of pcap and
pcapng of both byte orders and each unit: as many have to be good, and each bad one has to have the fault that its line has, but for other functions, which are
counted apart. With --text they have to be counted by name too. With --tshark text2pcap and editcap write the files.
"""

import random
import subprocess
import sys
sys.dont_write_bytecode = True  # no __pycache__ beside the sources

import tempfile
from pathlib import Path

import captures
from captures import End
from mutate import altered
from readings import read_datagrams

COPIES = 8  # altered ones of each datagram
LONGEST = 65_535 - 60 - 8  # with 40 octets of options
MOMENT = 1_700_000_000_123_456_789
FUNCTIONS = ['BVLC-Result', 'Write-Broadcast-Distribution-Table', 'Read-Broadcast-Distribution-Table', 'Read-Broadcast-Distribution-Table-Ack', 'Forwarded-NPDU',
             'Register-Foreign-Device', 'Read-Foreign-Device-Table', 'Read-Foreign-Device-Table-Ack', 'Delete-Foreign-Device-Table-Entry',
             'Distribute-Broadcast-To-Network', 'Original-Unicast-NPDU', 'Original-Broadcast-NPDU', 'Secure-BVLL', 'BACnet/IPv6']
PORTS = [(47_808, 47_808, None), (47_823, 50_000, None), (50_000, 47_815, None), (40_001, 50_000, 40_001), (53, 40_001, 40_001)]
FORMATS = ['pcapng', 'pcap', 'nsecpcap']


# ---- datagrams

def long_datagram(length):
    """A request of a service whose data are any octets, of so many octets in all."""
    return (b'\x81\x0A' + length.to_bytes(2, 'big') + bytes.fromhex('0104 000501 80')).ljust(length, b'\x5A')


def datagrams(seed):
    """Worked ones, altered copies, long ones, and BVLLs of each function, of right and of wrong length."""
    draws, folder = random.Random(seed), Path(__file__).parent
    worked = [bytes.fromhex(octets) for octets in read_datagrams([folder / 'datagrams.tsv'])[0]]
    found = worked + [bytes(altered(octets, draws)) for octets in worked for _ in range(COPIES)]
    found += [long_datagram(1_497), long_datagram(LONGEST)]
    for kind in (0x81, 0x82):
        found += [bytes([kind, function, 0, length]) + b'\x01\x00' for function in range(16) for length in (5, 6)]
    found = [octets for octets in found if octets]
    draws.shuffle(found)
    return found


def other_function(datagram):
    """The number of another function of a BVLL of right length, 13 over IPv6; None of what is judged."""
    if len(datagram) < 4 or int.from_bytes(datagram[2:4], 'big') != len(datagram):
        return None
    if datagram[0] == 0x82:
        return 13
    return datagram[1] if datagram[0] == 0x81 and datagram[1] <= 12 and datagram[1] != 10 else None


# ---- frames

OPTIONS = [b'', b'\x01' * 4, bytes.fromhex('9404 0000 0101 0101 0101 0101 0101 0101 0101 0101'), b'\x01' * 40]
HOP, ROUTE = (0, bytes.fromhex('00 050200000100')), (43, bytes.fromhex('00 040000000000'))
TARGET, ATOMIC = (60, bytes.fromhex('01 010C') + bytes(12)), (44, bytes.fromhex('00 0000 0000002A'))  # a fragment that is all there is
EXTENSIONS = [(), (HOP,), (TARGET,), (HOP, ROUTE), (HOP, TARGET, ROUTE), (ATOMIC,), (HOP, ROUTE, TARGET, ATOMIC)]
TAGS = [(), (0x8100,), (0x88A8,), (0x9100,), (0x88A8, 0x8100), (0x9100, 0x8100), (0x8100, 0x8100)]


def ends(version, ports):
    hosts = ('10.0.0.5', '10.0.0.9') if version == 4 else ('fd00::5', 'fd00::9')
    return [End(host, port) for host, port in zip(hosts, ports)]


def packets():
    """What makes a packet of IP of a datagram between two UDP ports."""
    for options in OPTIONS:
        yield f'IPv4, {len(options)} octets of options', 4, lambda ports, octets, options=options: captures.ipv4(*ends(4, ports), octets, options)
    for headers in EXTENSIONS:
        yield f'IPv6, headers {[number for number, _ in headers]}', 6, lambda ports, octets, headers=headers: captures.ipv6(*ends(6, ports), octets, headers)


def links(version):
    """The link layers, and what makes a frame of a packet of that version."""
    for tags in TAGS:
        yield f'Ethernet {[f"{tag:04X}" for tag in tags]}', captures.ETHERNET, lambda whole, tags=tags: captures.ethernet(whole, tags)
        yield f'cooked {[f"{tag:04X}" for tag in tags]}', captures.COOKED, lambda whole, tags=tags: captures.cooked(whole, tags)
    yield 'cooked 2', captures.COOKED_2, captures.cooked_2
    for number in captures.RAWS:
        if number != {4: 229, 6: 228}[version]:
            yield f'raw {number}', number, lambda whole: whole
    for number in (captures.NULL, captures.LOOP):
        for order in '<>':
            for family in (10, 24, 28, 30) if version == 6 else (2,):
                yield f'loopback {number} {order} {family}', number, lambda whole, order=order, family=family: captures.loopback(whole, order, family)


def blocks(order, kind, digits, frames):
    """Blocks of one kind, with others between them; of the older kinds that have them the interface and a moment."""
    parts = []
    for moment, octets in frames:
        write = {6: captures.enhanced, 2: captures.obsolete}.get(kind)
        parts += [write(order, 0, digits, moment, octets) if write else captures.simple(order, octets), captures.block(order, 5, b'counts  ')]
    return b''.join(parts)


def files():
    """The formats, and what makes a file of frames."""
    for order in '<>':
        for unit in (1000, 1):
            yield f'pcap {order} {unit} ns', lambda link, frames, order=order, unit=unit: captures.pcap(link, frames, order, unit)
        for kind in (6, 2, 3):
            for digits in (3, 6, 9):
                yield f'pcapng {order} blocks {kind}, {digits} digits', lambda link, frames, order=order, kind=kind, digits=digits: (
                    captures.section(order) + captures.interface(order, link, digits) + blocks(order, kind, digits, frames))


def mixed(seed, found):
    """A file of pcapng of sections of both byte orders, in which each frame is of some interface with some link layer."""
    chance, parts = random.Random(seed), []
    ways = [(link, frame, packet) for _, version, packet in packets() for _, link, frame in links(version)]
    for at in range(0, len(found), 100):
        order, some = chance.choice('<>'), chance.sample(ways, 12)
        parts += [captures.section(order)] + [captures.interface(order, link, 6) for link, _, _ in some]
        for octets in found[at:at + 100]:
            index = chance.randrange(len(some))
            parts.append(captures.enhanced(order, index, 6, MOMENT, some[index][1](some[index][2](PORTS[0], octets))))
    return b''.join(parts)


# ---- what has to be printed

def output(program, path, *words):
    """What `bac check` prints: its lines, and its status."""
    done = subprocess.run([program, 'check', *words, str(path)], capture_output=True, text=True, timeout=120)
    return done.stdout.splitlines() + done.stderr.splitlines(), done.returncode


def counts_of(others):
    return [f'other {FUNCTIONS[number]}={others.count(number)}' for number in sorted(set(others))]


def wanted(program, folder, found, text):
    """The lines for frames, after those for the lines of the same datagrams."""
    path = folder / 'lines'
    path.write_text(''.join(f'{moment} 0A000005BAC0 0A000009BAC0 {octets.hex().upper()}\n' for moment, octets in enumerate(found)))
    *told, last = output(program, path)[0]
    faults = {int(line.split()[1].rstrip(':')): line.partition(': ')[2] for line in told}
    others = [other_function(octets) for octets in found]
    rows = [f'frame {number}: {faults[number]}' for number, other in enumerate(others, 1) if number in faults and other is None]
    is_counted = all(number in faults for number, other in enumerate(others, 1) if other is not None)
    apart = [other for other in others if other is not None]
    good = len(found) - len(faults)
    if not is_counted or last != f'lines={len(found)} good={good} bad={len(faults)}':
        raise SystemExit(f'WRONG lines: {last}')
    return rows + (counts_of(apart) if text else []) + [f'frames={len(found)} good={good} bad={len(rows)} other={len(apart)}']


class Comparison:
    def __init__(self, program, folder, found, text):
        self.program, self.path, self.words = program, folder / 'capture', ['--text'] if text else []
        self.wanted, self.made, self.wrong = wanted(program, folder, found, text), 0, 0

    def look(self, title, words=()):
        """Looks at the file that was written."""
        told, status = output(self.program, self.path, *self.words, *words)
        self.made += 1
        if told != self.wanted or status != 1:
            self.wrong += 1
            differ = [(one, two) for one, two in zip(told, self.wanted) if one != two]
            print(f'WRONG {title}: status {status}, {differ[:2]}, {len(told)} lines, not {len(self.wanted)}')


def compare(comparison, seed, found):
    """Each link layer with each packet, in some format and between some ports."""
    chance, formats = random.Random(seed), list(files())
    for packet_name, version, packet in packets():
        for link_name, link, frame in links(version):
            (file_name, write), ports = chance.choice(formats), chance.choice(PORTS)
            comparison.path.write_bytes(write(link, [(MOMENT, frame(packet(ports, octets))) for octets in found]))
            comparison.look(f'{packet_name}, {link_name}, {file_name}, {ports}', ['--port', str(ports[2])] if ports[2] else [])
    comparison.path.write_bytes(mixed(seed, found))
    comparison.look('mixed')


def compare_by_tshark(comparison, folder, found):
    """The formats of editcap, of the frames of text2pcap: over IPv4 and IPv6."""
    dump, whole = folder / 'dump', folder / 'whole'
    dump.write_text(''.join(f'{octets.hex()}\n' for octets in found))
    for ends in ('-4', '10.0.0.5,10.0.0.9'), ('-6', 'fd00::5,fd00::9'):
        words = ['text2pcap', '-q', *ends, '-u', '47808,47808', '-r', '^(?<data>[0-9a-f]+)$', str(dump), str(whole)]
        subprocess.run(words, check=True, capture_output=True)
        for name in FORMATS:
            subprocess.run(['editcap', '-F', name, str(whole), str(comparison.path)], check=True, capture_output=True)
            comparison.look(f'{ends[0]}, {name}, by editcap')


def main(words):
    options = {word for word in words if word.startswith('--')}
    program, seed = (word for word in words if word not in options)
    if '--tshark' in options:
        captures.need('text2pcap', 'editcap')
    found = datagrams(int(seed))
    if '--tshark' in options:
        found = [octets for octets in found if len(octets) < 60_000]
    with tempfile.TemporaryDirectory() as name:
        folder = Path(name)
        comparison = Comparison(program, folder, found, '--text' in options)
        if '--tshark' in options:
            compare_by_tshark(comparison, folder, found)
        else:
            compare(comparison, int(seed), found)
    print(f'{comparison.wanted[-1]}; files={comparison.made} wrong={comparison.wrong}')
    return 1 if comparison.wrong else 0


if __name__ == '__main__':
    sys.exit(main(sys.argv[1:]))
