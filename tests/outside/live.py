#!/usr/bin/env python3
"""tshark beside `bac serve` and `bac ask` on loopback: live.py PROGRAM

It captures what both send for asks of each kind, short ones, ones in segments, and ones that are answered with errors, and counts what tshark marks as
malformed.
Capturing needs root or the rights of Debian's group wireshark.
"""

import signal
import subprocess
import sys
sys.dont_write_bytecode = True  # no __pycache__ beside the sources

import time

from members import KINDS
from processes import Server, ask
from readings import AGGREGATOR, FIELDS, row_of, tshark_version

TURNS = 4000
LONG = bytes(place % 251 for place in range(20000)).hex().upper()

# the words of asks, and how each ends
ASKS = [
    (['read', '0:5', '85'], 'answered read 444290999A'),
    (['write', '2:1', '85', '4443340000'], 'answered written'),
    (['read', '2:1', '85'], 'answered read 4443340000'),
    (['append', '10:1', 'AABBCC'], 'answered position 2'),
    (['put', '10:1', '0', LONG], 'answered position 0'),
    (['get', '10:1', '0', '60000'], f'answered file 1 0 {LONG}'),
    (['get', '10:1', '19998', '2'], f'answered file 1 19998 {LONG[-4:]}'),
    (['read', '0:9', '85'], 'answered error 1:31'),
    (['write', '0:5', '85', '4400000000'], 'answered error 2:40'),
    (['get', '10:1', '-1', '1'], 'answered error 5:11'),
]


class Capture:
    """tshark, capturing what goes to and from a port of this machine."""

    def __init__(self, port):
        words = ['tshark', '-i', 'lo', '-l', '-n', '-f', f'udp port {port}', '-d', f'udp.port=={port},bvlc', '-T', 'fields', '-E', f'aggregator={AGGREGATOR}']
        words += [word for name in FIELDS for word in ('-e', name)]
        self.process = subprocess.Popen(words, stdout=subprocess.PIPE, stderr=subprocess.PIPE, text=True, errors='replace')
        line = ' '
        while line and 'Capturing on' not in line:
            line = self.process.stderr.readline()
        if not line:
            raise SystemExit('tshark cannot capture')
        time.sleep(2)  # it says so before it does

    def rows(self):
        """Ends the capture; what tshark showed of each datagram."""
        time.sleep(2)
        self.process.send_signal(signal.SIGINT)
        out, _ = self.process.communicate(timeout=60)
        return [row_of(line) for line in out.removesuffix('\n').split('\n') if line]


def main(words):
    program = words[0]
    wrong = []
    with Server(program, TURNS) as server:
        capture = Capture(server.port)
        for asked, end in ASKS:
            line = ask(program, server.port, asked)
            if line != end:
                wrong.append(f'{asked[:3]}: {line[:80]}, not {end[:80]}')
        rows = capture.rows()
        performed = server.finish()
    malformed = [row for row in rows if row.malformed]
    kinds = [row.number('bacapp.type') for row in rows]
    print(tshark_version())
    print(f'{len(ASKS)} asks, {performed} performed, {len(rows)} datagrams, {len(malformed)} malformed')
    print('kinds of APDU: ' + ', '.join(f'{kinds.count(str(number))} {name}' for number, name in enumerate(KINDS) if str(number) in kinds))
    for row in malformed:
        wrong.append(f'malformed: {row.first("udp.payload")}')
    notes = [note for row in rows for note in row.get('_ws.expert.message', [])]
    for note in sorted(set(notes)):
        print(f'tshark notes {notes.count(note)} times: {note}')
    for text in wrong:
        print(f'WRONG: {text}')
    return 1 if wrong or not rows or performed != len(ASKS) else 0


if __name__ == '__main__':
    sys.exit(main(sys.argv[1:]))
