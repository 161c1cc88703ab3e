#!/usr/bin/env python3
"""Serves docs/plant.toml and asks for it: plant.py PROGRAM

Each object's name and first present-value are as the document says, and the object-list has all objects in ascending order. Each limit is asked for: the
values at it are taken, and those one beyond get Error 2:37 and change nothing.
"""

import struct
import sys
sys.dont_write_bytecode = True  # no __pycache__ beside the sources

import tomllib
from pathlib import Path

from processes import Server, ask

DOCUMENT = Path(__file__).resolve().parents[2] / 'docs/plant.toml'
TYPES = {'analog-input': 0, 'analog-output': 1, 'analog-value': 2, 'binary-input': 3, 'binary-output': 4, 'binary-value': 5, 'device': 8, 'file': 10,
         'multi-state-input': 13, 'multi-state-output': 14, 'multi-state-value': 19}
PRESENT_VALUE, OBJECT_LIST, OBJECT_NAME = '85', '76', '77'
STATES = {'inactive': 0, 'active': 1}
TURNS = 100000


def identifier(thing):
    return f"{TYPES[thing['type']]}:{thing['instance']}"


def number(kind, value):
    """An Unsigned (2) or an Enumerated (9) in the fewest octets."""
    octets = value.to_bytes(max(1, (value.bit_length() + 7) // 8), 'big')
    return bytes([kind << 4 | len(octets)]) + octets


def data(value, key='real'):
    """A value of the document as data."""
    if key == 'real':
        return b'\x44' + struct.pack('>f', value)
    return number({'unsigned': 2, 'enumerated': 9}[key], STATES.get(value, value))


def name_data(text):
    octets = b'\0' + text.encode()
    return bytes([0x75, len(octets)]) + octets if len(octets) > 4 else bytes([0x70 | len(octets)]) + octets


def kind_of(value):
    return next((key for key in ('real', 'unsigned', 'enumerated') if key in value), None)


def rows(things):
    """Words of asks, and the line that each has to get."""
    listed = sorted(TYPES[thing['type']] << 22 | thing['instance'] for thing in things)
    device = next(thing for thing in things if thing['type'] == 'device')
    yield ['read', identifier(device), OBJECT_LIST], 'answered read ' + ''.join(f'C4{each:08X}' for each in listed)
    for thing in things:
        yield ['read', identifier(thing), OBJECT_NAME], 'answered read ' + name_data(thing['name']).hex().upper()
        value = thing.get('present-value')
        if isinstance(value, str):
            value = {'enumerated': value}
        if isinstance(value, dict) and kind_of(value):
            yield from value_rows(identifier(thing), value, kind_of(value))


def value_rows(thing, value, kind):
    """The first value, and the limits where there are some: at them, and one beyond."""
    first = f'answered read {data(value[kind], kind).hex().upper()}'
    yield ['read', thing, PRESENT_VALUE], first
    if not value.get('writable'):
        yield ['write', thing, PRESENT_VALUE, data(value[kind], kind).hex()], 'answered error 2:40'
    if 'min' in value:
        for beyond in (value['min'] - 1, value['max'] + 1):
            yield ['write', thing, PRESENT_VALUE, data(beyond, kind).hex()], 'answered error 2:37'
        yield ['read', thing, PRESENT_VALUE], first
        for taken in (value['min'], value['max']):
            yield ['write', thing, PRESENT_VALUE, data(taken, kind).hex()], 'answered written'
            yield ['read', thing, PRESENT_VALUE], f'answered read {data(taken, kind).hex().upper()}'


def main(words):
    things = tomllib.loads(DOCUMENT.read_text())['object']
    wanted = list(rows(things))
    with Server(words[0], TURNS, options=['--slots', '1024', '--objects', str(DOCUMENT)]) as server:
        wrong = [(asked, want, got) for asked, want in wanted if (got := ask(words[0], server.port, asked)) != want]
    for asked, want, got in wrong:
        print(f'WRONG: {" ".join(asked)}: {got}, not {want}')
    print(f'plant.toml: objects={len(things)} asks={len(wanted)} wrong={len(wrong)}')
    return 1 if wrong else 0


if __name__ == '__main__':
    sys.exit(main(sys.argv[1:]))
