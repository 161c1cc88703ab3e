#!/usr/bin/env python3
"""Reads a described device as clients do when they connect to it: browse.py PROGRAM [DOCUMENT]

It serves docs/plant.toml, or another described document. Like YABE and BACpypes3 it reads what the device says of itself, then the object-list, whole and by
index, and of each object the properties that clause 12 requires of its type. It counts answers and Errors. An Error for one of these properties is wrong.
The object-list has to come element by element too, and of the wildcard instance. What `bac serve` does not do is told in a line of its own: priorities of
outputs.
"""

import sys
sys.dont_write_bytecode = True  # no __pycache__ beside the sources

import socket
from pathlib import Path

from processes import LOOPBACK, Server

TOP = Path(__file__).resolve().parents[2]
DEVICE, FILE, WILDCARD = 8, 10, 4194303
OBJECT_LIST = 76
COMMON = {'object-identifier': 75, 'object-name': 77, 'object-type': 79}
STATE = {'status-flags': 111, 'event-state': 36, 'out-of-service': 81, 'present-value': 85}
ANALOG = {**STATE, 'units': 117}
BINARY = {**STATE, 'polarity': 84}
STATES = {**STATE, 'number-of-states': 74}
OUTPUT = {'priority-array': 87, 'relinquish-default': 104}
# what clause 12 requires, at protocol revision 12, beside COMMON
REQUIRED = {
    0: ANALOG, 1: ANALOG, 2: ANALOG, 3: BINARY, 4: BINARY, 5: STATE, 13: STATES, 14: STATES, 19: STATES,
    DEVICE: {'system-status': 112, 'vendor-name': 121, 'vendor-identifier': 120, 'model-name': 70, 'firmware-revision': 44,
             'application-software-version': 12, 'protocol-version': 98, 'protocol-revision': 139, 'protocol-services-supported': 97,
             'protocol-object-types-supported': 96, 'object-list': OBJECT_LIST, 'max-apdu-length-accepted': 62, 'segmentation-supported': 107,
             'max-segments-accepted': 167, 'apdu-segment-timeout': 10, 'apdu-timeout': 11, 'number-of-apdu-retries': 73,
             'device-address-binding': 30, 'database-revision': 155},
    FILE: {'file-type': 43, 'file-size': 42, 'modification-date': 71, 'archive': 13, 'read-only': 99, 'file-access-method': 41},
}
OUTPUTS = (1, 4, 14)
# property and octets of a value that the program has whatever the document says, unless it gives another one
CONSTANT = {97: '8506000309000000', 98: '2101', 139: '210C', 107: '9100', 62: '2205C4', 30: ''}


def unsigned(number):
    return number.to_bytes(max(1, (number.bit_length() + 7) // 8), 'big')


def tagged(number, octets):
    """A context tag with few octets."""
    return bytes([number << 4 | 8 | len(octets)]) + octets


class Client:
    """Reads properties of a server, with one invoke ID after the other."""

    def __init__(self, port):
        self.port, self.invoke = port, 0
        self.socket = socket.socket(socket.AF_INET, socket.SOCK_DGRAM)
        self.socket.settimeout(5)

    def read(self, kind, instance, number, index=None):
        """The octets of the values, or the Error as (class, code); None where nothing comes."""
        self.invoke = (self.invoke + 1) % 256
        service = tagged(0, (kind << 22 | instance).to_bytes(4, 'big')) + tagged(1, unsigned(number))
        if index is not None:
            service += tagged(2, unsigned(index))
        apdu = bytes([0x00, 0x05, self.invoke, 12]) + service
        datagram = bytes([0x81, 0x0A]) + (6 + len(apdu)).to_bytes(2, 'big') + bytes([1, 4]) + apdu
        self.socket.sendto(datagram, (LOOPBACK, self.port))
        while True:
            try:
                answer = self.socket.recv(2048)[6:]
            except socket.timeout:
                return None
            if answer[1] == self.invoke:
                break
        if answer[0] >> 4 == 5:
            return answer[4], answer[6]
        assert answer[0] == 0x30 and answer[3:3 + len(service)] == service, answer.hex()
        values = answer[3 + len(service):]
        assert values[0] == 0x3E and values[-1] == 0x3F, answer.hex()
        return values[1:-1]


def objects_in(octets):
    """The identifiers of an object-list."""
    assert len(octets) % 5 == 0 and octets[::5] == bytes([0xC4]) * (len(octets) // 5), octets.hex()
    numbers = [int.from_bytes(octets[place + 1:place + 5], 'big') for place in range(0, len(octets), 5)]
    return [(number >> 22, number & 0x3FFFFF) for number in numbers]


def device_of(document):
    """The instance of the device of a document."""
    lines = document.read_text().splitlines()
    place = next(place for place, line in enumerate(lines) if line.split('#')[0].replace(' ', '') in ('type="device"', 'type=8'))
    return next(int(line.split('=')[1]) for line in lines[place:] if line.startswith('instance'))


def browse(client, instance, is_given):
    """Reads all that is required. Answers how many objects, answers and Errors there are, and what is wrong."""
    wrong, answers, errors = [], 0, 0
    objects = objects_in(client.read(DEVICE, instance, OBJECT_LIST))
    for kind, number in objects:
        for name, code in {**COMMON, **REQUIRED.get(kind, {})}.items():
            values = client.read(kind, number, code)
            if isinstance(values, bytes):
                answers += 1
                wanted = CONSTANT.get(code) if kind == DEVICE and not is_given else None
                if wanted is not None and values.hex().upper() != wanted:
                    wrong.append((kind, number, name, values.hex()))
            else:
                errors += 1
                wrong.append((kind, number, name, values))
    return len(objects), answers, errors, wrong


def by_index(client, instance):
    """Reads the object-list element by element, and by the wildcard instance. Answers what is wrong."""
    whole = client.read(DEVICE, instance, OBJECT_LIST)
    count = client.read(DEVICE, instance, OBJECT_LIST, 0)
    wanted = len(objects_in(whole))
    wrong = [] if isinstance(count, bytes) and int.from_bytes(count[1:], 'big') == wanted else [('object-list[0]', count)]
    elements = [client.read(DEVICE, instance, OBJECT_LIST, place) for place in range(1, wanted + 1)]
    if any(not isinstance(element, bytes) for element in elements) or b''.join(elements) != whole:
        wrong.append(('object-list[i]', elements))
    if isinstance(client.read(DEVICE, instance, OBJECT_LIST, wanted + 1), bytes):
        wrong.append((f'object-list[{wanted + 1}]', 'answered'))
    if client.read(DEVICE, WILDCARD, OBJECT_LIST) != whole:
        wrong.append((f'device:{WILDCARD}', 'object-list'))
    return wrong


def left_out(client, instance):
    """What the server refuses: priorities of outputs; each with how it answers."""
    outputs = [(kind, number) for kind, number in objects_in(client.read(DEVICE, instance, OBJECT_LIST)) if kind in OUTPUTS]
    told = {name: client.read(*outputs[0], code) for name, code in OUTPUT.items() if outputs}
    return ', '.join(f'{name}: {"answered" if isinstance(answer, bytes) else answer}' for name, answer in told.items())


def main(words):
    document = Path(words[2]) if len(words) > 2 else TOP / 'docs' / 'plant.toml'
    with Server(words[1], 1000000, options=['--objects', str(document), '--reuse']) as server:
        client, instance = Client(server.port), device_of(document)
        count, answers, errors, wrong = browse(client, instance, len(words) > 2)
        wrong += by_index(client, instance)
        for entry in wrong:
            print('WRONG:', *entry)
        print('not served:', left_out(client, instance))
    print(f'objects={count} answers={answers} errors={errors} wrong={len(wrong)}')
    return len(wrong)


if __name__ == '__main__':
    sys.exit(1 if main(sys.argv) else 0)
