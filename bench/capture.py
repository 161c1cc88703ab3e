"""Makes captures for benchmarks: exchanges of valid datagrams of all kinds, from a fixed seed."""

import random

CLIENT, SERVER = '7F000001BAC1', '7F000001BAC0'
SEED = 135
SEGMENT = 400


def tagged(context, octets):
    """A context primitive of fewer than 254 octets."""
    return head(context << 4 | 8, len(octets)) + octets


def head(first, length):
    if length < 5:
        return bytes([first | length])
    if length < 254:
        return bytes([first | 5, length])
    return bytes([first | 5, 254]) + length.to_bytes(2, 'big')


def fewest(number):
    return number.to_bytes(max(1, (number.bit_length() + 7) // 8), 'big')


class Exchanges:
    """Draws exchanges: lists of pairs (whether the client sends it, datagram)."""

    def __init__(self, seed):
        self.random = random.Random(seed)
        self.kinds = [self.read, self.read, self.read, self.write, self.write, self.append, self.read_file, self.refused, self.aborted,
                      self.segmented_reply, self.segmented_request, self.unconfirmed, self.network_message]

    def draw(self):
        self.invoke = self.random.randrange(256)
        self.client_route, self.server_route = self.routes()
        return self.random.choice(self.kinds)()

    def routes(self):
        """The octets of addresses for both ways: mostly none, sometimes a client behind a router."""
        if self.random.random() < 0.8:
            return (0, b''), (0, b'')
        address = self.random.randrange(1, 65535).to_bytes(2, 'big') + self.random.choice([b'\x01', b'\x06'])
        address += self.random.randbytes(address[2])
        return (0x08, address), (0x20, address + b'\xFF')

    def sent(self, from_client, apdu, expecting=False, message=False):
        control, address = self.client_route if from_client else self.server_route
        npdu = bytes([1, control | (4 if expecting else 0) | (0x80 if message else 0)]) + address + apdu
        return from_client, b'\x81\x0A' + (4 + len(npdu)).to_bytes(2, 'big') + npdu

    def confirmed(self, choice, data):
        return self.sent(True, bytes([0x02, 0x75, self.invoke, choice]) + data, expecting=True)

    def complex_ack(self, choice, data):
        return self.sent(False, bytes([0x30, self.invoke, choice]) + data)

    def simple_ack(self, choice):
        return self.sent(False, bytes([0x20, self.invoke, choice]))

    def property(self):
        number = self.random.choice([28, 41, 42, 75, 77, 79, 85, 85, 85, 512, 70000])
        index = tagged(2, fewest(self.random.randrange(1, 300))) if self.random.random() < 0.1 else b''
        return tagged(0, self.object([0, 2, 5, 8, 10])) + tagged(1, fewest(number)) + index

    def object(self, types):
        return (self.random.choice(types) << 22 | self.random.randrange(1 << 22)).to_bytes(4, 'big')

    def value(self):
        """One application element."""
        kind = self.random.randrange(5)
        if kind == 0:
            return b'\x44' + self.random.randbytes(4)
        if kind == 1:
            text = b'\x00' + self.random.randbytes(self.random.randrange(1, 60)).hex().encode()
            return head(0x70, len(text)) + text
        number = fewest(self.random.randrange(1 << self.random.randrange(1, 32)))
        return head(0x20 if kind == 2 else 0x90, len(number)) + number if kind < 4 else b'\xC4' + self.object([0, 5, 8])

    def octets(self, most):
        octets = self.random.randbytes(self.random.randrange(most))
        return head(0x60, len(octets)) + octets

    def position(self):
        number = self.random.randrange(1 << 15)
        return head(0x30, len(fewest(2 * number))) + number.to_bytes(len(fewest(2 * number)), 'big')

    def read(self):
        names = self.property()
        return [self.confirmed(12, names), self.complex_ack(12, names + b'\x3E' + self.value() + b'\x3F')]

    def write(self):
        priority = b'\x49' + bytes([self.random.randrange(1, 17)]) if self.random.random() < 0.3 else b''
        return [self.confirmed(15, self.property() + b'\x3E' + self.value() + b'\x3F' + priority), self.simple_ack(15)]

    def append(self):
        position = self.position()
        file = b'\xC4' + self.object([10])
        return [self.confirmed(7, file + b'\x0E' + position + self.octets(200) + b'\x0F'), self.complex_ack(7, self.context(position))]

    def context(self, position):
        return bytes([0x08 | position[0] & 7]) + position[1:]

    def read_file(self):
        position, count = self.position(), fewest(self.random.randrange(1, 1000))
        asked = b'\xC4' + self.object([10]) + b'\x0E' + position + head(0x20, len(count)) + count + b'\x0F'
        return [self.confirmed(6, asked), self.complex_ack(6, b'\x11\x0E' + position + self.octets(200) + b'\x0F')]

    def refused(self):
        asked = self.confirmed(12, self.property())
        if self.random.random() < 0.5:
            return [asked, self.sent(False, bytes([0x50, self.invoke, 12, 0x91, 1, 0x91, 31]))]
        return [asked, self.sent(False, bytes([0x60, self.invoke, self.random.randrange(10)]))]

    def aborted(self):
        return [self.confirmed(12, self.property()), self.sent(False, bytes([0x71, self.invoke, 4]))]

    def segmented_reply(self):
        names = self.property()
        octets = self.random.randbytes(self.random.randrange(SEGMENT, 6 * SEGMENT))
        data = names + b'\x3E' + head(0x60, len(octets)) + octets + b'\x3F'
        return [self.confirmed(12, names)] + self.segments(False, bytes([0x38, self.invoke]), 12, data)

    def segmented_request(self):
        octets = self.random.randbytes(self.random.randrange(SEGMENT, 6 * SEGMENT))
        data = b'\xC4' + self.object([10]) + b'\x0E' + self.position() + head(0x60, len(octets)) + octets + b'\x0F'
        return self.segments(True, bytes([0x0A, 0x75, self.invoke]), 7, data) + [self.complex_ack(7, b'\x09\x05')]

    def segments(self, from_client, front, choice, data):
        """All segments of a transfer, each acknowledged."""
        pieces = [data[at:at + SEGMENT] for at in range(0, len(data), SEGMENT)]
        sent = []
        for number, piece in enumerate(pieces):
            more = 4 if number + 1 < len(pieces) else 0
            apdu = bytes([front[0] | more]) + front[1:] + bytes([number, 32, choice]) + piece
            sent.append(self.sent(from_client, apdu, expecting=from_client))
            sent.append(self.sent(not from_client, bytes([0x41 if from_client else 0x40, self.invoke, number, 32])))
        return sent

    def unconfirmed(self):
        device = self.object([8])
        return [self.sent(True, b'\x10\x08'), self.sent(False, b'\x10\x00\xC4' + device + b'\x22\x05\xC4\x91\x00\x21\x05')]

    def network_message(self):
        return [self.sent(True, b'\x00' + self.random.randrange(1, 65535).to_bytes(2, 'big'), message=True)]


def datagrams(count, seed=SEED):
    """The first `count` datagrams of the seed, as pairs (whether the client sends it, datagram)."""
    exchanges, made = Exchanges(seed), 0
    while made < count:
        for sent in exchanges.draw()[:count - made]:
            made += 1
            yield sent


def write_captures(count, times, capture, long_capture, hexadecimal):
    """Writes the datagrams as capture lines, the same `times` over with later moments, and as lines of hexadecimal digits alone."""
    lines = [(f'{CLIENT} {SERVER}' if from_client else f'{SERVER} {CLIENT}', octets.hex().upper()) for from_client, octets in datagrams(count)]
    with open(capture, 'w') as short, open(hexadecimal, 'w') as digits:
        short.writelines(f'{moment} {ends} {octets}\n' for moment, (ends, octets) in enumerate(lines))
        digits.writelines(f'{octets}\n' for _, octets in lines)
    with open(long_capture, 'w') as long:
        for turn in range(times):
            long.writelines(f'{turn * count + moment} {ends} {octets}\n' for moment, (ends, octets) in enumerate(lines))
    return sum(len(octets) // 2 for _, octets in lines)


def packet(source, to, octets):
    """UDP over IPv4 between two addresses of four octets, ports 47808."""
    head = bytes([0x45, 0]) + (len(octets) + 28).to_bytes(2, 'big') + bytes([0, 0, 0, 0, 64, 17, 0, 0]) + source + to
    return head + b'\xBA\xC0\xBA\xC0' + (len(octets) + 8).to_bytes(2, 'big') + b'\0\0' + octets


def words(*numbers):
    return b''.join(number.to_bytes(4, 'little') for number in numbers)


def pcap_head(link):
    return bytes.fromhex('D4C3B2A1 0200 0400 00000000 00000000 00000400') + words(link)


def pcap_record(moment, whole):
    """A moment in milliseconds, and the octets of a frame."""
    return words(moment // 1000, moment % 1000 * 1000, len(whole), len(whole)) + whole


def block(number, body):
    body += bytes(-len(body) % 4)
    return words(number, len(body) + 12) + body + words(len(body) + 12)


def pcapng_head(link):
    """A section and an interface, whose moments count microseconds."""
    return block(0x0A0D0D0A, bytes.fromhex('4D3C2B1A 0100 0000 FFFFFFFFFFFFFFFF')) + block(1, words(link, 0x40000))


def pcapng_record(moment, whole):
    units = moment * 1000
    return block(6, words(0, units >> 32, units & 0xFFFFFFFF, len(whole), len(whole)) + whole)
