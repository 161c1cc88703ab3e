"""What a datagram is in a transaction: read from its octets, for explain.py and pcap.py."""

from dataclasses import dataclass

REQUEST, SIMPLE_ACK, COMPLEX_ACK, SEGMENT_ACK, ERROR, REJECT, ABORT = 0, 2, 3, 4, 5, 6, 7
ROLES = {REQUEST: 'asks', SIMPLE_ACK: 'answers', COMPLEX_ACK: 'answers', ERROR: 'answers', REJECT: 'answers'}


@dataclass
class Apdu:
    """What a transaction looks at of an APDU; `source` and `target` are routes in the NPDU, as text."""

    kind: int
    invoke_id: int
    by_server: bool
    nak: bool
    segment: int | None
    window: int | None
    more: bool
    choice: int | None
    octets: bytes
    source: str
    target: str

    def role(self):
        if self.kind == SEGMENT_ACK:
            return ('refuses' if self.nak else 'takes') + (' request' if self.by_server else ' answer')
        return ROLES.get(self.kind) or ('answers' if self.by_server else 'gives up')

    def is_segment(self):
        return self.segment is not None and self.kind != SEGMENT_ACK


def address(octets):
    """A network and an address, with what is behind them."""
    length = octets[2]
    return f'/{int.from_bytes(octets[:2], "big")}:{octets[3:3 + length].hex().upper()}', octets[3 + length:]


def routes(npdu):
    """The source, the target, and the APDU; None where there is no APDU."""
    control, rest, source, target = npdu[1], npdu[2:], '', ''
    if control & 0x20:
        target, rest = address(rest)
    if control & 0x08:
        source, rest = address(rest)
    return None if control & 0x80 else (source, target, rest[1:] if control & 0x20 else rest)


def of_apdu(octets, source, target):
    """An APDU of a transaction, none that is unconfirmed. Octets have to be whole: what is made here is."""
    kind, segmented, more = octets[0] >> 4, bool(octets[0] & 8), bool(octets[0] & 4)
    if kind == REQUEST:
        segment, window = (octets[3], octets[4]) if segmented else (None, None)
        return Apdu(kind, octets[2], False, False, segment, window, segmented and more, octets[5 if segmented else 3], octets, source, target)
    if kind == COMPLEX_ACK:
        segment, window = (octets[2], octets[3]) if segmented else (None, None)
        return Apdu(kind, octets[1], True, False, segment, window, segmented and more, octets[4 if segmented else 2], octets, source, target)
    if kind == SEGMENT_ACK:
        return Apdu(kind, octets[1], bool(octets[0] & 1), bool(octets[0] & 2), octets[2], octets[3], False, None, octets, source, target)
    if kind not in (SIMPLE_ACK, ERROR, REJECT, ABORT):
        return None
    by_server = kind != ABORT or bool(octets[0] & 1)
    return Apdu(kind, octets[1], by_server, False, None, None, False, octets[2] if kind in (SIMPLE_ACK, ERROR) else None, octets, source, target)


def read(datagram):
    """The APDU of a transaction that a datagram carries, or None."""
    if datagram[:2] != b'\x81\x0A':
        return None
    found = routes(datagram[4:])
    return found and of_apdu(found[2], found[0], found[1])


@dataclass
class Seen:
    """One frame that has a part in a transaction: its key is the client, the server and the invoke ID."""

    number: int
    moment: int
    key: tuple
    apdu: Apdu


def seen(number, moment, source, to, datagram):
    """`source` and `to` are links as text."""
    apdu = read(datagram)
    if apdu is None:
        return None
    ends = (source + apdu.source, to + apdu.target)
    return Seen(number, moment, (*(reversed(ends) if apdu.by_server else ends), apdu.invoke_id), apdu)
