"""Frames of datagrams in each link layer that docs/FORMATS.md names, and the capture files that hold them."""

import ipaddress
import shutil
import struct
from dataclasses import dataclass

ETHERNET, NULL, COOKED, COOKED_2, LOOP, RAW = 1, 0, 113, 276, 108, 101
RAWS = [12, 14, 101, 228, 229]
MOST = 262_144
MILLISECOND = 1_000_000  # in nanoseconds


def need(*programs):
    """Ends where a program that is wanted is not installed."""
    missing = [name for name in programs if shutil.which(name) is None]
    if missing:
        raise SystemExit(f'needs {", ".join(missing)}: apt-get install tshark')


@dataclass(frozen=True)
class End:
    host: str
    port: int = 47808

    def octets(self):
        return ipaddress.ip_address(self.host).packed

    def __str__(self):
        return f'{self.host}:{self.port}'


# ---- packets

def checksum(octets):
    total = sum(struct.unpack(f'>{len(octets) // 2}H', octets))
    while total > 0xFFFF:
        total = (total >> 16) + (total & 0xFFFF)
    return ~total & 0xFFFF


def udp(source, to, octets):
    return struct.pack('>HHHH', source.port, to.port, len(octets) + 8, 0) + octets


def ipv4(source, to, octets, options=b''):
    """Options are whole words of four octets."""
    contents = udp(source, to, octets)
    length = 20 + len(options)
    front = struct.pack('>BBHHHBB', 0x40 | length // 4, 0, length + len(contents), 7, 0x4000, 64, 17)
    ends = source.octets() + to.octets() + options
    return front + struct.pack('>H', checksum(front + b'\0\0' + ends)) + ends + contents


def ipv6(source, to, octets, extensions=()):
    """Extensions are pairs of a header's number and its octets but for the first."""
    contents, next_header = udp(source, to, octets), 17
    for number, rest in reversed(extensions):
        contents, next_header = bytes([next_header]) + rest + contents, number
    return struct.pack('>IHBB', 0x60000000, len(contents), next_header, 64) + source.octets() + to.octets() + contents


def packet(source, to, octets):
    return ipv4(source, to, octets) if len(source.octets()) == 4 else ipv6(source, to, octets)


# ---- frames

def ether_type(whole):
    return 0x0800 if whole[0] >> 4 == 4 else 0x86DD


def ethernet(whole, tags=()):
    """Tags are the EtherTypes of VLAN tags; a short frame is padded."""
    front = bytes.fromhex('020000000009 020000000005') + b''.join(struct.pack('>HH', tag, 0x2005) for tag in tags)
    return (front + struct.pack('>H', ether_type(whole)) + whole).ljust(60, b'\xEE')


def cooked(whole, tags=()):
    front = bytes.fromhex('0000 0001 0006 020000000005 0000') + b''.join(struct.pack('>HH', tag, 0x2005) for tag in tags)
    return front + struct.pack('>H', ether_type(whole)) + whole


def cooked_2(whole):
    return struct.pack('>H', ether_type(whole)) + bytes.fromhex('0000 00000003 0001 00 06 020000000005 0000') + whole


def loopback(whole, order='<', family6=30):
    return struct.pack(f'{order}I', 2 if whole[0] >> 4 == 4 else family6) + whole


# ---- files of pcap: frames are pairs of a moment in nanoseconds and octets

def pcap(link, frames, order='<', unit=1000):
    """A unit is so many nanoseconds: 1000 or 1."""
    magic = 0xA1B2C3D4 if unit == 1000 else 0xA1B23C4D
    parts = [struct.pack(f'{order}IHHiIII', magic, 2, 4, 0, 0, MOST, link)]
    for moment, octets in frames:
        seconds, part = divmod(moment, 1_000_000_000)
        parts += [struct.pack(f'{order}IIII', seconds, part // unit, len(octets), len(octets)), octets]
    return b''.join(parts)


# ---- files of pcapng

def padded(octets):
    return octets + bytes(-len(octets) % 4)


def block(order, number, body):
    body = padded(body)
    length = struct.pack(f'{order}I', len(body) + 12)
    return struct.pack(f'{order}I', number) + length + body + length


def option(order, number, octets):
    return struct.pack(f'{order}HH', number, len(octets)) + padded(octets)


def section(order):
    return block(order, 0x0A0D0D0A, struct.pack(f'{order}IHHq', 0x1A2B3C4D, 1, 0, -1) + option(order, 4, b'by hand') + option(order, 0, b''))


def interface(order, link, digits):
    """Moments count units of 10 to the power of so many digits below a second."""
    options = option(order, 2, b'eth') + option(order, 9, bytes([digits])) + option(order, 0, b'')
    return block(order, 1, struct.pack(f'{order}HHI', link, 0, MOST) + options)


def enhanced(order, index, digits, moment, octets):
    units = moment // 10 ** (9 - digits)
    return block(order, 6, struct.pack(f'{order}IIIII', index, units >> 32, units & 0xFFFFFFFF, len(octets), len(octets)) + padded(octets))


def obsolete(order, index, digits, moment, octets):
    """The packet block before the enhanced one, with an interface of 16 bits and a count of drops."""
    units = moment // 10 ** (9 - digits)
    return block(order, 2, struct.pack(f'{order}HHIIII', index, 0, units >> 32, units & 0xFFFFFFFF, len(octets), len(octets)) + padded(octets))


def simple(order, octets):
    """Of the first interface, without a moment."""
    return block(order, 3, struct.pack(f'{order}I', len(octets)) + octets)


def pcapng(link, frames, order='<', digits=9):
    parts = [section(order), interface(order, link, digits)]
    parts += [enhanced(order, 0, digits, moment, octets) for moment, octets in frames]
    return b''.join(parts)


def read_pcap(octets):
    """The frames of a file of pcap of microseconds, as they are given to pcap()."""
    order = '<' if octets[:4] == struct.pack('<I', 0xA1B2C3D4) else '>'
    frames, rest = [], octets[24:]
    while rest:
        seconds, part, length, _ = struct.unpack(f'{order}IIII', rest[:16])
        frames.append((seconds * 1_000_000_000 + part * 1000, rest[16:16 + length]))
        rest = rest[16 + length:]
    return frames
