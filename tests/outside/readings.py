"""What `bac decode` prints and what tshark shows of the same datagrams."""

import subprocess
import tempfile
from concurrent.futures import ThreadPoolExecutor
from dataclasses import dataclass, field
from pathlib import Path

BACNET_PORT = 47808
AGGREGATOR = '\x1e'

FIELDS = [
    'frame.number', 'frame.protocols', '_ws.malformed', '_ws.expert.message', 'text', 'data.data',
    'udp.length', 'udp.payload', 'bvlc.type', 'bvlc.function',
    'bacnet.version', 'bacnet.control', 'bacnet.control_expect', 'bacnet.control_dest', 'bacnet.control_src',
    'bacnet.dnet', 'bacnet.dlen', 'bacnet.dadr_eth', 'bacnet.dadr_mstp', 'bacnet.dadr_tmp',
    'bacnet.snet', 'bacnet.slen', 'bacnet.sadr_eth', 'bacnet.sadr_mstp', 'bacnet.sadr_tmp', 'bacnet.hopc', 'bacnet.mesgtyp', 'bacnet.vendor',
    'bacapp.type', 'bacapp.pduflags', 'bacapp.segmented_request', 'bacapp.more_segments', 'bacapp.SA', 'bacapp.max_adpu_size', 'bacapp.response_segments',
    'bacapp.invoke_id', 'bacapp.sequence_number', 'bacapp.window_size', 'bacapp.confirmed_service', 'bacapp.unconfirmed_service', 'bacapp.NAK', 'bacapp.SRV',
    'bacapp.error_class', 'bacapp.error_code', 'bacapp.reject_reason', 'bacapp.abort_reason',
    'bacapp.objectType', 'bacapp.instance_number', 'bacapp.property_identifier', 'bacapp.unused_bits', 'bacapp.complete_bitstring', 'bacapp.tag_class',
    'bacapp.present_value.boolean', 'bacapp.present_value.uint', 'bacapp.present_value.int', 'bacapp.present_value.real', 'bacapp.present_value.enum_index',
]


@dataclass
class Line:
    """One line of `bac decode`: its first word, and its members in the form NAME=VALUE."""

    word: str
    members: dict


@dataclass
class Reading:
    """All lines of `bac decode` for one datagram, and its fault line, if any, without the word `fault`."""

    lines: list = field(default_factory=list)
    fault: str | None = None


class Row(dict):
    """What tshark shows of one datagram: each field's name with the list of its values."""

    def first(self, name):
        values = self.get(name)
        return values[0] if values else None

    def number(self, name):
        """The field's first value as a decimal number, or None where the field isn't shown."""
        value = self.first(name)
        if value is None:
            return None
        return str(int({'True': '1', 'False': '0'}.get(value, value), 0))

    def labels(self, start):
        """The rests of all labels of no field of their own that begin with `start`."""
        return [text[len(start):] for text in self.get('text', []) if text.startswith(start)]

    def label(self, start):
        rests = self.labels(start)
        return rests[0] if rests else None

    def reached(self, layer):
        return layer in self.first('frame.protocols').split(':')

    def apdu_octets(self):
        """The octets after the NPDU, by the parts and lengths of addresses that tshark shows."""
        to = 4 + int(self.number('bacnet.dlen')) if self.number('bacnet.control_dest') == '1' else 0
        source = 3 + int(self.number('bacnet.slen')) if self.number('bacnet.control_src') == '1' else 0
        return bytes.fromhex(self.first('udp.payload').replace(':', ''))[6 + to + source:]

    @property
    def malformed(self):
        return '_ws.malformed' in self


def read_datagrams(paths):
    """The datagrams of all files, each once, in their order; and the number of lines that hold none."""
    found, others = {}, 0
    for path in paths:
        for text in Path(path).read_text(errors='replace').splitlines():
            hexadecimal = datagram_of(text)
            if hexadecimal is None:
                others += 1
            else:
                found[hexadecimal] = None
    return list(found), others


def datagram_of(text):
    """A table's line has its datagram in the first column, a capture line (moment from to hex) and `sent K A>B HEX` in the last of four words."""
    words = text.split('\t')[:1] if '\t' in text else text.split(' ')[3:] if text.count(' ') == 3 else []
    try:
        return bytes.fromhex(words[0]).hex().upper() or None if words else None
    except ValueError:
        return None


def bac_readings(program, datagrams):
    with ThreadPoolExecutor(4) as pool:
        return list(pool.map(lambda datagram: bac_reading(program, datagram), datagrams))


def bac_reading(program, datagram):
    done = subprocess.run([program, 'decode', datagram], capture_output=True, text=True, timeout=60)
    reading = Reading()
    for text in done.stdout.splitlines():
        word, *rest = text.split(' ')
        if word == 'fault':
            reading.fault = ' '.join(rest)
        else:
            reading.lines.append(Line(word, dict(member.split('=', 1) for member in rest)))
    if done.returncode != (1 if reading.fault else 0) or done.stderr or not done.stdout:
        raise SystemExit(f'bac decode {datagram}: status {done.returncode}, {done.stdout!r}, {done.stderr!r}')
    return reading


def write_capture(datagrams, path):
    """Makes a pcap file of the datagrams, each in UDP at BACnet's port."""
    text = Path(f'{path}.txt')
    text.write_text('\n'.join(datagrams) + '\n')
    ports = f'{BACNET_PORT},{BACNET_PORT}'
    subprocess.run(['text2pcap', '-q', '-u', ports, '-r', '^(?<data>[0-9A-Fa-f]+)$', str(text), str(path)], check=True, stderr=subprocess.DEVNULL)


def tshark_rows(datagrams):
    with tempfile.TemporaryDirectory() as folder:
        capture = Path(folder, 'datagrams.pcap')
        write_capture(datagrams, capture)
        words = ['tshark', '-r', str(capture), '-T', 'fields', '-E', f'aggregator={AGGREGATOR}']
        words += [word for name in FIELDS for word in ('-e', name)]
        shown = subprocess.run(words, check=True, capture_output=True).stdout.decode(errors='replace')
    rows = [row_of(text) for text in shown.removesuffix('\n').split('\n')]
    if [row.number('frame.number') for row in rows] != [str(n + 1) for n in range(len(datagrams))]:
        raise SystemExit('tshark did not show each datagram once')
    return rows


def row_of(text):
    return Row((name, value.split(AGGREGATOR)) for name, value in zip(FIELDS, text.split('\t')) if value)


def tshark_version():
    return subprocess.run(['tshark', '--version'], check=True, capture_output=True, text=True).stdout.split('\n')[0].strip()
