"""What each member of a line of `bac decode` should equal among the fields that tshark shows."""

import re
import struct

from shapes import enclosed

KINDS = ['confirmed-request', 'unconfirmed-request', 'simple-ack', 'complex-ack', 'segment-ack', 'error', 'reject', 'abort']
NOT_COMPARED = object()


def number(name):
    return lambda row, line: row.number(name)


def datagram_length(row, line):
    """The length of the datagram in UDP; tshark's own field for the BVLL's length always has 4."""
    return str(int(row.number('udp.length')) - 8)


def priority(row, line):
    return str(int(row.number('bacnet.control')) & 3)


def address(control, network, prefix):
    """NETWORK:ADDRESS from the three forms in which tshark shows an address."""
    def get(row, line):
        net = row.number(network)
        if row.number(control) != '1' or net is None:
            return None
        mstp = row.number(f'{prefix}_mstp')
        octets = row.first(f'{prefix}_eth') or row.first(f'{prefix}_tmp') or (f'{int(mstp):02x}' if mstp else '')
        return f'{net}:{octets.replace(":", "").upper()}'
    return get


def raw(row, line):
    """The contents of a network message of a type that tshark doesn't read itself."""
    data = row.first('data.data')
    return None if data is None else data.replace(':', '').upper()


def of_segment(name):
    """A field that `bac` prints for segments alone."""
    return lambda row, line: row.number(name) if row.number('bacapp.segmented_request') == '1' else None


def service_data(front):
    """The octets after the service choice, which ends the front of an APDU; a segment's front has two octets more."""
    def get(row, line):
        return row.apdu_octets()[front + (2 if row.number('bacapp.segmented_request') == '1' else 0):].hex().upper()
    return {'data': get}


def identifier(row, line):
    kind, instance = row.number('bacapp.objectType'), row.number('bacapp.instance_number')
    return None if kind is None or instance is None else f'{kind}:{instance}'


def labelled(start):
    """The number after a label such as `Priority: (Unsigned) 8`."""
    def get(row, line):
        rest = row.label(start)
        found = rest and re.fullmatch(r' ?\((?:Uns|S)igned\) (-?\d+)', rest)
        return found[1] if found else rest
    return get


def octets(start):
    """The octets after a label such as `File Data:  aabbcc`; several are joined by commas."""
    def get(row, line):
        rests = row.labels(start)
        return ','.join(rest.strip().upper() for rest in rests) if rests else None
    return get


def end_of_file(row, line):
    return {'TRUE': '1', 'FALSE': '0', None: None}.get(row.label('End Of File: '), 'no Boolean')


def present_value(row):
    """A present-value that is one number, as tshark shows it; None where tshark shows none."""
    for kind in ['boolean', 'uint', 'int', 'real', 'enum_index']:
        value = row.first(f'bacapp.present_value.{kind}')
        if value is not None:
            return value
    return None


def plain_number(data):
    """A list of data that is one application element of a number, as tshark prints numbers; None for other data."""
    tag, contents = data[0] >> 4, data[1:]
    if tag == 1 and data[0] & 0xFE == 0x10 and not contents:
        return str(data[0] & 1)
    if data[0] & 8 or data[0] & 7 != len(contents) or len(contents) > 4:
        return None
    if tag == 4 and len(contents) == 4:
        return f'{struct.unpack(">f", contents)[0]:.15g}'
    return str(int.from_bytes(contents, 'big', signed=tag == 3)) if tag in (2, 3, 9) and contents else None


def values(row, line):
    """The octets between the tags [3]; and where they are a number as present-value (85) of an analog or binary object, tshark shows that number."""
    octets = enclosed(row, row.apdu_octets()[4 if row.number('bacapp.type') == '0' else 3:])
    plain = line.members['property'] == '85' and line.members['object'].split(':')[0] in ('0', '2', '5')
    wanted = plain_number(octets) if octets and plain else None
    if octets is None or wanted in (None, present_value(row)):
        return NOT_COMPARED if octets is None else octets.hex().upper()
    return f'number {present_value(row)}'


LIMITS = {'sa': number('bacapp.SA'), 'segs': number('bacapp.response_segments'), 'apdu': number('bacapp.max_adpu_size')}
INVOKE = {'id': number('bacapp.invoke_id')}
CHOICE = {'choice': number('bacapp.confirmed_service')}
SEGMENT = {'seq': of_segment('bacapp.sequence_number'), 'win': of_segment('bacapp.window_size'), 'more': of_segment('bacapp.more_segments')}
OBJECT = {'object': identifier}
PROPERTY = OBJECT | {'property': number('bacapp.property_identifier'), 'index': labelled('property Array Index')}
STREAM = {'position': labelled('File Start Position:')}
RECORDS = {'record': labelled('File Start Record:')}

MEMBERS = {
    'bvll': {'len': datagram_length},
    'npdu': {
        'expecting': number('bacnet.control_expect'), 'priority': priority,
        'to': address('bacnet.control_dest', 'bacnet.dnet', 'bacnet.dadr'), 'hops': number('bacnet.hopc'),
        'from': address('bacnet.control_src', 'bacnet.snet', 'bacnet.sadr'),
        'message': number('bacnet.mesgtyp'), 'vendor': number('bacnet.vendor'), 'raw': raw,
    },
    'confirmed-request': LIMITS | INVOKE | SEGMENT | CHOICE | service_data(4),
    'unconfirmed-request': {'choice': number('bacapp.unconfirmed_service')} | service_data(2),
    'simple-ack': INVOKE | CHOICE,
    'complex-ack': INVOKE | SEGMENT | CHOICE | service_data(3),
    'segment-ack': INVOKE | {'nak': number('bacapp.NAK'), 'srv': number('bacapp.SRV')}
    | {'seq': number('bacapp.sequence_number'), 'win': number('bacapp.window_size')},
    'error': INVOKE | CHOICE | {'class': number('bacapp.error_class'), 'code': number('bacapp.error_code')},
    'reject': INVOKE | {'reason': number('bacapp.reject_reason')},
    'abort': INVOKE | {'srv': number('bacapp.SRV'), 'reason': number('bacapp.abort_reason')},
    'read-property': PROPERTY,
    'read-property-ack': PROPERTY | {'values': values},
    'write-property': PROPERTY | {'values': values, 'priority': labelled('Priority:')},
    'read-file': OBJECT | STREAM | {'count': labelled('Requested Octet Count:')},
    'read-records': OBJECT | RECORDS | {'count': labelled('Requested Record Count:')},
    'read-file-ack': STREAM | {'end': end_of_file, 'octets': octets('File Data:')},
    'write-file': OBJECT | STREAM | {'octets': octets('File Data:')},
    'write-records': OBJECT | RECORDS | {'count': labelled('Record Count:'), 'octets': octets('Record Data:')},
    'write-file-ack': STREAM | RECORDS,
}


def compare_line(line, row):
    """Yields the name of each member that either side shows, with what `bac` prints and what tshark shows."""
    if line.word in KINDS:
        kind = row.number('bacapp.type')
        yield 'kind', line.word, KINDS[int(kind)] if kind is not None and int(kind) < len(KINDS) else kind
    for member, get in MEMBERS[line.word].items():
        ours, theirs = line.members.get(member), get(row, line)
        if theirs is not NOT_COMPARED and (ours is not None or theirs is not None):
            yield member, ours, theirs
