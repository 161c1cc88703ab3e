"""The kinds of difference between `bac decode` and tshark that have a reason, with the reason and the sign by which each is known.

A sign looks at what tshark shows, so that a wrong answer of `bac` is not excused by its own words."""

from dataclasses import dataclass

from members import KINDS
from shapes import has_application_brace, has_known_lengths, has_service, opens_data, production, spelled_octets, tags

RESERVED_BITS = [0x01, 0x0F, 0x0F, 0x03, 0x0C, 0x0F, 0x0F, 0x0E]
FIXED_OCTETS = {2: 3, 4: 4, 6: 3, 7: 3}


@dataclass
class Case:
    """One datagram as both sides read it."""

    datagram: str
    reading: object
    row: object

    @property
    def apdu(self):
        return next((line for line in self.reading.lines if line.word in KINDS), None)

    @property
    def npdu(self):
        return next((line.members for line in self.reading.lines if line.word == 'npdu'), {})

    def member(self, name):
        return self.apdu.members.get(name) if self.apdu else None


def number(case, name):
    value = case.row.number(name)
    return None if value is None else int(value)


def within(case, name, least, most):
    value = number(case, name)
    return value is None or least <= value <= most


# Members that differ. Each sign gets the case, the line's word, the member, what `bac` prints and what tshark shows.

def long_address(case, word, member, ours, theirs):
    lengths = [number(case, 'bacnet.dlen'), number(case, 'bacnet.slen')]
    before = word == 'bvll' or member in ('expecting', 'priority')
    return not before and any(length is not None and length > 6 for length in lengths)


def eight_octets(case, word, member, ours, theirs):
    return theirs is not None and theirs.strip() == '- 8 octets (Signed)'


def empty_octets(case, word, member, ours, theirs):
    return member == 'octets' and strings(ours) == strings(theirs)


def shortened_octets(case, word, member, ours, theirs):
    ours, theirs = strings(ours), strings(theirs)
    same_count = member == 'octets' and len(ours) == len(theirs)
    return same_count and all(a == b or b.endswith('…') and a.startswith(b[:-1]) for a, b in zip(ours, theirs))


def strings(joined):
    """The octet strings that are not empty among some joined by commas."""
    return [text for text in (joined or '').split(',') if text]


def known_message(case, word, member, ours, theirs):
    return member == 'raw' and (ours or '').endswith(theirs or '') and case.row.number('bacnet.mesgtyp') is not None


def typed_data(case, word, member, ours, theirs):
    left_out = member == 'tags' or case.row.malformed and member == 'priority' and theirs is None
    return left_out and case.reading.lines[-1].word in ('read-property-ack', 'write-property') and opens_data(case.row)


def other_error(case, word, member, ours, theirs):
    return word == 'error' and theirs is None and case.row.number('bacapp.confirmed_service') not in ('6', '7', '12', '15')


MEMBER_KINDS = [
    ('address of more than six octets', long_address,
     'tshark does not step over an address of more than six octets; it reads on inside the address, so all that follows differs'),
    ('number of eight octets', eight_octets, 'tshark shows a signed number of eight octets as no number'),
    ('no octets', empty_octets, 'tshark shows no label for an octet string without octets'),
    ('shortened octets', shortened_octets, 'tshark shows the first octets of a long string and an ellipsis'),
    ('network message', known_message, 'tshark reads the contents of the network messages that it knows; they are raw in this profile'),
    ('data of a property', typed_data, 'tshark reads data by the type that the property has; elements that do not fit it are left out, or end its reading'),
    ('Error of another service', other_error, 'tshark reads the Errors of some services as productions of their own; here all are class and code'),
]


# Refused by `bac` alone. A sign is true where what tshark shows has the fault, or the octets at the place where tshark has the APDU.

def truncated_frame(case):
    return int(case.row.number('udp.length')) - 8 < 4


def other_version(case):
    return case.row.number('bvlc.type') != '129'


def other_function(case):
    return case.row.number('bvlc.function') != '10'


def other_length(case):
    return int(case.datagram[4:8], 16) != int(case.row.number('udp.length')) - 8


def truncated_npdu(case):
    return case.row.malformed or not case.row.reached('bacapp')


def other_npdu_version(case):
    return case.row.number('bacnet.version') != '1'


def reserved_control(case):
    return (number(case, 'bacnet.control') or 0) & 0x50 != 0


def bad_network(case):
    return not within(case, 'bacnet.dnet', 1, 65535) or not within(case, 'bacnet.snet', 1, 65534)


def bad_address_length(case):
    to_all = number(case, 'bacnet.dnet') == 65535 and number(case, 'bacnet.dlen') != 0
    return to_all or not within(case, 'bacnet.dlen', 0, 8) or not within(case, 'bacnet.slen', 1, 8)


def truncated_apdu(case):
    return case.row.malformed or number(case, 'bacapp.type') is None or number(case, 'bacapp.invoke_id') is None


def reserved_bits(case):
    octets, kind = case.row.apdu_octets(), number(case, 'bacapp.type')
    if kind is None:
        return False
    return octets[0] & RESERVED_BITS[kind] != 0 or kind == 0 and octets[1] & 0x80 != 0


def reserved_size(case):
    return not within(case, 'bacapp.max_adpu_size', 0, 5)


def bad_window(case):
    return not within(case, 'bacapp.window_size', 1, 127)


def bad_type(case):
    """Such APDUs tshark shows as nothing."""
    return number(case, 'bacapp.type') is None and case.row.apdu_octets()[:1] >= b'\x80'


def trailing(case):
    octets, kind = len(case.row.apdu_octets()), number(case, 'bacapp.type')
    return octets > (3 + spelled_octets(case.row) if kind == KINDS.index('error') else FIXED_OCTETS.get(kind, octets))


def more_without_segment(case):
    return number(case, 'bacapp.more_segments') == 1 and number(case, 'bacapp.segmented_request') == 0


def bad_error(case):
    """tshark takes elements of any kind as class and code, in any spelling."""
    if number(case, 'bacapp.type') != KINDS.index('error'):
        return False
    shown = tags(case.row)
    if len(shown) != 2 or not all(tag in ('a9:1', 'a9:2', 'a9:3', 'a9:4') for tag in shown) or len(case.row.apdu_octets()) != 3 + spelled_octets(case.row):
        return True
    numbers = [number(case, 'bacapp.error_class'), number(case, 'bacapp.error_code')]
    return any(int(tag[3:]) > 1 and value < 1 << 8 * int(tag[3:]) - 8 for tag, value in zip(shown, numbers))


def bad_service(case):
    """The tags that tshark shows follow no production, leave octets over, or a number among them is one that the production does not take."""
    signs = [bad_length, octets_left, bad_count, bad_priority, long_number, long_present_value, nested_data, bad_bits, application_brace]
    return production(case.row, case.apdu) is None or any(sign(case) for sign in signs)


def octets_after(case):
    """Octets after the last member: tshark leaves them out, or shows tags that follow no production."""
    return octets_left(case) or production(case.row, case.apdu) is None


def bad_length(case):
    return not has_known_lengths(case.row)


def octets_left(case):
    return spelled_octets(case.row) != len(case.member('data')) // 2


def bad_count(case):
    count = case.row.label('Record Count:')
    strings = [text for text in case.row['text'] if text.startswith('Application Tag: Octet String')]
    return count is not None and count.split()[-1] != str(len(strings))


def bad_priority(case):
    priority = case.row.label('Priority:')
    value = priority.split()[-1] if priority else ''
    return value.isdigit() and not 1 <= int(value) <= 16


def long_number(case):
    """A number in more octets than it needs: tshark shows the number and, in the next label, its length."""
    labels = case.row['text']
    return any(is_long_label(text, length) for text, length in zip(labels, labels[1:]) if length.rpartition(', ')[2].startswith('Length/Value/Type: '))


def is_long_label(text, length):
    value = text.rpartition(' ')[2].strip('()')
    return value.lstrip('-').isdigit() and not text.startswith('ObjectIdentifier') and is_long(value, length.rpartition(' ')[2], '(Signed)' in text)


def is_long(value, octets, signed):
    value, bits = int(value), 8 * int(octets) - 8
    if bits <= 0:
        return False
    return -(1 << bits - 1) <= value < 1 << bits - 1 if signed else value < 1 << bits


def long_present_value(case):
    """Present-values that are numbers tshark shows as fields, without a label."""
    return any(long_value(case.row, kind, name) for kind, name in [('a2', 'uint'), ('a3', 'int'), ('a9', 'enum_index')])


def long_value(row, kind, name):
    octets = [tag.split(':')[1] for tag in tags(row) if tag.startswith(f'{kind}:')]
    return any(is_long(value, size, name == 'int') for value, size in zip(row.get(f'bacapp.present_value.{name}', []), octets))


def nested_data(case):
    """Data with opening or closing tags inside: whether they are balanced, tshark does not say."""
    return case.member('choice') in ('12', '15') and [tag for tag in tags(case.row) if tag[0] in 'ox'] not in ([], ['o3', 'x3'])


def bad_bits(case):
    """Bits that are not whole, or that tshark takes for another type and does not show."""
    strings = [bytes.fromhex(text.replace(':', '')) for text in case.row.get('bacapp.complete_bitstring', [])]
    counts = case.row.get('bacapp.unused_bits', [])
    if any(int(count) > 7 for count in counts) or len(counts) < sum(tag.startswith('a8:') for tag in tags(case.row)):
        return True
    return any(bits[-1] & (1 << bits[0]) - 1 if bits[1:] else bits[0] for bits in strings)


def application_brace(case):
    return has_application_brace(case.row)


FAULTS = {
    'bvll 1': ('fewer than four octets', truncated_frame),
    'bvll 2': ('the first octet is not 81', other_version),
    'bvll 5': ('the length is not that of the datagram, and tshark goes by the datagram', other_length),
    'bvll 6': ('this profile reads Original-Unicast-NPDU alone', other_function),
    'npdu 1': ('the NPDU ends too early', truncated_npdu),
    'npdu 2': ('another version of the NPDU', other_npdu_version),
    'npdu 3': ('reserved bits of the control octet, which tshark shows and reads over', reserved_control),
    'npdu 4': ('network 0, or 65535 as a source, which tshark reads', bad_network),
    'npdu 5': ('an address longer than eight octets, an empty source, or an address on network 65535', bad_address_length),
    'apdu 1': ('the APDU ends too early, which tshark marks only sometimes', truncated_apdu),
    'apdu 2': ('reserved bits of the APDU, which tshark does not look at', reserved_bits),
    'apdu 3': ('a reserved size of APDU', reserved_size),
    'apdu 4': ('a window outside 1 to 127, which tshark reads', bad_window),
    'apdu 5': ('a type above 7, of which tshark shows nothing', bad_type),
    'apdu 6': ('octets after the last member, which tshark reads over', trailing),
    'apdu 7': ('more segments follow, in no segment', more_without_segment),
    'apdu 8': ('class and code that are no two application Enumerated', bad_error),
}
SERVICE_FAULT = ('service data outside the production or in a spelling that is not the shortest; tshark takes other tags, and octets left over', bad_service)
SERVICE_FAULTS = {
    'reject 2': ('a count that is not that of the records, which tshark reads', bad_count),
    'reject 6': ('a priority outside 1 to 16, which tshark reads', bad_priority),
    'reject 7': ('octets after the last member, which tshark reads over', octets_after),
}


def fault_kind(fault):
    """The reason for a fault of `bac`, and its sign."""
    if fault in SERVICE_FAULTS:
        return SERVICE_FAULTS[fault]
    return SERVICE_FAULT if fault.split(' ')[0] in ('reject', 'data') else FAULTS[fault]


# Refused by tshark alone.

def joined_segments(case):
    return case.member('seq') is not None


def raw_service(case):
    return case.apdu is not None and case.apdu.word in ('confirmed-request', 'unconfirmed-request', 'complex-ack', 'error') and not has_service(case.apdu)


def raw_message(case):
    return 'message' in case.npdu


def after_long_address(case):
    return long_address(case, 'npdu', None, None, None)


def marked_data(case):
    return typed_data(case, None, 'tags', None, None)


REFUSAL_KINDS = [
    ('segments', joined_segments, 'tshark joins segments of equal invoke IDs and reads what comes out; each datagram is read by itself here'),
    ('address of more than six octets', after_long_address, MEMBER_KINDS[0][2]),
    ('other services', raw_service, 'service data of services outside this profile are raw; tshark reads them'),
    ('network message', raw_message, 'contents of network messages are raw; tshark reads those of messages that it knows'),
    ('data of a property', marked_data, 'data of a property may be any elements; tshark marks those that do not fit the type that the property has'),
]
