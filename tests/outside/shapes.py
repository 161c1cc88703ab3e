"""The tags that tshark shows of service data, held against the productions of clause 21."""

import re

KINDS = {
    'Null': 0, 'Boolean': 1, 'Unsigned Integer': 2, "Signed Integer (2's complement notation)": 3, 'Real (ANSI/IEE-754 floating point)': 4,
    'Double (ANSI/IEE-754 double precision floating point)': 5, 'Octet String': 6, 'Character String': 7, 'Bit String': 8, 'Enumerated': 9, 'Date': 10,
    'Time': 11, 'BACnetObjectIdentifier': 12,
}
TAG = re.compile(r'(Context|Application) Tag: (.*), Length/Value/Type: (\d+)$|([{}])\[(\d+)\]$')

# Tags are written a12:4 (application, kind 12, four octets), c0:4 (context), o3 (opening), x3 (closing).
PROPERTY = 'c0:4 c1:[1-4]( c2:[1-4])?'
DATA = '( [aco].*)?'
ANY_LENGTH = range(1 << 32)
LENGTHS = {'0': [0], '1': [0, 1], '2': range(1, 9), '3': range(1, 9), '4': [4], '5': [8], '6': ANY_LENGTH, '7': range(1, 1 << 32), '8': range(1, 1 << 32),
           '9': range(1, 5), '10': [4], '11': [4], '12': [4]}
PRODUCTIONS = {
    ('confirmed-request', '6', 'read-file'): 'a12:4 o0 a3:[1-8] a2:[1-8] x0',
    ('confirmed-request', '6', 'read-records'): 'a12:4 o1 a3:[1-8] a2:[1-8] x1',
    ('confirmed-request', '7', 'write-file'): 'a12:4 o0 a3:[1-8] a6:\\d+ x0',
    ('confirmed-request', '7', 'write-records'): 'a12:4 o1 a3:[1-8] a2:[1-8]( a6:\\d+)* x1',
    ('confirmed-request', '12', 'read-property'): PROPERTY,
    ('confirmed-request', '15', 'write-property'): f'{PROPERTY} o3{DATA} x3( c4:[1-8])?',
    ('complex-ack', '6', 'read-file-ack'): 'a1:[01] o0 a3:[1-8] a6:\\d+ x0',
    ('complex-ack', '7', 'write-file-ack'): 'c[01]:[1-8]',
    ('complex-ack', '12', 'read-property-ack'): f'{PROPERTY} o3{DATA} x3',
}


def tags(row):
    """All tags that tshark shows, in their order."""
    found = filter(None, (TAG.search(text) for text in row.get('text', [])))
    return [tag_of(*match.groups()) for match in found]


def tag_of(tag_class, number, length, brace, braced):
    if brace:
        return ('o' if brace == '{' else 'x') + braced
    return f'c{number}:{length}' if tag_class == 'Context' else f'a{KINDS.get(number, number)}:{length}'


def has_known_lengths(row):
    """Whether each application element that tshark shows has a length, or a Boolean's value, that its kind takes."""
    return all(int(tag.split(':')[1]) in LENGTHS.get(tag[1:].split(':')[0], ANY_LENGTH) for tag in tags(row) if tag[0] == 'a')


def has_application_brace(row):
    """Whether an opening or closing tag that tshark shows has the application class."""
    return any(tag[0] in 'ox' and tag_class == '0' for tag, tag_class in zip(tags(row), row.get('bacapp.tag_class', [])))


def production(row, line):
    """The name of the production that tshark's tags follow, for an APDU line of a service; None where they follow none."""
    shown = ' '.join(tags(row))
    for (kind, choice, name), pattern in PRODUCTIONS.items():
        if (kind, choice) == (line.word, line.members.get('choice')) and re.fullmatch(pattern, shown):
            return name
    return None


def opens_data(row):
    """Whether tshark shows the members before the data of a property, and the tag that opens them."""
    return re.match(f'{PROPERTY} o3', ' '.join(tags(row))) is not None


def enclosed(row, data):
    """The octets between the tags [3], by the tags that tshark shows before and after them; None where it does not show both."""
    shown = tags(row)
    if 'o3' not in shown or 'x3' not in shown:
        return None
    first, last = shown.index('o3') + 1, len(shown) - 1 - shown[::-1].index('x3')
    before, after = sum(map(tag_octets, shown[:first])), sum(map(tag_octets, shown[last:]))
    return data[before:len(data) - after]


def has_service(line):
    """Whether `decode` reads on in the service data of this APDU."""
    return 'seq' not in line.members and any((line.word, line.members.get('choice')) == (kind, choice) for kind, choice, _ in PRODUCTIONS)


def spelled_octets(row):
    """How many octets elements with the tags that tshark shows have, in their shortest spelling."""
    return sum(tag_octets(tag) for tag in tags(row))


def tag_octets(tag):
    if tag[0] in 'ox':
        return 1 if int(tag[1:]) < 15 else 2
    number, length = tag[1:].split(':')
    head = 1 if not number.isdigit() or int(number) < 15 else 2
    if tag.startswith('a1:'):
        return head
    length = int(length)
    return head + length + (0 if length < 5 else 1 if length < 254 else 3)
