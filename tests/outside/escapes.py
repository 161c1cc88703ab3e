#!/usr/bin/env python3
"""Gives `bac` text that would act on a terminal, in each place where it prints text of others, and looks for such characters in what it prints: escapes.py PROGRAM

The text is in values and names of objects, in names of files and keys of documents, in lines of lists, scripts and captures, and among the words of command lines. Of each
command standard output and standard error must have no character of Unicode's categories Cc, Cf, Zl, Zp and Cn but tabs and line feeds, and must be UTF-8. JSON must read
back to the text that was given. `--raw-text` must print it as it came.
It takes some ten seconds, all on loopback. The last line is `N outputs of M commands: 0 raw characters`; where something is wrong, a line says what, and the status is 1.
"""
import csv
import io
import json
import os
import pathlib
import socket
import subprocess
import sys
import tempfile
import threading
import unicodedata

program = os.path.abspath(sys.argv[1])
# a right-to-left override, a C1 control, a zero-width space, a line separator, an unassigned character, a control, and beyond U+FFFF a tag
HARM = 'a\u202eb\x9bc\u200bd\u2028e\u0378f\x1bg\U000e0041h'
COMMANDS = set('answer decode check explain simulate serve keep ask pair get put backup restore help version completion'.split())
HIDDEN = {'Cc', 'Cf', 'Zl', 'Zp', 'Cn'}
wrong = []
counts = {'outputs': 0, 'raw': 0}
commands = set()


def raw_characters(octets):
    """The characters that must not be there, with those that are no UTF-8."""
    try:
        text = octets.decode()
    except UnicodeDecodeError as error:
        return [repr(error)]
    return [f'U+{ord(c):04X}' for c in text if c not in '\t\n' and unicodedata.category(c) in HIDDEN]


def run(*words, stdin=b'', raw=False):
    """What `bac` prints and complains of."""
    done = subprocess.run([os.fsencode(program)] + [w if isinstance(w, bytes) else w.encode() for w in words], input=stdin, capture_output=True, timeout=20, check=False)
    commands.update(COMMANDS.intersection(words[:1]))
    if not raw:
        for name, octets in (('standard output', done.stdout), ('standard error', done.stderr)):
            counts['outputs'] += 1
            found = raw_characters(octets)
            counts['raw'] += len(found)
            if found:
                wrong.append(f'{words}: {name}: {found[:5]}')
    return done.stdout, done.stderr


def expect(what, is_so):
    if not is_so:
        wrong.append(what)


def free_port():
    """A port of 127.0.0.1 that nothing is bound to."""
    with socket.socket(socket.AF_INET, socket.SOCK_DGRAM) as link:
        link.bind(('127.0.0.1', 0))
        return str(link.getsockname()[1])


def characters(text):
    """A character string of set 0."""
    body = b'\0' + text.encode()
    return (bytes([0x75, len(body)]) if len(body) > 4 else bytes([0x70 + len(body)])) + body


def answer_of(request, value):
    """A ComplexACK of ReadProperty that answers a datagram."""
    apdu = bytes([0x30, request[8], 0x0C]) + request[10:] + b'\x3e' + value + b'\x3f'
    npdu = b'\x01\x00' + apdu
    return b'\x81\x0a' + (len(npdu) + 4).to_bytes(2, 'big') + npdu


class Peer(threading.Thread):
    """A node that answers each read with that value."""

    def __init__(self, value):
        super().__init__(daemon=True)
        self.value = value
        self.link = socket.socket(socket.AF_INET, socket.SOCK_DGRAM)
        self.link.bind(('127.0.0.1', 0))
        self.link.settimeout(0.2)
        self.port = self.link.getsockname()[1]
        self.ends = False
        self.start()

    def run(self):
        while not self.ends:
            try:
                request, source = self.link.recvfrom(2048)
            except socket.timeout:
                continue
            self.link.sendto(answer_of(request, self.value), source)

    def stop(self):
        self.ends = True
        self.join()
        self.link.close()


def pcap(datagrams):
    """A capture of these, from 127.0.0.1 to 127.0.0.1."""
    out = bytes.fromhex('d4c3b2a1020004000000000000000000ffff000065000000')
    for number, datagram in enumerate(datagrams):
        udp = (47808).to_bytes(2, 'big') + (47809).to_bytes(2, 'big') + (len(datagram) + 8).to_bytes(2, 'big') + b'\0\0' + datagram
        frame = bytes([0x45, 0]) + (len(udp) + 20).to_bytes(2, 'big') + bytes([0, 0, 0, 0, 64, 17, 0, 0, 127, 0, 0, 1, 127, 0, 0, 1]) + udp
        out += number.to_bytes(4, 'little') + bytes(4) + len(frame).to_bytes(4, 'little') * 2 + frame
    return out


def asks(folder):
    peer = Peer(characters(HARM))
    to = ('--to', f'127.0.0.1:{peer.port}', '--timeout', '5')
    try:
        run('ask', *to, 'read', 'device:1', 'object-name')
        run('ask', *to, '--text', 'read', 'device:1', 'object-name')
        line = json.loads(run('ask', *to, '--json', 'read', 'device:1', 'object-name')[0])
        expect('ask --json: the value reads back', line['values'][0]['value'] == HARM)
        out = run('ask', *to, '--csv', '--raw-text', 'read', 'device:1', 'object-name', raw=True)[0]
        expect('ask --csv --raw-text: the value as it came', list(csv.DictReader(io.StringIO(out.decode())))[0]['value'] == HARM)
        run('ask', *to, '--csv', 'read', 'device:1', 'object-name')
        lines = folder / f'list-{HARM}.txt'
        lines.write_bytes(b'flow: read device:1 object-name\n')
        for form in (), ('--text',), ('--json',), ('--csv',):
            run('ask', *to, *form, '--lines', str(lines))
        lines.write_bytes(f'na{HARM}me: read device:1 {HARM}\n'.encode())
        run('ask', *to, '--lines', str(lines))
        lines.write_bytes(b'na\xff\x9bme: read dev\xffice:1 \xfe\n')
        run('ask', *to, '--lines', str(lines))
        run('ask', *to, 'read', HARM, HARM)
        run('ask', '--to', HARM, 'read', 'device:1', 'object-name')
        run('ask', *to, '--out', str(folder / 'none' / HARM), 'get', 'file:1')
        run('get', *to, '--out', str(folder / 'none' / HARM), 'file:1')
        run('put', *to, HARM, str(folder / HARM))
        run('backup', *to, str(folder / HARM / HARM))
        run('restore', *to, str(folder / HARM))
    finally:
        peer.stop()
    for start in '=+-@':
        peer = Peer(characters(start + '1+1\r'))
        try:
            out = run('ask', '--to', f'127.0.0.1:{peer.port}', '--timeout', '5', '--csv', 'read', 'device:1', 'object-name')[0]
        finally:
            peer.stop()
        cell = list(csv.DictReader(io.StringIO(out.decode())))[0]['value']
        expect(f'ask --csv: {start} has an apostrophe before it: {cell!r}', cell == "'" + start + '1+1\\u{D}')
    peer = Peer(bytes.fromhex('44c0a00000'))
    try:
        out = run('ask', '--to', f'127.0.0.1:{peer.port}', '--timeout', '5', '--csv', 'read', 'device:1', 'object-name')[0]
    finally:
        peer.stop()
    expect('ask --csv: a number is as it is', list(csv.DictReader(io.StringIO(out.decode())))[0]['value'] == '-5.0')


def reads(folder):
    name = folder / f'of-{HARM}'
    answer = answer_of(bytes.fromhex('810a001101040005010c0c02000001194d'), characters(HARM))
    run('decode', answer.hex())
    run('decode', '--text', answer.hex())
    line = json.loads(run('decode', '--json', answer.hex())[0])
    expect('decode --json: the value reads back', line['service']['values'][0]['value'] == HARM)
    run('decode', HARM)
    run('decode', '-', stdin=HARM.encode() + b'\n\xff\x9b\n')
    run('decode', '--form', HARM, '-', stdin=b'81\n')
    name.write_bytes(pcap([bytes.fromhex('810a001101040005010c0c02000001194d'), answer, b'\x81\x0a\x9b\xff']))
    for words in (('check',), ('check', '--text'), ('check', '--json'), ('explain',), ('explain', '--json'), ('explain', '--html'), ('explain', '--chart'),
                  ('explain', '--mermaid'), ('explain', '--values')):
        run(*words, str(name))
        run(*words, str(folder / ('none ' + HARM)))
    name.write_bytes(b'# a note ' + HARM.encode() + b'\n\xff\x9b: 81\n' + answer.hex().encode() + b'\n')
    for words in ('check', '--notes'), ('check', '--notes', '--text'), ('check', '--notes', '--json'), ('check',):
        run(*words, str(name))
    name.write_bytes(f'nodes 2 {HARM}\n{HARM}\n'.encode() + b'\xff\x9b\n')
    for words in ('simulate',), ('simulate', '--text'), ('simulate', '--json'), ('simulate', '--chart'), ('simulate', '--mermaid'), ('simulate', '--notes'):
        run(*words, str(name))


def serves(folder):
    document = folder / f'plant {HARM}.toml'
    escaped = ''.join(f'\\U{ord(c):08x}' for c in HARM)
    document.write_text(f'[[object]]\ntype = "device"\ninstance = 1\nname = "{escaped}"\n[[object]]\ntype = "analog-value"\ninstance = 1\nname = "{escaped}"\n', encoding='utf-8')
    read = '810a001101040005010c0c02000001194d'
    port = free_port()
    run('answer', '--objects', str(document), read)
    for turns in ('--turns', '1'), ('--turns', '1', '--json'), ('--turns', '1', '--log'), ('--turns', '1', '--log', '--json'):
        run('serve', '--port', port, '--at', '127.0.0.1', '--objects', str(document), *turns)
    for text in (f'[[object]]\ntype = "{escaped}"\n', f'"{escaped}" = 1\n', f'[[object]]\n"{escaped}" = 1\n', f'{HARM}\n', f'[[object]]\ntype = "device"\ninstance = 1\n"{escaped}" = 1\n'):
        document.write_text(text, encoding='utf-8')
        run('serve', '--port', port, '--at', '127.0.0.1', '--turns', '1', '--objects', str(document))
        run('answer', '--objects', str(document), read)
    document.write_bytes(b'[[object]]\ntype = "\xff\x9b"\n')
    run('serve', '--port', port, '--at', '127.0.0.1', '--turns', '1', '--objects', str(document))
    run('serve', '--port', port, '--at', HARM)
    run('serve', '--port', port, '--peers', HARM)
    kept = folder / f'kept {HARM}'
    document.write_text('[[object]]\ntype = "device"\ninstance = 1\nname = "house"\n', encoding='utf-8')
    run('serve', '--port', port, '--at', '127.0.0.1', '--turns', '1', '--objects', str(document), '--keep', str(kept))
    for words in ('keep',), ('keep', '--json'):
        run(*words, str(kept))
    run('keep', '--forget', HARM, str(kept))
    run('keep', str(folder / HARM))
    kept.write_bytes(b'SQLite\x9b\xff')
    run('keep', str(kept))


def tells():
    run('help', HARM)
    run(HARM)
    run('check', '--' + HARM, 'x')
    run('check', b'a\xff\x9bb')
    run('version')
    run('completion')
    run('pair')
    for command in sorted(COMMANDS):
        run('help', command)


with tempfile.TemporaryDirectory() as made:
    where = pathlib.Path(made)
    asks(where)
    reads(where)
    serves(where)
tells()
for line in wrong:
    print(line)
print(f"{counts['outputs']} outputs of {len(commands)} commands: {counts['raw']} raw characters")
sys.exit(1 if wrong or counts['raw'] else 0)
