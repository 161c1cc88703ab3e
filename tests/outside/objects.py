#!/usr/bin/env python3
"""Reads the JSON of `bac` as python does, and rows of `bac ask --csv`, and compares them with the plain lines: objects.py PROGRAM

The members of the layers have to be what the plain lines print, and each bad frame and line that of `check`. `python3 -m json.tool` has to read each line; where jq
is installed, it has to read the same. The datagrams are those of datagrams.tsv, whose first column is hexadecimal, and the fronts of each; the captures are
docs/lost.pcapng, its fronts, and lines of those datagrams. A server is asked a list of requests, of which the answers, its log and its kept values are compared, and
a script is simulated.
"""

import csv
import io
import json
import re
import shutil
import subprocess
import sys
import tempfile
import time
from datetime import datetime
from pathlib import Path

from processes import free_port, has_port

TOP = Path(__file__).resolve().parents[2]
CAPTURE = TOP / 'docs' / 'lost.pcapng'
LINKS = '7F000001BAC1 7F000001BAC0'


def ended(program, *words, given=''):
    """What the program prints on standard output, and its status."""
    done = subprocess.run([program, *words], input=given, capture_output=True, text=True, check=False)
    return done.stdout, done.returncode


def as_doubles(line):
    """The object of a line, where numbers beyond 2^53 are doubles: jq before 1.7 takes them as such."""
    return json.loads(line, parse_int=lambda digits: int(digits) if abs(int(digits)) <= 2**53 else float(digits))


def read(text):
    """The objects of lines, as python, json.tool and jq read them."""
    lines = text.splitlines()
    objects = [json.loads(line) for line in lines]
    tool = subprocess.run([sys.executable, '-m', 'json.tool', '--json-lines', '--no-indent'], input=text, capture_output=True, text=True, check=True)
    assert [json.loads(line) for line in tool.stdout.splitlines()] == objects
    if shutil.which('jq') and text:
        told = subprocess.run(['jq', '-c', '.'], input=text, capture_output=True, text=True, check=True).stdout
        assert [as_doubles(line) for line in told.splitlines()] == [as_doubles(line) for line in lines]
    for line, found in zip(lines, objects):
        assert line == json.dumps(found, separators=(',', ':'), sort_keys=True, ensure_ascii=False) or '.' in line, line
    return objects


def members_of(line):
    """The members of a plain line, by name."""
    return dict(re.findall(r' (\w+)=(\S*)', line))


def plain_of(value):
    """A member of JSON as the plain lines print it."""
    return str(int(value)) if isinstance(value, bool) else str(value)


def check_apdu(line, apdu, digits):
    """Compares an APDU with its line."""
    assert line.split()[0] == apdu['kind'], digits
    given = {**apdu, **(apdu.get('segment') or {})}
    for name, text in members_of(line).items():
        assert plain_of(given[name]) == text, (digits, name)


def check_layers(told, lines, digits):
    """Compares an object with the plain lines of its datagram."""
    faults = [line for line in lines if line.startswith('fault ')]
    assert (told['fault'] or {}).get('text') == (faults[0] if faults else None), digits
    for line in lines:
        if line.startswith('bvll '):
            assert members_of(line)['len'] == str(told['length']), digits
        elif line.startswith('npdu '):
            npdu = told['npdu']
            assert members_of(line)['expecting'] == plain_of(npdu['expecting']), digits
            assert members_of(line)['priority'] == plain_of(npdu['priority']), digits
        elif told['apdu'] and line.startswith(told['apdu']['kind'] + ' '):
            check_apdu(line, told['apdu'], digits)
        elif not line.startswith('fault '):
            assert line.split()[0] == told['service']['service'], digits


def check_datagrams(program, datagrams):
    """Compares the objects of datagrams with their lines: each alone, and all as lines of an input."""
    text, _ = ended(program, 'decode', '--json', '-', given='# all\n' + '\n'.join(datagrams) + '\nno\n')
    objects = read(text)
    assert len(objects) == len(datagrams) + 1
    assert objects[-1]['fault'] == {'layer': 'line', 'number': None, 'text': 'bad hex', 'words': 'bad hex'}
    for place, digits in enumerate(datagrams):
        lines, status = ended(program, 'decode', digits)
        alone, json_status = ended(program, 'decode', '--json', digits)
        assert status == json_status, digits
        [told] = read(alone)
        check_layers(told, lines.splitlines(), digits)
        assert objects[place] == {**told, 'line': place + 2}, digits


def check_capture(program, path, *words):
    """Compares the objects of a capture with its lines."""
    plain, status = ended(program, 'check', *words, str(path))
    text, json_status = ended(program, 'check', '--json', *words, str(path))
    assert status == json_status, path
    *bad, summary = read(text)
    *bad_lines, counts = plain.splitlines()
    told = [f"{'frame' if 'frame' in found else 'line'} {found.get('frame', found.get('line'))}: {found['fault']['text']}" for found in bad]
    assert told == bad_lines, path
    for name, count in re.findall(r'(\w+)=(\d+)', counts):
        assert str(summary[name]) == count, (path, name)


LIST = """flow: read analog-input:5 present-value
read device:1 object-name
write analog-value:1 present-value real:20.5
read 0:9 85
put file:1 1 00
get file:1 0 2
"""
SCRIPT = """nodes 2
ask 0 1 append file:1 AABBCC
deliver 0
lose 1
advance 3000
tick 0
deliver 2
deliver 3
deliver 3
restart 1
"""


def check_answers(program, port, path):
    """Compares objects and rows of the answers to a list with its plain lines. Returns how many lines there are."""
    asked = [program, 'ask', '--port', str(port), '--lines', str(path)]
    lines = [line.split(': ', 1) for line in ended(*asked, '--text')[0].splitlines()]
    objects = read(ended(*asked, '--json')[0])
    rows = list(csv.DictReader(io.StringIO(ended(*asked, '--csv')[0])))
    assert len(lines) == len(objects) == len(rows) == len(LIST.splitlines())
    for (number, text), told, row in zip(lines, objects, rows):
        name = told['name']
        assert (told['line'], f'{name}: {told["text"]}' if name else told['text']) == (int(number), text), text
        assert row['name'] == (name or '') and row['object'] == told['object'] and row['peer'] == told['peer'], text
        assert row['property'] == (told['property'] or ''), text
        if told['values'] is not None:
            [value] = told['values']
            assert told['text'] == f"answered {row['kind']} {row['value']}" and row['kind'] == value['kind'], text
        assert datetime.fromisoformat(told['time'].replace('Z', '+00:00')) <= datetime.fromisoformat(row['time'].replace('Z', '+00:00')), text
    return len(lines)


def check_server(program, folder):
    """Compares the answers, the log and the kept values of a server."""
    port, path, kept = free_port(), folder / 'list.txt', folder / 'kept.db'
    path.write_text(LIST, encoding='utf-8')
    words = ['serve', '--port', str(port), '--seconds', '60', '--keep', str(kept), '--log-level', 'all', '--json']
    with open(folder / 'log', 'w', encoding='utf-8') as err:
        server = subprocess.Popen([program, *words], stdout=subprocess.DEVNULL, stderr=err)
        try:
            while not has_port(server.pid, port):
                time.sleep(0.02)
            count = 3 * check_answers(program, port, path)
        finally:
            server.kill()
            server.wait()
    log = read((folder / 'log').read_text(encoding='utf-8'))
    heard = [told for told in log if told['type'] == 'heard']
    assert log[0]['type'] == 'started' and log[0]['text'].startswith('listening ') and len(heard) == count
    for told in heard:
        assert told['what'].split()[0] in LIST and (told['text'] + ' ').startswith('answered '), told
        datetime.fromisoformat(told['time'].replace('Z', '+00:00'))
    plain, status = ended(program, 'keep', str(kept))
    text, json_status = ended(program, 'keep', '--json', str(kept))
    assert status == json_status == 0
    for line, told in zip(plain.splitlines(), read(text), strict=True):
        assert line.split()[0] == told['object'], line
        assert line.split()[1] == (told['property'] or str(told['length'])), line
    return count


def check_script(program, folder):
    """Compares the objects of a script with its plain lines."""
    path = folder / 'script.txt'
    path.write_text(SCRIPT, encoding='utf-8')
    lines, status = ended(program, 'simulate', str(path))
    text, json_status = ended(program, 'simulate', '--json', str(path))
    assert status == json_status
    for line, told in zip(lines.splitlines(), read(text), strict=True):
        words = line.split()
        assert words[0] == told['type'], line
        if told['type'] == 'sent':
            assert words[1:3] == [str(told['number']), f"{told['from']}>{told['to']}"] and words[3] == told['octets'], line
        elif told['type'] == 'ended':
            assert words[1] == str(told['ask']) and line.endswith(told['text']), line
    return len(lines.splitlines())


def main():
    """Checks all of them."""
    program = sys.argv[1]
    rows = (TOP / 'tests' / 'outside' / 'datagrams.tsv').read_text(encoding='utf-8').splitlines()
    whole = [row.split('\t')[0] for row in rows if re.match(r'81[0-9A-Fa-f]+(\t|$)', row)]
    fronts = [digits[:end] for digits in whole[:20] for end in range(2, len(digits), 6)]
    check_datagrams(program, whole + fronts)
    check_capture(program, CAPTURE)
    octets = CAPTURE.read_bytes()
    with tempfile.TemporaryDirectory() as folder:
        path = Path(folder) / 'capture'
        for end in range(4, len(octets), 7):
            path.write_bytes(octets[:end])
            check_capture(program, path)
        lines = [f'{place} {LINKS} {digits}' for place, digits in enumerate(whole + fronts)]
        path.write_text('\n'.join(lines + [f'1 {LINKS} {whole[0]}', 'no line', '']), encoding='utf-8')
        check_capture(program, path)
        check_capture(program, path, '--notes')
        asked = check_server(program, Path(folder))
        told = check_script(program, Path(folder))
    print(f'{len(whole) + len(fronts)} datagrams, {len(range(4, len(octets), 7)) + 3} captures, {asked} answers and {told} events agree')


if __name__ == '__main__':
    main()
