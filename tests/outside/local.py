#!/usr/bin/env python3
"""Faults of this host never stop the answers of `bac serve`: local.py PROGRAM

- A log that nobody reads, into a pipe and into a socket: 1,000 reads are answered, and once the log is read it tells how many lines are missing.
- A FIFO in place of the document that it follows, from the start and later: it is refused by name, and reads are answered.
- Documents of 8 MiB in its place, one of a million keys, one of comments, one that is too large: refused or taken over, and the slowest answer meanwhile is told.
- A document that it follows and a file that keeps its store, over three lives that end by `kill -9`: what a client wrote and what the document changed stay.
- Documents of 8 MiB of several shapes at a start: read, or refused by name, and in how many seconds is told.
- Standard output that nobody reads any more: a command says nothing, and ends with 141. On a full disk it says so, and ends with 3.
- In a network of its own, whose loopback goes down and comes up, and in which its socket is aborted (`ss -K`): it goes on.

It needs unshare and iproute2 for the last part, and root or user namespaces. Prints a line for each part, and ends with status 1 if something is wrong.
"""

import sys
sys.dont_write_bytecode = True  # no __pycache__ beside the sources

import json
import os
import re
import shutil
import socket
import subprocess
import tempfile
import threading
import time
from pathlib import Path

from processes import LOOPBACK, free_port, has_port

READS = 1000
SECONDS = '300'  # a server ends by itself after so many, if this script does not end it
MEBIBYTE = 1048576
PATIENCE = 60  # how long a change of a document may take, in seconds
DOCUMENT = '[[object]]\ntype = "analog-input"\ninstance = 5\nname = "air"\npresent-value = {{ real = {} }}\n'
LINE = re.compile(r'(listening|\d+ 127\.0\.0\.1:\d+ id \d+ read analog-input:5 present-value: answered real) .*|log: \d+ lines? dropped')
wrong = 0


def check(what, is_right, seen=''):
    global wrong
    if not is_right:
        wrong += 1
        print(f'WRONG: {what}', seen)


class Server:
    """A process of `bac serve`, whose standard error is that file; without one it is read meanwhile."""

    def __init__(self, program, options, err=None):
        self.port = free_port()
        words = [program, 'serve', '--port', str(self.port), '--seconds', SECONDS, *options]
        self.process = subprocess.Popen(words, stdout=subprocess.DEVNULL, stderr=err or subprocess.PIPE)
        self.socket = socket.socket(socket.AF_INET, socket.SOCK_DGRAM)
        self.socket.settimeout(5)
        self.said, self.number = b'', 0
        if err is None:
            threading.Thread(target=self.listen, daemon=True).start()
        end = time.monotonic() + 30
        while self.process.poll() is None and not has_port(self.process.pid, self.port) and time.monotonic() < end:
            time.sleep(0.02)

    def listen(self):
        while octets := os.read(self.process.stderr.fileno(), 65536):
            self.said += octets

    def says(self, text, seconds=PATIENCE):
        """Whether it says that within so many seconds."""
        end = time.monotonic() + seconds
        while text.encode() not in self.said and time.monotonic() < end:
            time.sleep(0.05)
        return text.encode() in self.said

    def read(self):
        """The octets of the present value that it answers, and in how many seconds; None where no answer comes in time."""
        self.number = (self.number + 1) % 256
        began = time.monotonic()
        self.socket.sendto(bytes.fromhex(f'810A001101040005{self.number:02X}0C0C000000051955'), (LOOPBACK, self.port))
        try:
            while (answer := self.socket.recv(2048))[7] != self.number:
                pass
            return answer[-5:-1].hex(), time.monotonic() - began
        except socket.timeout:
            return None, time.monotonic() - began

    def __enter__(self):
        return self

    def __exit__(self, *_):
        self.process.kill()
        self.process.wait()
        self.socket.close()


def read_now(descriptor):
    """What is there to be read, until nothing comes for a while."""
    os.set_blocking(descriptor, False)
    octets, last = b'', time.monotonic()
    while time.monotonic() < last + 0.5:
        try:
            octets, last = octets + os.read(descriptor, 65536), time.monotonic()
        except BlockingIOError:
            time.sleep(0.01)
    return octets


def stalled(program, kind, form):
    """Reads while nobody reads the log, which goes into a pipe or a socket."""
    if kind == 'pipe':
        ours, theirs = os.pipe()
    else:
        ours, theirs = [end.detach() for end in socket.socketpair()]
    with Server(program, ['--log', *form], theirs) as server:
        os.close(theirs)
        answered = sum(server.read()[0] is not None for _ in range(READS))
        check(f'{kind}: each read is answered', answered == READS, answered)
        text = read_now(ours)
        check(f'{kind}: one more', server.read()[0] is not None)
        lines = (text + read_now(ours)).decode().splitlines()
    os.close(ours)
    if form:
        lines = [line['text'] if line['type'] != 'heard' else 'heard' for line in map(json.loads, lines)]
        notes = [line for line in lines if line.startswith('log: ')]
    else:
        check(f'{kind}: each line is whole', all(LINE.fullmatch(line) for line in lines), [line for line in lines if not LINE.fullmatch(line)][:3])
        notes = [line for line in lines if line.startswith('log: ')]
    dropped = sum(int(note.split()[1]) for note in notes)
    check(f'{kind}: written and dropped lines are all', len(lines) - len(notes) + dropped == READS + 2, (len(lines), notes))
    check(f'{kind}: some were dropped', dropped > 0)
    print(f'stalled {kind}{" json" if form else ""}: reads={READS} answered={answered} dropped={dropped}')


def put(folder, path, text):
    """A document in place of the one at a path, at once."""
    fresh = folder / 'fresh'
    fresh.write_text(text)
    fresh.rename(path)


def slowest_until(server, happens):
    """Reads until something happens; the slowest answer, in milliseconds, and how many did not come."""
    slowest, lost, end = 0.0, 0, time.monotonic() + PATIENCE
    while not happens() and time.monotonic() < end:
        value, seconds = server.read()
        slowest, lost = max(slowest, seconds), lost + (value is None)
        time.sleep(0.005)
    return round(slowest * 1000), lost


def real(value):
    """Present value, as its four octets."""
    import struct
    return struct.pack('>f', value).hex()


def fifo(program, folder):
    path = folder / 'fifo.toml'
    os.mkfifo(path)
    with Server(program, ['--objects', str(path), '--follow']) as server:
        try:
            status = server.process.wait(20)
        except subprocess.TimeoutExpired:
            status = 'none'
        check('a FIFO from the start: status 2', status == 2, status)
        check('and it is named', server.says('fifo.toml: not a regular file', 5), server.said)
    path.unlink()
    put(folder, path, DOCUMENT.format(20.5))
    with Server(program, ['--objects', str(path), '--follow']) as server:
        fresh = folder / 'fresh'
        os.mkfifo(fresh)
        fresh.rename(path)
        slowest, lost = slowest_until(server, lambda: server.says('fifo.toml: not a regular file', 0))
        check('a FIFO later: it is named', server.says('fifo.toml: not a regular file', 1), server.said)
        put(folder, path, DOCUMENT.format(21.5))
        more, missing = slowest_until(server, lambda: server.read()[0] == real(21.5))
        check('what follows is taken over', server.read()[0] == real(21.5))
        check('each read is answered', lost + missing == 0, lost + missing)
    print(f'fifo: refused from the start and later, slowest answer {max(slowest, more)} ms')


def large(program, folder):
    path = folder / 'large.toml'
    put(folder, path, DOCUMENT.format(20.5))
    keys = ''.join(f'k{number}=1\n' for number in range(1000000))[:8 * MEBIBYTE - 1]
    comments = DOCUMENT.format(21.5) + '#\n' * (4 * MEBIBYTE - 100)
    with Server(program, ['--objects', str(path), '--follow', '--log-level', 'changes']) as server:
        for name, text, said in (('a million keys', keys, 'too many keys to follow'), ('comments', comments, 'present-value real 21.5'),
                                 ('9 MiB', '#' * 9 * MEBIBYTE, 'larger than 8 MiB')):
            began = time.monotonic()
            put(folder, path, text)
            slowest, lost = slowest_until(server, lambda: server.says(said, 0))
            check(f'{name}: {said}', server.says(said, 1), server.said[-300:])
            check(f'{name}: each read is answered', lost == 0, lost)
            print(f'{name}: "{said}" after {time.monotonic() - began:.1f} s, slowest answer {slowest} ms')
        put(folder, path, DOCUMENT.format(22.5))
        check('what follows is taken over', server.says('present-value real 22.5'), server.said[-300:])


def values_at(program, server):
    """The present values of the objects of a plant, as `bac ask` tells them."""
    ask = [program, 'ask', '--port', str(server.port), '--text', 'read']
    ends = [subprocess.run([*ask, name, 'present-value'], capture_output=True, text=True, timeout=120) for name in ('analog-input:5', 'analog-value:1', 'analog-value:2')]
    return [end.stdout.strip().removeprefix('answered real ') for end in ends]


def kept(program, folder):
    """Three lives of a server that follows a document and keeps its store."""
    path = folder / 'kept.toml'
    setpoint = '[[object]]\ntype = "analog-value"\ninstance = {0}\nname = "{0}"\npresent-value = {{ real = {1}, writable = true }}\n'
    plant = lambda air, first, second: DOCUMENT.format(air) + setpoint.format(1, first) + setpoint.format(2, second)
    options = ['--objects', str(path), '--follow', '--keep', str(folder / 'kept.db'), '--log-level', 'changes']
    put(folder, path, plant(20.5, 1.0, 3.0))
    with Server(program, options) as server:
        written = subprocess.run([program, 'ask', '--port', str(server.port), 'write', 'analog-value:1', 'present-value', 'real:55'], timeout=120)
        check('kept: a client writes', written.returncode == 0)
        put(folder, path, plant(21.5, 1.0, 4.0))
        check('kept: the document is followed', server.says('document analog-value:2 present-value real 4.0'), server.said[-300:])
        check('kept: what the client wrote stays', values_at(program, server) == ['21.5', '55.0', '4.0'], values_at(program, server))
    put(folder, path, plant(20.5, 1.0, 3.0))
    with Server(program, options) as server:
        check('kept: what is kept wins at a start', values_at(program, server) == ['20.5', '55.0', '4.0'], values_at(program, server))
        put(folder, path, plant(20.5, 2.0, 3.0))
        check('kept: the document is followed again', server.says('document analog-value:1 present-value real 2.0'), server.said[-300:])
    with Server(program, options) as server:
        check('kept: and that is kept', values_at(program, server) == ['20.5', '2.0', '4.0'], values_at(program, server))
        check('kept: no fault', b'fault' not in server.said, server.said[-300:])
    print('kept: three lives, what a client wrote and what the document changed')


def described(text):
    return 'described = true\n[[object]]\ntype = "device"\ninstance = 1\nname = "d"\n' + text


def starts(program, folder):
    """Starts on documents of 8 MiB, each of one shape, and one of 256 KiB of which all faults are told."""
    path = folder / 'start.toml'
    properties = ''.join(f'{number}={{null=true}}\n' for number in range(512, 500512))
    objects = ''.join(f'[[object]]\ntype=200\ninstance={number}\nname="{number}"\n' for number in range(170000))
    full = ''.join(f'[[object]]\ntype=200\ninstance={number}\nname="{number}"\n{properties[:14 * 1000]}\n' for number in range(590))
    shapes = {'a million keys': ''.join(f'k{number}=1\n' for number in range(1000000)), 'comments': DOCUMENT.format(21.5) + '#\n' * (4 * MEBIBYTE - 100),
              'an object of many properties': '[[object]]\ntype=200\ninstance=1\nname="a"\n' + properties, 'many objects': objects,
              'many objects, described': described(objects), 'full objects': full, 'full objects, described': described(full),
              'no TOML': 'a\n' * (4 * MEBIBYTE - 1), 'all faults': 'a = 1\n' * (MEBIBYTE // 24)}
    for name, text in shapes.items():
        path.write_text(text[:8 * MEBIBYTE - 1])
        began = time.monotonic()
        ended = subprocess.run([program, 'answer', '--objects', str(path), '00'], capture_output=True, text=True, timeout=600)
        seconds = time.monotonic() - began
        check(f'{name}: read or refused', ended.returncode in (0, 1, 2), ended.returncode)
        print(f'start, {name}: {seconds:.2f} s, status {ended.returncode}, {ended.stderr.splitlines()[-1][-80:] if ended.stderr else "read"}')


def link(program):
    """In a network of its own."""
    run = lambda *words: subprocess.run(words, capture_output=True, text=True)
    run('ip', 'link', 'set', 'lo', 'up')
    with Server(program, ['--log-level', 'requests']) as server:
        check('it answers', server.read()[0] is not None)
        run('ip', 'link', 'set', 'lo', 'down')
        server.socket.settimeout(0.2)
        try:
            server.read()
        except OSError:
            pass
        run('ip', 'link', 'set', 'lo', 'up')
        server.socket.settimeout(5)
        check('it answers once the loopback is up again', server.read()[0] is not None)
        run('ss', '-K', '-u', '-a', 'sport', '=', f':{server.port}')
        is_told = server.says(' to receive failed', 3)
        check('it answers behind an abort of its socket', server.read()[0] is not None, server.said[-300:])
        check('it has not ended', server.process.poll() is None)
    print('link: loopback down and up, answered;', 'socket aborted, told and answered' if is_told else 'this kernel aborts no socket')


def outputs(program):
    reading, writing = os.pipe()
    os.close(reading)
    done = subprocess.run([program, 'help', '--man'], stdout=writing, stderr=subprocess.PIPE)
    os.close(writing)
    check('a pipe without a reader', (done.returncode, done.stderr) == (141, b''), done)
    with open('/dev/full', 'wb') as full:
        done = subprocess.run([program, 'help', '--man'], stdout=full, stderr=subprocess.PIPE)
    check('a full disk', done.returncode == 3 and done.stderr.startswith(b'cannot write'), done)
    print('outputs: a pipe without a reader, a full disk')


def main(words):
    program = os.path.abspath(words[1])
    if words[2:] == ['link']:
        link(program)
        return wrong
    for kind, form in (('pipe', []), ('socket', []), ('pipe', ['--json'])):
        stalled(program, kind, form)
    outputs(program)
    with tempfile.TemporaryDirectory() as name:
        fifo(program, Path(name))
        large(program, Path(name))
        kept(program, Path(name))
        starts(program, Path(name))
    if shutil.which('unshare') and shutil.which('ss'):
        namespace = ['unshare', '-n'] if os.geteuid() == 0 else ['unshare', '-r', '-n']
        ended = subprocess.run([*namespace, sys.executable, __file__, program, 'link'], timeout=120)
        check('link', ended.returncode == 0)
    print(f'wrong={wrong}')
    return wrong


if __name__ == '__main__':
    sys.exit(1 if main(sys.argv) else 0)
