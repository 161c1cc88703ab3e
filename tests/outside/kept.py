"""What a server with `--keep` is asked, and what its files hold: for power.py, faults.py, keep.py and bench/keep.py."""

import os
import random
import select
import socket
import sqlite3
import struct
import subprocess
import time
from dataclasses import dataclass
from pathlib import Path

from processes import LOOPBACK, free_port

INSTANCES = NUMBERS = 1 << 22
FILES = 1 << 54  # the places of files are above those of properties
ANALOG_VALUE, FILE = 2, 10
DESCRIPTION, PRESENT_VALUE = 28, 85
IDS = 256
AGAIN = 0.5  # seconds until a request is sent again
OPEN_SECONDS = 180  # a machine may be slow
MEMORY = '/dev/shm' if Path('/dev/shm').is_dir() else None  # where files are whose syncs need no disk


def object_number(kind, instance):
    return kind << 22 | instance


def place_of(kind, instance, number):
    """The place of a cell: a property of an object, or a part of a file above FILES."""
    return object_number(kind, instance) * NUMBERS + number


# ---- requests


def octet_string(octets):
    """Octets as an application tag (clause 20.2.1)."""
    count = len(octets)
    if count < 5:
        return bytes([0x60 + count]) + octets
    return (bytes([0x65, count]) if count < 254 else b'\x65\xFE' + count.to_bytes(2, 'big')) + octets


def text_value(text):
    """A character string of set 0, with the same tag and one octet before it."""
    tagged = octet_string(b'\x00' + text.encode())
    return bytes([tagged[0] + 0x10]) + tagged[1:]


def real_value(number):
    return b'\x44' + struct.pack('>f', number)


def datagram(invoke_id, service, data):
    apdu = bytes([0x00, 0x05, invoke_id, service]) + data
    return bytes([0x81, 0x0A]) + (len(apdu) + 6).to_bytes(2, 'big') + b'\x01\x04' + apdu


def read_of(invoke_id, kind, instance, number):
    """A ReadProperty (clause 15.5)."""
    return datagram(invoke_id, 12, b'\x0C' + object_number(kind, instance).to_bytes(4, 'big') + bytes([0x19, number]))


def write_of(invoke_id, kind, instance, number, value):
    """A WriteProperty (clause 15.9)."""
    data = b'\x0C' + object_number(kind, instance).to_bytes(4, 'big') + bytes([0x19, number, 0x3E]) + value + b'\x3F'
    return datagram(invoke_id, 15, data)


def append_of(invoke_id, instance, octets):
    """An AtomicWriteFile at the end of a file (clause 14.2)."""
    data = b'\xC4' + object_number(FILE, instance).to_bytes(4, 'big') + b'\x0E\x31\xFF' + octet_string(octets) + b'\x0F'
    return datagram(invoke_id, 7, data)


# ---- a store, and what is asked of it


@dataclass(frozen=True)
class Write:
    """A write of a value, or of octets at the end of a file."""

    kind: int
    instance: int
    number: int  # of the property
    text: str  # the value as `bac` prints it; of a file nothing
    octets: bytes  # the value as it is encoded; of a file what is appended

    def sent(self, invoke_id):
        if self.kind == FILE:
            return append_of(invoke_id, self.instance, self.octets)
        return write_of(invoke_id, self.kind, self.instance, self.number, self.octets)


@dataclass
class State:
    """What clients wrote: the values, and the octets of files with all that stood in them."""

    values: dict
    files: dict

    def after(self, write):
        if write.kind == FILE:
            return State(self.values, {**self.files, write.instance: self.files.get(write.instance, b'') + write.octets})
        return State({**self.values, (write.instance, write.number): write}, self.files)

    def lines(self):
        """What `bac keep` prints of it."""
        names = {DESCRIPTION: 'description', PRESENT_VALUE: 'present-value'}
        values = [f'analog-value:{instance} {names[number]} {write.text}' for (instance, number), write in sorted(self.values.items())]
        return values + [f'file:{instance} {len(octets)} octets' for instance, octets in sorted(self.files.items())]

    def cells(self):
        """The cells of its values, and the octets of its files."""
        values = {place_of(ANALOG_VALUE, instance, number): write.octets for (instance, number), write in self.values.items()}
        return values, self.files


NOTHING = State({}, {})


def document(values, files):
    """A document of analog-values whose present-value and description clients may write, and of empty files."""
    lines = ['[[object]]\ntype = "device"\ninstance = 1\nname = "kept"\n']
    for instance in range(1, values + 1):
        lines.append(f'[[object]]\ntype = "analog-value"\ninstance = {instance}\nname = "value {instance}"\n'
                     'description = { text = "", writable = true }\npresent-value = { real = 0.0, writable = true }\n')
    for instance in range(1, files + 1):
        lines.append(f'[[object]]\ntype = "file"\ninstance = {instance}\nname = "file {instance}"\nfile = {{ hex = "", writable = true }}\n')
    return '\n'.join(lines)


VALUES_THERE, FILES_THERE = 40, 4


def writes_from(seed, bursts, longest):
    """Bursts of 1 to 32 writes, each of which differs from all others. Texts and appends have at most so many octets."""
    draws = random.Random(seed)
    count, made = 0, []
    for _ in range(bursts):
        burst = []
        for _ in range(draws.choice([1, 1, 2, 7, 32])):
            count += 1
            burst.append(write_from(draws, count, longest))
        made.append(burst)
    return made


def write_from(draws, count, longest):
    """The write of that number, of one of three forms."""
    form = draws.randrange(3)
    if form == 0:
        return Write(ANALOG_VALUE, draws.randint(1, VALUES_THERE), PRESENT_VALUE, f'real {count}.0', real_value(count))
    filler = draws.choice(['', '', '-' * draws.randrange(longest)])
    if form == 1:
        text = f'{count}{filler}'
        return Write(ANALOG_VALUE, draws.randint(1, VALUES_THERE), DESCRIPTION, f'text {text}', text_value(text))
    return Write(FILE, draws.randint(1, FILES_THERE), 0, '', f'<{count}{filler}>'.encode())


def states_of(bursts):
    """What is written after each number of writes, from none on."""
    states = [NOTHING]
    for burst in bursts:
        for write in burst:
            states.append(states[-1].after(write))
    return states


# ---- asking


class Asker:
    """A client that has as many sockets as it needs: each asks with each invoke ID once."""

    def __init__(self, port):
        self.server, self.sockets, self.asked, self.numbers = (LOOPBACK, port), {}, 0, {}
        self.answered = {}  # the APDUs of the answers, by the number of the request

    def __enter__(self):
        return self

    def __exit__(self, *_):
        for link in self.sockets.values():
            link.close()

    def start(self, request):
        """Sends the next request, a function of an invoke ID. Returns what asks again."""
        number = self.asked
        self.asked += 1
        if number % IDS == 0:
            self.link = socket.socket(socket.AF_INET, socket.SOCK_DGRAM)
            self.link.bind((LOOPBACK, 0))
            self.link.setblocking(False)
            self.sockets[self.link.fileno()] = self.link
        link, octets = self.link, request(number % IDS)
        self.numbers[(link.getsockname()[1], number % IDS)] = number
        link.sendto(octets, self.server)
        return number, link, octets

    def ask(self, requests, is_serving):
        """Sends requests at once and waits until all are answered. Returns whether they were; otherwise the server has ended."""
        waiting = {number: (link, octets) for number, link, octets in map(self.start, requests)}
        while waiting:
            links = list({link.fileno() for link, _ in waiting.values()})
            found = select.select(links, [], [], AGAIN)[0]
            for fileno in found:
                self.hear(self.sockets[fileno], waiting)
            if found:
                continue
            if not is_serving():
                return False
            for link, octets in waiting.values():
                link.sendto(octets, self.server)
        return True

    def hear(self, link, waiting):
        """Takes all that has come to a socket."""
        while True:
            try:
                apdu = link.recv(2048)[6:]
            except BlockingIOError:
                return
            except ConnectionError:  # the server has ended
                continue
            number = self.numbers[(link.getsockname()[1], apdu[1])]
            self.answered[number] = apdu
            waiting.pop(number, None)


def is_written(apdu):
    """Whether an APDU says that a write was performed."""
    return apdu[0] in (0x20, 0x30)


# ---- servers and their files


def log_of(path):
    return f'{path}-wal'


def started(program, path, options=(), env=None):
    """A process of `bac serve --keep`, its port, and what it said until it listened. It has ended where the last line is no `listening` line."""
    for _ in range(5):
        port = free_port()
        words = [program, 'serve', '--port', str(port), '--keep', path, *options]
        process = subprocess.Popen(words, stdout=subprocess.PIPE, stderr=subprocess.PIPE, text=True, env={**os.environ, **(env or {})})
        said = [process.stderr.readline()]
        if not said[-1].startswith('link fault'):
            return process, port, said
        process.wait()
    raise SystemExit(f'no free port: {said}')


def opened_once(program, path, options=()):
    """Starts a server on a file and lets it take one turn. Returns its status and what it said."""
    for _ in range(5):
        words = [program, 'serve', '--port', str(free_port()), '--turns', '1', '--keep', path, *options]
        done = subprocess.run(words, capture_output=True, text=True, timeout=OPEN_SECONDS)
        if not done.stderr.startswith('link fault'):
            return done.returncode, done.stderr
    raise SystemExit(f'no free port: {done.stderr}')


def kept_lines(program, path):
    """What `bac keep` prints."""
    done = subprocess.run([program, 'keep', path], capture_output=True, text=True, timeout=OPEN_SECONDS)
    if done.returncode != 0 or done.stderr:
        raise SystemExit(f'keep {path}: status {done.returncode}, {done.stderr!r}')
    return done.stdout.splitlines()


def kept_cells(path):
    """The values that a database keeps, by their places, and the octets of its files, by their instances, as sqlite3 reads it."""
    with sqlite3.connect(path) as database:
        cells = dict(database.execute('SELECT place, octets FROM cell'))
    database.close()
    values = {place: octets for place, octets in cells.items() if place < FILES}
    files = {}
    for place in cells:
        if place >= FILES and place % NUMBERS == 0:
            count = cells[place][0]
            files[place // NUMBERS % INSTANCES] = b''.join(cells[place + 1 + chunk] for chunk in range(count))
    return values, files


# ---- the trace of disk.c

LOG, DATABASE = 1, 2


@dataclass
class Event:
    """A call that was made: disk.c says more."""

    kind: str
    file: int
    at: int
    octets: bytes


def built_watch(folder):
    """Builds disk.c. Returns the library's path."""
    built = str(Path(folder, 'disk.so'))
    source = str(Path(__file__).resolve().with_name('disk.c'))
    subprocess.run(['cc', '-O2', '-shared', '-fPIC', '-Wall', '-Werror', '-o', built, source, '-ldl'], check=True)
    return built


def watched(watch, path, trace, fails=None):
    """The environment of a server that is watched."""
    more = {'FAILS': fails} if fails else {}
    return {'LD_PRELOAD': watch, 'KEPT': path, 'TRACE': trace, 'ASAN_OPTIONS': 'verify_asan_link_order=0', **more}


def events_of(trace):
    """The events of a trace."""
    octets, at, events = Path(trace).read_bytes(), 0, []
    while at < len(octets):
        end = octets.index(b'\n', at)
        kind, file, place, count = octets[at:end].decode().split(' ')
        at = end + 1 + int(count)
        events.append(Event(kind, int(file), int(place), octets[end + 1:at]))
    return events


def run_watched(program, bursts, folder, watch, fails=None, disk=None):
    """A server on a new file, in the folder or on another disk, that is asked bursts of writes until they are over, or it ends. Returns its file, its asker, its
    events, its status (None where it was killed in the end), and all that it said."""
    trace, objects, path = str(Path(folder, 'trace')), str(Path(folder, 'objects.toml')), str(Path(disk or folder, 'kept.db'))
    Path(objects).write_text(document(VALUES_THERE, FILES_THERE))
    process, port, said = started(program, path, ('--objects', objects), watched(watch, path, trace, fails))
    with Asker(port) as asker:
        for burst in bursts if said[-1].startswith('listening') else []:
            if not asker.ask([write.sent for write in burst], lambda: process.poll() is None):
                break
        if said[-1].startswith('listening'):
            process.kill()
        out, err = process.communicate(timeout=OPEN_SECONDS)
    status = None if process.returncode == -9 else process.returncode
    return path, asker, events_of(trace), status, ''.join(said) + err


def answers_in(events, asker):
    """Pairs of the place of an event and the number of the request that it answers for the first time. They have to be in the order of the requests."""
    places = []
    for place, event in enumerate(events):
        if event.kind != 'A':
            continue
        apdu = event.octets[6:]
        number = asker.numbers[(event.at, apdu[1])]
        if number == len(places):
            if not is_written(apdu):
                raise SystemExit(f'write {number} got {apdu.hex()}')
            places.append(place)
        elif number > len(places):
            raise SystemExit(f'write {number} was answered before {len(places)}')
    return places


def rounds_in(events, places):
    """How many writes were answered at the end of each round: between two rounds the disk is written."""
    ends, before = [0], None
    for count, place in enumerate(places):
        if before is not None and any(event.kind != 'A' for event in events[before:place]):
            ends.append(count)
        before = place
    return [*ends, len(places)] if places else ends
