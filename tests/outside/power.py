#!/usr/bin/env python3
"""Power cuts of `bac serve --keep`: power.py PROGRAM [SEED [IMAGES [READ]]]

Two servers are asked bursts of 1 to 32 writes, while disk.c notes each write, change of length and sync of their files, and each answer. From what it noted
images are made: what the two files may hold if the power fails at a moment. Of what was done since the last sync of a file, anything may be there: all of it, none
of it, or some of its pages, sectors or octets, with a length in between.

On each image a server is started, which takes one turn; then `bac keep` has to print, and sqlite3 has to find, just what was written by the rounds that were
answered, and nothing else; or also the round that was under way, if the disk had been written for it. On READ of the images (40) servers serve for longer than the 65
seconds that they wait, and each value and file is read from them."""

import sys
sys.dont_write_bytecode = True  # no __pycache__ beside the sources

import bisect
import random
import re
import subprocess
import tempfile
import time
from concurrent.futures import ThreadPoolExecutor
from dataclasses import dataclass, field
from pathlib import Path

from kept import DATABASE, DESCRIPTION, FILES_THERE, LOG, MEMORY, PRESENT_VALUE, VALUES_THERE, ANALOG_VALUE, Asker, answers_in, built_watch, kept_cells, kept_lines, log_of
from kept import opened_once, read_of, real_value, rounds_in, run_watched, started, states_of, text_value, writes_from
from processes import ask

WAYS = ['all', 'none', 'some', 'some', 'some']
WORKERS = 4
STARTS = re.compile(r'(serving from 65\d{3}\n)?')  # a busy machine opens the file some milliseconds later
WAITS = 66  # seconds until a server that starts again has waited
SECTOR, PAGE = 512, 4096
MOST_OCTETS = 1 << 14  # a longer write is not torn octet by octet


# ---- what a power cut leaves


@dataclass
class File:
    """A file on a disk: as it reads, as the disk surely has it, and what was done to it since the disk was synced."""

    seen: bytearray = field(default_factory=bytearray)
    synced: bytes = b''
    since: list = field(default_factory=list)

    def take(self, event):
        if event.kind == 'S':
            self.synced, self.since = bytes(self.seen), []
        else:
            apply(self.seen, event)
            self.since.append(event)

    def left(self, way, draws):
        """What a power cut leaves of it."""
        if way == 'all':
            return bytes(self.seen)
        octets = bytearray(self.synced)
        if way == 'some':
            for event in self.since:
                tear(octets, event, draws)
        return bytes(octets)


def apply(octets, event):
    """A write, or a change of the length."""
    if event.kind == 'T':
        del octets[event.at:]
        octets.extend(bytes(event.at - len(octets)))
        return
    end = event.at + len(event.octets)
    octets.extend(bytes(max(0, end - len(octets))))
    octets[event.at:end] = event.octets


def tear(octets, event, draws):
    """Some of a write, or of a change of the length."""
    if event.kind == 'T':
        low, high = sorted([event.at, len(octets)])
        length = draws.randint(low, high)
        del octets[length:]
        octets.extend(bytes(length - len(octets)))
        return
    way = draws.choice(['lost', 'whole', 'pages', 'sectors', 'octets'])
    if way == 'lost':
        return
    if way == 'whole':
        apply(octets, event)
        return
    end = event.at + len(event.octets)
    if end > len(octets):  # the length is on the disk, or a part of it, and what is there is anything
        octets.extend(bytes([draws.choice([0, 0, 0, 7, 255])]) * (draws.randint(len(octets), end) - len(octets)))
    step = {'pages': PAGE, 'sectors': SECTOR, 'octets': 1 if len(event.octets) <= MOST_OCTETS else 64}[way]
    for at in range(0, len(event.octets), step):
        first, last = event.at + at, min(event.at + at + step, end, len(octets))
        if draws.random() < 0.5 and first < last:
            octets[first:last] = event.octets[at:at + last - first]


def moments_of(events, count, draws):
    """Moments between events: the first ones, some around writes to the database, where a log is copied, and others."""
    copied = [place for place, event in enumerate(events) if event.file == DATABASE and event.kind != 'S']
    around = [min(len(events), place + draws.randint(0, 3)) for place in copied[::max(1, len(copied) * 5 // count)]]
    some = draws.sample(range(len(events) + 1), min(len(events) + 1, count))
    return sorted(set([*range(min(50, len(events))), *around, *some][:count]))


def images_of(events, moments, draws):
    """For each moment and each way, what a power cut leaves of the log and of the database; None where the file is not there."""
    files, is_there, at = {LOG: File(), DATABASE: File()}, False, 0
    for moment in moments:
        for event in events[at:moment]:
            if event.file in files:
                files[event.file].take(event)
            is_there |= event.kind == 'D'
        at = moment
        for way in WAYS:
            lost = not is_there and way != 'all'  # until the folder is synced
            yield moment, [None if lost and draws.random() < 0.5 else files[file].left(way, draws) for file in (LOG, DATABASE)]


# ---- what may be found


@dataclass
class Run:
    """A server that was watched."""

    bursts: list
    events: list
    places: list  # of the answers among the events
    rounds: list  # how many writes were answered at the end of each
    states: list
    objects: str

    def may_be(self, moment):
        """How many writes a start may find after a power cut at that moment."""
        answered = bisect.bisect_left(self.places, moment)
        later = [end for end in self.rounds if end > answered][:1] or [answered]
        if answered not in self.rounds:
            return later  # a part of its answers has left
        since = self.places[answered - 1] + 1 if answered else 0
        is_begun = any(event.kind in 'WT' for event in self.events[since:moment])
        is_over = answered < len(self.places) and self.places[answered] == moment  # the next event is its first answer
        return ([] if is_over else [answered]) + (later if is_begun else [])


def fault_of(program, run, wanted, image, folder):
    """What is wrong with an image, which has to have one of the wanted numbers of writes, or None; and how many it has."""
    path = str(Path(folder, 'cut.db'))
    for name, octets in zip((log_of(path), path), image):
        Path(name).unlink(missing_ok=True)
        if octets is not None:
            Path(name).write_bytes(octets)
    status, said = opened_once(program, path, ('--objects', run.objects))
    if status != 0 or not STARTS.fullmatch(said):
        return f'status {status}, {said!r}', None
    lines = kept_lines(program, path)
    found = [count for count in wanted if run.states[count].lines() == lines]
    if not found:
        return f'none of {wanted} writes has {lines}', None
    if run.states[found[0]].cells() != kept_cells(path):
        return f'sqlite3 does not find {found[0]} writes', None
    return None, found[0]


def judge(program, run, images, folder):
    """Starts a server on each image. Returns how many have more than was answered, and those that are wrong."""
    def judged(numbered):
        number, (moment, image) = numbered
        with tempfile.TemporaryDirectory(dir=folder) as own:
            fault, count = fault_of(program, run, run.may_be(moment), image, own)
        return (f'image {number}, moment {moment}: {fault}' if fault else None), count is not None and count > bisect.bisect_left(run.places, moment)

    with ThreadPoolExecutor(WORKERS) as pool:
        verdicts = list(pool.map(judged, enumerate(images)))
    return sum(ahead for _, ahead in verdicts), [fault for fault, _ in verdicts if fault]


# ---- servers that go on


def read_back(program, run, moment, image, folder):
    """What is wrong with a server that serves an image after it has waited, or None."""
    path = str(Path(folder, 'cut.db'))
    for name, octets in zip((log_of(path), path), image):
        Path(name).write_bytes(octets)
    process, port, said = started(program, path, ('--objects', run.objects))
    if not said[-1].startswith('listening') or not process.stderr.readline().startswith('serving from'):
        return f'moment {moment}: {said}'
    time.sleep(WAITS)
    wanted = [(instance, number) for instance in range(1, VALUES_THERE + 1) for number in (DESCRIPTION, PRESENT_VALUE)]
    with Asker(port) as asker:
        reads = [lambda id, instance=instance, number=number: read_of(id, ANALOG_VALUE, instance, number) for instance, number in wanted]
        if not all(asker.ask(reads[at:at + 8], lambda: process.poll() is None) for at in range(0, len(reads), 8)):
            return f'moment {moment}: the server ended'
    gets = [ask(program, port, ['get', f'file:{instance}', '0', '60000']) for instance in range(1, FILES_THERE + 1)]
    process.kill()
    process.communicate()
    values = [asker.answered[number][3:].partition(b'\x3E')[2][:-1] for number in range(len(wanted))]
    if not any(is_served(run.states[count], wanted, values, gets) for count in run.may_be(moment)):
        return f'moment {moment}: other values or files'
    return None


def is_served(state, wanted, values, gets):
    """Whether the values and files that were read are those of a state over the document."""
    first = {DESCRIPTION: text_value(''), PRESENT_VALUE: real_value(0)}
    right = [state.values[key].octets if key in state.values else first[key[1]] for key in wanted]
    files = [f'answered file 1 0 {state.files.get(instance, b"").hex().upper()}'.rstrip() for instance in range(1, FILES_THERE + 1)]
    return values == right and [line.rstrip() for line in gets] == files


def read_some(program, run, images, count, folder, draws):
    """Serves some images that have a table, all at once. Returns those that are wrong."""
    having = [(moment, image) for moment, image in images if bisect.bisect_left(run.places, moment)]
    chosen = draws.sample(having, min(count, len(having)))

    def read_one(chosen_one):
        with tempfile.TemporaryDirectory(dir=folder) as own:
            return read_back(program, run, *chosen_one, own)

    with ThreadPoolExecutor(max(1, len(chosen))) as pool:
        return len(chosen), [fault for fault in pool.map(read_one, chosen) if fault]


def watched_run(program, bursts, folder, watch):
    """A server that is watched and asked bursts of writes, all of which it answers; what it did to the disk gives the files that are there."""
    path, asker, events, status, said = run_watched(program, bursts, folder, watch)
    asked = sum(map(len, bursts))
    places = answers_in(events, asker)
    if status is not None or len(places) != asked:
        raise SystemExit(f'{len(places)} of {asked} writes answered, status {status}, {said!r}')
    files = {LOG: File(), DATABASE: File()}
    for event in events:
        if event.file in files:
            files[event.file].take(event)
    if [bytes(files[LOG].seen), bytes(files[DATABASE].seen)] != [Path(name).read_bytes() for name in (log_of(path), path)]:
        raise SystemExit('the files hold something that was not noted')
    return Run(bursts, events, places, rounds_in(events, places), states_of(bursts), str(Path(folder, 'objects.toml')))


def main(words):
    program, seed, images, read = str(Path(words[0]).resolve()), *(int(word) for word in (words[1:] + ['1', '3000', '40'][len(words) - 1:]))
    begin, wrong = time.monotonic(), []
    with tempfile.TemporaryDirectory(dir=MEMORY) as folder:
        watch = built_watch(folder)
        for name, bursts, longest in (('long', 60, 400), ('many', 600, 20)):
            draws, own = random.Random(f'{seed} {name}'), Path(folder, name)
            own.mkdir()
            run = watched_run(program, writes_from(f'{seed} {name}', bursts, longest), str(own), watch)
            moments = moments_of(run.events, images // 2 // len(WAYS), draws)
            made = list(images_of(run.events, moments, draws))
            ahead, faults = judge(program, run, made, str(own))
            served, more = read_some(program, run, made, read // 2, str(own), draws)
            wrong += faults + more
            kinds = [event.kind for event in run.events]
            print(f'{len(run.places)} writes in {len(run.rounds) - 1} rounds: {kinds.count("W")} writes to the disk, {kinds.count("T")} changes of a length, '
                  f'{kinds.count("S")} syncs; {len(made)} images of {len(moments)} moments, {ahead} with the round that was under way; {served} served and read')
    for fault in wrong[:20]:
        print(f'WRONG: {fault}')
    print(f'{len(wrong)} wrong in {time.monotonic() - begin:.0f} s')
    return 1 if wrong else 0


if __name__ == '__main__':
    sys.exit(main(sys.argv[1:]))
