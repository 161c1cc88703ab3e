#!/usr/bin/env python3
"""Damages the two files of `bac serve --keep`: damages.py PROGRAM [DAMAGES [SEED]] [old]

A server is asked writes one at a time, and is killed. On copies of its files a part is missing, empty, cut off,
zeroed, or has other octets. `bac keep` has to refuse each copy by the name of what is lost, or print what was kept after the last write or the one before. A server
that is started on it has to be refused too, or to wait as after any restart. What is refused and lost is opened with `--accept-loss`: it is what was kept after
some write, and then a server waits. A start that is refused leaves no file that was not there.

Before that: FILE alone has all that was kept at each start and at an orderly end, by sqlite3 too; the logs of two files have different salts; the log stays short.

With `old` the program is one from before: the damages that it reads as nothing or as an old state, and starts without a wait, are told, and there have to be some."""

import random
import shutil
import sys
import tempfile
sys.dont_write_bytecode = True  # no __pycache__ beside the sources

import subprocess
from collections import Counter
from concurrent.futures import ThreadPoolExecutor
from pathlib import Path

from kept import FILES_THERE, VALUES_THERE, Asker, document, is_written, kept_cells, log_of, started, states_of, writes_from
from processes import free_port

WRITES = 60
LONGEST = 200  # octets of a text
MANY = 400  # writes after which the log is still short
LOG_MOST = 1 << 20
REFUSED = ('is missing or empty', 'is cut off', 'is damaged', 'not a database, or a damaged one', 'a database of another program')
SECONDS = 120
WORKERS = 4


def run(program, *words):
    return subprocess.run([program, *words], capture_output=True, text=True, timeout=SECONDS)


def serve_turns(program, path, objects, turns):
    """A server that takes so many turns."""
    return run(program, 'serve', '--port', str(free_port()), '--turns', str(turns), '--keep', path, '--objects', objects)


def write_all(program, path, objects, writes):
    """A server is started on a file, asked writes one after the other, and killed."""
    process, port, said = started(program, path, ('--objects', objects))
    if not said[-1].startswith('listening'):
        raise SystemExit(f'{path}: {said}')
    with Asker(port) as asker:
        for write in writes:
            if not asker.ask([write.sent], lambda: process.poll() is None):
                raise SystemExit(f'{path}: the server has ended')
    if not all(is_written(apdu) for apdu in asker.answered.values()):
        raise SystemExit(f'{path}: a write was refused')
    process.kill()
    process.communicate()


# ---- damages


def spans(length, chance, most=4200):
    """A place in so many octets, and one behind it."""
    at = chance.randrange(length)
    return at, min(length, at + chance.randint(1, most))


def cut(octets, chance):
    return octets[:chance.randrange(len(octets))]


def zeroed_front(octets, chance):
    count = chance.choice([1, 4, 32, 41, 512, 4096])
    return bytes(count) + octets[count:]


def zeroed(octets, chance):
    at, end = spans(len(octets.rstrip(b'\0')) or 1, chance)
    return octets[:at] + bytes(end - at) + octets[end:]


def other_octets(octets, chance):
    at, end = spans(len(octets.rstrip(b'\0')) or 1, chance)
    return octets[:at] + chance.randbytes(end - at) + octets[end:]


def flipped(octets, chance):
    at = chance.randrange(len(octets.rstrip(b'\0')) or 1)
    return octets[:at] + bytes([octets[at] ^ 1 << chance.randrange(8)]) + octets[at + 1:]


def flipped_front(octets, chance):
    at = chance.randrange(56)
    return octets[:at] + bytes([octets[at] ^ 1 << chance.randrange(8)]) + octets[at + 1:]


def emptied(octets, chance):
    return b''


def missing(octets, chance):
    return None


OF_LOG = [missing, emptied, cut, zeroed_front, zeroed, other_octets, flipped, flipped_front]
OF_FILE = [missing, emptied, cut, zeroed, other_octets, flipped]


def damaged(path, whole, folder, what, how, chance):
    """Copies of two files, one of which is damaged. Returns the path; None where the damage changes nothing."""
    parts = {name: Path(name).read_bytes() for name in (path, log_of(path))}
    hurt = path if what == 'file' else log_of(path)
    after = how(parts[hurt], chance)
    if after == parts[hurt]:
        return None
    copy = str(Path(folder, whole))
    for name, octets in ((copy, after if hurt == path else parts[path]), (log_of(copy), after if hurt != path else parts[log_of(path)])):
        Path(name).unlink(missing_ok=True)
        if octets is not None:
            Path(name).write_bytes(octets)
    return copy


class Trial:
    """Files that have the states after so many writes, and what was wrong with how a program reads damaged copies."""

    def __init__(self, program, path, objects, states, folder):
        self.program, self.path, self.objects, self.folder = program, path, objects, folder
        self.lines = [state.lines() for state in states]
        self.wrong, self.counts = [], Counter()

    def fresh(self, what, how, seed):
        folder = Path(self.folder, seed.replace(' ', '-'))
        folder.mkdir(exist_ok=True)
        return damaged(self.path, 'copy.db', folder, what, how, random.Random(seed))

    def try_safely(self, what, how, seed):
        try:
            self.try_one(what, how, seed)
        except Exception as fault:
            self.wrong.append(f'{what} {how.__name__} {seed}: {fault!r}')

    def try_one(self, what, how, seed):
        """Tells what becomes of one damage."""
        if (copy := self.fresh(what, how, seed)) is None:
            return
        name = f'{what} {how.__name__} {seed}'
        there = [part for part in (copy, log_of(copy)) if Path(part).exists()]
        if copy not in there:  # `bac keep` says that there is no such file
            self.try_start(name, copy, there, must_refuse=True)
            return
        done = run(self.program, 'keep', copy)
        if done.returncode == 0:
            self.count('read', name, done.stdout.splitlines())
            self.fresh(what, how, seed)
            self.try_start(name, copy, there, must_refuse=False)
            return
        self.check_refused(name, done, copy, there)
        self.fresh(what, how, seed)
        self.try_start(name, copy, there, must_refuse=True)
        if '--accept-loss' in done.stderr:
            self.accept(name, copy)

    def count(self, way, name, lines):
        back = next((len(self.lines) - 1 - at for at in range(len(self.lines) - 1, -1, -1) if self.lines[at] == lines), None)
        self.counts[f'{way} {"as no state" if back is None else ["the last", "last but one"][back] if back < 2 else "older"}'] += 1
        if back is None or back > 1:
            self.wrong.append(f'{name}: {len(lines)} lines, {"no state" if back is None else f"{back} writes back"}')

    def check_refused(self, name, done, copy, there):
        self.counts['refused'] += 1
        first = done.stderr.splitlines()[:1] or ['']
        if done.returncode != 2 or not first[0].startswith(copy) or not any(why in first[0] for why in REFUSED):
            self.wrong.append(f'{name}: status {done.returncode}, {done.stderr!r}')
        more = {part for part in (copy, log_of(copy)) if Path(part).exists()} - set(there)
        if more:
            self.wrong.append(f'{name}: refused, and left {more}')

    def try_start(self, name, copy, there, must_refuse):
        done = serve_turns(self.program, copy, self.objects, 1)
        if done.returncode == 2:
            if must_refuse:
                self.check_refused(name, done, copy, there)
            else:
                self.wrong.append(f'{name}: keep reads it, serve says {done.stderr!r}')
        elif must_refuse:
            self.wrong.append(f'{name}: keep refuses it, and serve starts')
        elif 'serving from' not in done.stderr:
            self.counts['no wait'] += 1
            self.wrong.append(f'{name}: no wait')

    def accept(self, name, copy):
        """What is left is some state, and then a server waits."""
        done = run(self.program, 'keep', copy, '--accept-loss')
        if done.returncode == 0:
            self.counts['accepted'] += 1
            if done.stdout.splitlines() not in self.lines:
                self.wrong.append(f'{name}: accepted, and it is no state')
            served = serve_turns(self.program, copy, self.objects, 1)
            if 'serving from' not in served.stderr:
                self.wrong.append(f'{name}: accepted, and then {served.stderr!r}')
        elif not any(why in done.stderr for why in REFUSED):
            self.wrong.append(f'{name}: accepted, and then {done.stderr!r}')


# ---- whole files


def alone(path, folder):
    """A copy of a file without its log."""
    copy = str(Path(folder, 'alone.db'))
    Path(log_of(copy)).unlink(missing_ok=True)
    shutil.copy(path, copy)
    return copy


def check_whole(program, path, objects, state, folder):
    """Faults of a file that has to be whole."""
    copy = alone(path, folder)
    faults = []
    if kept_cells(copy) != state.cells():
        faults.append('sqlite3 does not find all in FILE alone')
    for part in (log_of(copy), f'{copy}-shm'):
        Path(part).unlink(missing_ok=True)
    copy = alone(path, folder)
    done = run(program, 'keep', copy)
    if done.returncode != 2 or 'alone.db-wal is missing' not in done.stderr or Path(log_of(copy)).exists():
        faults.append(f'FILE alone: {done.returncode}, {done.stderr!r}')
    done = run(program, 'keep', copy, '--accept-loss')
    if done.stdout.splitlines() != state.lines():
        faults.append('FILE alone lacks something')
    return faults


def salt_of(path):
    return Path(log_of(path)).read_bytes()[16:24]


def check_log(program, folder, objects, seed):
    """Faults of the logs of two new files."""
    paths = [str(Path(folder, name)) for name in ('one.db', 'two.db')]
    for path in paths:
        serve_turns(program, path, objects, 1)
    faults = [] if salt_of(paths[0])[4:] != salt_of(paths[1])[4:] else ['two logs have one salt']
    path = str(Path(folder, 'many.db'))
    write_all(program, path, objects, [write for burst in writes_from(seed, MANY, 8) for write in burst][:MANY])
    length = Path(log_of(path)).stat().st_size
    return faults + ([f'the log has {length} octets after {MANY} writes'] if length > LOG_MOST else [])


def main(words):
    is_old = 'old' in words
    program, *numbers = (word for word in words if word != 'old')
    damages, seed = (*map(int, numbers), *(200, 1)[len(numbers):])
    chance = random.Random(seed)
    writes = [write for burst in writes_from(seed, WRITES, LONGEST) for write in burst][:WRITES]
    states = states_of([[write] for write in writes])
    with tempfile.TemporaryDirectory() as folder:
        path, objects = str(Path(folder, 'kept.db')), str(Path(folder, 'objects.toml'))
        Path(objects).write_text(document(VALUES_THERE, FILES_THERE))
        faults = []
        write_all(program, path, objects, writes)
        trial = Trial(program, path, objects, states, folder)
        with ThreadPoolExecutor(WORKERS) as pool:
            for count in range(damages):
                what = chance.choice(['log', 'log', 'file'])
                how = chance.choice(OF_LOG if what == 'log' else OF_FILE)
                pool.submit(trial.try_safely, what, how, f'{seed} {count}')
        if not is_old:
            serve_turns(program, path, objects, 1)  # a start, and an orderly end
            faults += check_whole(program, path, objects, states[-1], folder)
            faults += check_log(program, folder, objects, seed)
    faults = trial.wrong + faults
    for fault in faults[:20]:
        print(f'{"LOST" if is_old else "WRONG"}: {fault}')
    told = ', '.join(f'{count} {what}' for what, count in sorted(trial.counts.items()))
    print(f'{damages} damages: {told}; {len(faults)} wrong')
    return (not faults) if is_old else bool(faults)


if __name__ == '__main__':
    sys.exit(main(sys.argv[1:]))
