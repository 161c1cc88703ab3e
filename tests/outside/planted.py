#!/usr/bin/env python3
"""planted.py PROGRAM: links that someone has planted where `ask --out`, `backup` and `serve --keep` write lead nowhere.

Each link leads to a file that must stay as it is. Then the disk refuses to write (a limit on the size of files stands for a full one): what was there has to
stay whole, with no other file beside it. What is written is its owner's alone, whatever the umask. `restore` reads no more of a file than its line says."""
import os
import resource
import signal
import stat
import subprocess
import sys
import tempfile
from pathlib import Path

from processes import Server, free_port

SECRET = b'what nobody is to change'
OLD = b'the copy of yesterday' * 4
LIMIT = 1  # octets of a file, where the disk is full: fewer than file:1 of the house has
LONG = 1 << 33  # octets of a file that restore must not read
MEMORY = 512 << 10  # kibibytes
SECONDS = 60


def limited():
    """A write beyond the limit fails, and no signal comes."""
    signal.signal(signal.SIGXFSZ, signal.SIG_IGN)
    resource.setrlimit(resource.RLIMIT_FSIZE, (LIMIT, LIMIT))


def open_to_all():
    os.umask(0)


class Trial:
    """A folder with a file that links lead to, and what was wrong."""

    def __init__(self, program, port, folder):
        self.program, self.to, self.folder = program, ['--port', str(port)], Path(folder)
        self.victim = self.folder / 'victim'
        self.victim.write_bytes(SECRET)
        self.wrong, self.checks = [], 0

    def check(self, what, holds):
        self.checks += 1
        if not holds:
            self.wrong.append(what)

    def run(self, *words, before=None):
        done = subprocess.run([self.program, *words], capture_output=True, text=True, timeout=SECONDS, preexec_fn=before)
        self.said = f'{done.returncode} {done.stdout!r} {done.stderr!r}'
        return done

    def get(self, path, before=None):
        return self.run('ask', *self.to, '--out', str(path), 'get', 'file:1', before=before)

    def backup(self, folder, before=None):
        return self.run('backup', *self.to, '--folder', str(folder), 'file:1', before=before)

    def is_private(self, path):
        return stat.S_IMODE(path.lstat().st_mode) == 0o600

    def try_out(self):
        """`ask --out` on a link, on a link to nothing, on a file, into a pipe, and on a full disk."""
        self.whole = self.get('/dev/stdout').stdout
        self.check(f'a pipe takes no file: {self.said}', self.whole.endswith('octets\n'))
        for name, target in (('link', self.victim), ('loose', self.folder / 'nothing')):
            path = self.folder / name
            path.symlink_to(target)
            done = self.get(path)
            self.check(f'--out on a link: {self.said}', done.returncode == 3 and done.stderr.startswith('cannot write\n'))
            self.check('the link is gone', path.is_symlink())
        self.check('a file was made where the loose link leads', not (self.folder / 'nothing').exists())
        copy = self.folder / 'copy'
        copy.write_bytes(OLD)
        self.check(f'--out on a full disk: {self.get(copy, limited).returncode}', self.said.startswith('3 ') and copy.read_bytes() == OLD)
        self.check(f'--out on a file: {self.get(copy, open_to_all).returncode}', copy.read_bytes() != OLD and self.is_private(copy))

    def try_backup(self):
        """`backup` into a folder with links at each name that it writes, and on a full disk."""
        saved = self.folder / 'saved'
        for name in ('file-1.bin.unfinished', 'manifest.unfinished'):
            saved.mkdir()
            (saved / name).symlink_to(self.victim)
            done = self.backup(saved)
            self.check(f'backup over a link at {name}: {self.said}', done.returncode == 3 and done.stderr.startswith('cannot write\n'))
            for left in saved.iterdir():
                left.unlink()
            saved.rmdir()
        saved.mkdir()
        for name in ('file-1.bin', 'manifest'):
            (saved / name).symlink_to(self.folder / 'nothing')
        self.check(f'backup in place of links: {self.backup(saved, open_to_all).returncode}', self.said.startswith('0 '))
        names = {path.name for path in saved.iterdir()}
        self.check(f'the folder has {names}', names == {'file-1.bin', 'manifest'} and all(self.is_private(path) for path in saved.iterdir()))
        before = {path.name: path.read_bytes() for path in saved.iterdir()}
        self.check(f'backup on a full disk: {self.backup(saved, limited).returncode}', not self.said.startswith('0 '))
        after = {path.name: path.read_bytes() for path in saved.iterdir()}
        self.check(f'then the folder has {set(after)}', after == before)

    def try_restore(self):
        """`restore` of a folder in which a file is longer than its line says: no more is read than that."""
        saved = self.folder / 'saved'
        os.truncate(saved / 'file-1.bin', LONG)
        done = self.run('restore', *self.to, '--folder', str(saved))
        self.check(f'restore of a long file: {self.said}', done.returncode == 1 and 'file-1.bin' in done.stdout + done.stderr)
        # the most that any process of these took so far
        self.check('restore reads all of a long file', resource.getrusage(resource.RUSAGE_CHILDREN).ru_maxrss < MEMORY)

    def try_keep(self):
        """`serve --keep` on a link to another file, and on a new file."""
        path = self.folder / 'kept.db'
        path.symlink_to(self.victim)
        words = ('serve', '--port', str(free_port()), '--turns', '1', '--keep', str(path))
        self.check(f'serve --keep over a link: {self.run(*words).returncode}', self.said.startswith('2 '))
        path.unlink()
        self.check(f'serve --keep: {self.run(*words, before=open_to_all).returncode}', self.said.startswith('0 '))
        for part in (path, Path(f'{path}-wal')):
            self.check(f'{part.name} is not its owner\'s alone', self.is_private(part))


def main(program):
    with tempfile.TemporaryDirectory() as folder, Server(program, 100_000) as server:
        trial = Trial(program, server.port, folder)
        for part in (trial.try_out, trial.try_backup, trial.try_restore, trial.try_keep):
            part()
        trial.check('the file that links lead to has changed', trial.victim.read_bytes() == SECRET)
    for fault in trial.wrong:
        print(f'WRONG: {fault}')
    print(f'{trial.checks} checks, {len(trial.wrong)} wrong')
    return bool(trial.wrong)


if __name__ == '__main__':
    sys.exit(main(sys.argv[1]))
