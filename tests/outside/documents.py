"""The blocks of the documents that are typed, and a network of their own to type them in.

In a block ```console a line that begins with `$ ` is a command, and below it stands what it prints, on standard output and standard error. A block ```sh is a
script, and the block ```text below it is what it prints on standard output. A block ```toml is the file that the words before it name last.
"""

import os
import re
import signal
import subprocess
import sys
import time
from pathlib import Path
from typing import NamedTuple

TOP = Path(__file__).resolve().parents[2]
AT = '192.168.1.20'  # the address of this host in the documents
SECONDS = 120
NOTICE = re.compile(r'bash: line \d+: +\d+ (Killed|Terminated)\b')  # what the shell says of a program that was ended
NAMED = re.compile(r'`([\w.]+)`[^`]*$')
HEADING = re.compile(r'## (?:(\d+)\. )?')


class Block(NamedTuple):
    kind: str
    lines: list
    job: int  # the number in the heading above it; 0 where there is none
    before: str  # the last words before it


def blocks_of(text):
    """The fenced blocks of a document, in order."""
    kind, lines, job, before, found = None, [], 0, '', []
    for line in text.splitlines():
        if kind is None and line.startswith('```'):
            kind, lines = line[3:], []
        elif kind is None:
            heading = HEADING.match(line)
            job = int(heading[1] or 0) if heading else job
            before = line or before
        elif line == '```':
            found.append(Block(kind, lines, job, before))
            kind = None
        else:
            lines.append(line)
    return found


def in_own_network():
    """Runs this script again where every port is free, nothing else is reached, and this host has that address; ends as that ends. Programs that it leaves end
    with it."""
    if 'OWN_NETWORK' not in os.environ:
        script = f'ip link set lo up && ip address add {AT}/24 dev lo && exec "$@"'
        words = ['unshare', '--map-root-user', '--net', '--pid', '--fork', '--kill-child', 'sh', '-c', script, 'sh', sys.executable, *sys.argv]
        sys.exit(subprocess.run(words, env={**os.environ, 'OWN_NETWORK': '1'}).returncode)


class Desk:
    """A folder like the top of the repository, with the program on the path, and a shell in it."""

    def __init__(self, folder, program):
        self.folder, self.typed = folder, 0
        (folder / 'bin').mkdir()
        (folder / 'bin/bac').symlink_to(Path(program).resolve())
        (folder / 'docs').symlink_to(TOP / 'docs')
        self.environment = {**os.environ, 'PATH': f'{folder}/bin:{os.environ["PATH"]}', 'LC_ALL': 'C.UTF-8'}
        self.said = folder / 'bin/said'
        self.shell = subprocess.Popen(['bash'], cwd=folder, env=self.environment, stdin=subprocess.PIPE, stdout=open(self.said, 'w'),
                                      stderr=subprocess.STDOUT, text=True, process_group=0)

    def run(self, script):
        """A script's status, and what it prints on standard output. Servers that it begins go on, so the output goes to a file."""
        with open(self.folder / 'bin/printed', 'w+') as out:
            words = ['sh', '-e', '-c', script]
            status = subprocess.run(words, cwd=self.folder, env=self.environment, stdin=subprocess.DEVNULL, stdout=out, timeout=SECONDS,
                                    process_group=self.shell.pid).returncode
            out.seek(0)
            return status, out.read()

    def type(self, command, count):
        """The lines that a command prints in the shell; of one that goes on so many, once they are there."""
        self.typed += 1
        mark, begun = f'typed {self.typed}', self.said.stat().st_size
        self.shell.stdin.write(f'{{ {command}\n}} < /dev/null\necho {mark}\n')
        self.shell.stdin.flush()
        end, lines = time.monotonic() + SECONDS, []
        while time.monotonic() < end and (mark not in lines or command.endswith('&') and len(lines) <= count):
            time.sleep(0.02)
            lines = self.said.read_text()[begun:].splitlines()
        lines = [line for line in lines if line != mark and not NOTICE.match(line)]
        return lines[:-1] if lines[-1:] == [''] else lines  # no block ends with an empty line

    def close(self):
        """Ends all that was begun here, and waits for it: this is the first process of its namespace, so all are its children at last."""
        os.killpg(self.shell.pid, signal.SIGKILL)
        try:
            while os.waitpid(-self.shell.pid, 0):
                pass
        except ChildProcessError:
            pass


def commands_of(block):
    """The commands of a block ```console, each with the lines below it."""
    found = []
    for line in block.lines:
        if line.startswith('$ '):
            found.append((line[2:], []))
        else:
            found[-1][1].append(line)
    return found


def shortened(script):
    """A script that polls for an hour, in seconds."""
    return script.replace('--every 60 --times 60', '--every 1 --times 2')


def scripts_of(text):
    """The scripts of a document that are run alone: the job, the script, and what it prints (None where nothing is said)."""
    blocks = blocks_of(text)
    found = []
    for block, after in zip(blocks, [*blocks[1:], None]):
        if block.kind == 'sh':
            told = after and after.kind == 'text' and after.job == block.job
            found.append((block.job, shortened('\n'.join(block.lines) + '\n'), '\n'.join(after.lines) + '\n' if told else None))
    return found
