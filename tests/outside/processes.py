"""`bac serve` and `bac ask` as processes on this machine."""

import os
import socket
import subprocess
import time
from pathlib import Path

LOOPBACK = '127.0.0.1'
ASK_SECONDS = 120  # an ask ends within 60 seconds, and a machine may be slow
START_SECONDS = 30
STARTS = 5  # another process may take a free port before the server does


def free_port():
    with socket.socket(socket.AF_INET, socket.SOCK_DGRAM) as found:
        found.bind((LOOPBACK, 0))
        return found.getsockname()[1]


def socket_line(port):
    """The words that the system has of the UDP socket at that port, or None."""
    lines = Path('/proc/net/udp').read_text().splitlines()[1:]
    return next((line.split() for line in lines if line.split()[1].endswith(f':{port:04X}')), None)


def links_of(process):
    """What the open files of a process are links to; none where it has ended."""
    folder = Path(f'/proc/{process}/fd')
    try:
        return [os.readlink(folder / name) for name in os.listdir(folder)]
    except OSError:
        return []


def has_port(process, port):
    """Whether the UDP socket at that port is one of the process."""
    words = socket_line(port)
    return words is not None and f'socket:[{words[9]}]' in links_of(process)


class Server:
    """A process of `bac serve`. It has the house store, and takes so many turns: each hears one datagram, or waits for 100 ms.
    Where no port is given it takes a free one, and another one where that was taken in between. `options` are further words; `said` is what it says on
    standard error."""

    def __init__(self, program, turns, port=None, options=(), said=''):
        self.words, self.turns, self.wanted = [program, 'serve', '--port'], ['--turns', str(turns), *options], port
        self.wanted_words = said

    def start(self):
        """Starts the process; answers whether it has its port."""
        self.port = self.wanted or free_port()
        words = [*self.words, str(self.port), *self.turns]
        self.process = subprocess.Popen(words, stdout=subprocess.PIPE, stderr=subprocess.PIPE, text=True)
        end = time.monotonic() + START_SECONDS
        while self.process.poll() is None and time.monotonic() < end:
            if has_port(self.process.pid, self.port):
                return True
            time.sleep(0.02)
        self.process.kill()
        self.said = self.process.communicate()
        return False

    def __enter__(self):
        starts = 1 if self.wanted else STARTS
        if not any(self.start() for _ in range(starts)):
            raise SystemExit(f'no server at port {self.port}: {self.said}')
        return self

    def __exit__(self, *_):
        self.process.kill()
        self.process.wait()

    def memory(self):
        """The most memory that the process has had, in KB."""
        lines = Path(f'/proc/{self.process.pid}/status').read_text().splitlines()
        return next(int(line.split()[1]) for line in lines if line.startswith('VmHWM'))

    def missed(self):
        """How many datagrams the system has dropped, as the server's socket had no room for them."""
        return int(socket_line(self.port)[-1])

    def finish(self, seconds=120):
        """Takes up the turns that are left with empty datagrams, which every node drops. Answers how many requests the server says it performed."""
        end = time.monotonic() + seconds
        with socket.socket(socket.AF_INET, socket.SOCK_DGRAM) as sender:
            while self.process.poll() is None and time.monotonic() < end:
                for _ in range(100):
                    sender.sendto(b'', (LOOPBACK, self.port))
                time.sleep(0.002)
        if self.process.poll() is None:
            raise SystemExit(f'the server at port {self.port} did not end')
        out, err = self.process.communicate()
        if self.process.returncode != 0 or err != self.wanted_words or not out.startswith('served '):
            raise SystemExit(f'serve: status {self.process.returncode}, {out!r}, {err!r}')
        return int(out.removeprefix('served '))


def ask(program, port, words):
    """How an ask ends: the line that `bac ask` prints. Its status has to be that of the line."""
    done = subprocess.run([program, 'ask', '--port', str(port), '--', *words], capture_output=True, text=True, timeout=ASK_SECONDS)
    line = done.stdout.removesuffix('\n')
    status = 0 if line.startswith('answered ') else 1
    if done.stderr or not line or '\n' in line or done.returncode != status:
        raise SystemExit(f'ask {words}: status {done.returncode}, {done.stdout!r}, {done.stderr!r}')
    return line
