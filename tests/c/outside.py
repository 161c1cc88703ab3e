#!/usr/bin/env python3
"""examples/c/serve before nmap's script bacnet-info, and over a network that drops, repeats, delays and reorders datagrams: outside.py OUT [BAC]

OUT has `serve` and `ask`. Through the proxy, processes of `ask` write values that all differ; where BAC is given, processes of `BAC ask` append octets that
all differ, some in segments. The server tells each write that it performed: none may be told twice, each that was answered has to be told, and the file at
the end has to be the appends in the order in which they were told.
"""
import os
import shutil
import subprocess
import sys
sys.dont_write_bytecode = True  # no __pycache__ beside the sources

from concurrent.futures import ThreadPoolExecutor
from pathlib import Path

sys.path.insert(0, str(Path(__file__).resolve().parent.parent / "outside"))
from processes import ask
from proxy import Network
from scan import EXPECTED, scan

WRITES, APPENDS, LONG_EVERY = 24, 16, 4
AT_FIRST = b"controller"  # the file of examples/c/serve
SEED = 1
wrong = []


class Serve:
    """A process of examples/c/serve, at a port that it chose."""

    def __init__(self, out, seconds):
        words = [f"{out}/serve", "0", "1000000", str(seconds)]
        self.process = subprocess.Popen(words, stdout=subprocess.PIPE, stderr=subprocess.PIPE, text=True)
        self.port = int(self.process.stdout.readline().removeprefix("port "))

    def finish(self):
        """Ends it: the lines that it printed."""
        self.process.terminate()
        out, err = self.process.communicate()
        if err:
            wrong.append(f"serve says {err!r}")
        return out.splitlines()


def scanned(out):
    if shutil.which("nmap") is None or os.geteuid() != 0:
        return "nmap: skipped, it is not here, or this is not root"
    server = Serve(out, 120)
    script, line = scan(server.port)
    server.finish()
    if script != EXPECTED:
        wrong.append(f"bacnet-info: {script!r}, not {EXPECTED!r}")
    return f"nmap: {line}, bacnet-info told Error 1:31"


def value_of(number):
    """The Real of a write: no two are the same."""
    return f"4443{number:04X}00"


def octets_of(number):
    """The octets of an append: no two are the same."""
    return number.to_bytes(2, "big") * (1500 if number % LONG_EVERY == 0 else 4)


def write(out, port, number):
    done = subprocess.run([f"{out}/ask", str(port), "2", "1", "85", value_of(number)], capture_output=True, text=True, timeout=120)
    return f"written 2:1 {value_of(number)}", done.stdout == "answered written\n"


def append(bac, port, number):
    line = ask(bac, port, ["append", "10:1", octets_of(number).hex()])
    return f"written 10:1 {octets_of(number).hex().upper()}", line.startswith("answered position")


def whole_file(bac, port):
    line = ask(bac, port, ["get", "10:1", "0", "60000"])
    return bytes.fromhex(line.removeprefix("answered file 1 0 "))


def judge(asked, told):
    for line, answered in asked:
        if told.count(line) > 1 or (answered and line not in told):
            wrong.append(f"{line[:40]}: told {told.count(line)} times, {'answered' if answered else 'not answered'}")
    if set(told) - {line for line, _ in asked}:
        wrong.append("a write that nobody asked for")


def over_losses(out, bac):
    server = Serve(out, 120)
    with Network(SEED) as network, ThreadPoolExecutor(8) as pool:
        def through(number):
            with network.route(server.port, number) as port:
                return write(out, port, number) if number < WRITES else append(bac, port, number)
        asked = list(pool.map(through, range(WRITES + (APPENDS if bac else 0))))
        network.wait_until_empty()
        summary = network.summary()
    file = whole_file(bac, server.port) if bac else None
    told = server.finish()
    judge(asked, told)
    appended = b"".join(bytes.fromhex(line.removeprefix("written 10:1 ")) for line in told if line.startswith("written 10:1 "))
    if bac and file != AT_FIRST + appended:
        wrong.append("the file is not what was told")
    return f"losses: {len(asked)} asks, {sum(answered for _, answered in asked)} answered, {len(told)} performed; {summary}"


def main(words):
    out, bac = words[0], words[1] if len(words) > 1 else None
    print(scanned(out))
    print(over_losses(out, bac))
    for text in wrong:
        print(f"WRONG: {text}")
    return 1 if wrong else 0


if __name__ == "__main__":
    sys.exit(main(sys.argv[1:]))
