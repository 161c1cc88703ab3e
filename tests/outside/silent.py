"""A list of one `bac serve` and of nodes that do not answer, asked by one `bac ask`: a silent node holds up its own lines alone.

    python3 tests/outside/silent.py PROGRAM [LINES [SILENT [TIMEOUT]]]

So many lines ask the server, far more than a client has invoke IDs for it, and among them are twelve lines for each silent node (sockets of this script, which
take what comes and say nothing), three times its share of the window. It prints how the lines ended, how long all answers took, with the silent nodes and without
them, and how long the whole list took; the status is 1 where a line of the server is not answered, a line of a silent node ends otherwise than by `no ending`, or
the answers took a millisecond longer for each line than without silent nodes."""

import collections
import csv
import datetime
import socket
import subprocess
import sys
import tempfile
import time

from processes import LOOPBACK, free_port, has_port

SECONDS = 600
SHARE = 4
DEAD_LINES = 3 * SHARE


def asked(program, lines, window, timeout):
    """The rows that `bac ask --csv` prints of these lines, what it complained of, and how long it took."""
    with tempfile.NamedTemporaryFile('w', suffix='.txt') as file:
        file.write('\n'.join(lines) + '\n')
        file.flush()
        words = [program, 'ask', '--csv', '--lines', file.name, '--window', str(window), '--timeout', str(timeout)]
        begin = time.monotonic()
        done = subprocess.run(words, capture_output=True, text=True, timeout=SECONDS)
        return list(csv.DictReader(done.stdout.splitlines())), done.stderr, time.monotonic() - begin


def seconds_of_answers(rows):
    """The time from the first answer to the last one."""
    times = [datetime.datetime.fromisoformat(row['time']) for row in rows if row['status'] == 'answered']
    return (max(times) - min(times)).total_seconds()


def mixed(live, dead):
    """The lines of the server, with those of the silent nodes at their beginning and in their middle."""
    middle, half = len(live) // 2, len(dead) // 2
    return dead[:half] + live[:middle] + dead[half:] + live[middle:]


def main(program, count=2000, silent=4, timeout=3):
    port = free_port()
    sockets = [socket.socket(socket.AF_INET, socket.SOCK_DGRAM) for _ in range(silent)]
    for one in sockets:
        one.bind((LOOPBACK, 0))
    live = [f'@{LOOPBACK}:{port} read analog-input:5 present-value'] * count
    dead = [f'@{LOOPBACK}:{one.getsockname()[1]} read analog-input:5 present-value' for one in sockets] * DEAD_LINES
    words = [program, 'serve', '--port', str(port), '--seconds', str(SECONDS), '--until-eof']
    server = subprocess.Popen(words, stdin=subprocess.PIPE, stdout=subprocess.PIPE, stderr=subprocess.DEVNULL, text=True)
    try:
        while not has_port(server.pid, port):
            time.sleep(0.02)
        alone = seconds_of_answers(asked(program, live, SHARE, timeout)[0])
        rows, complaints, whole = asked(program, mixed(live, dead), SHARE * (silent + 1), timeout)
        server.communicate(timeout=SECONDS)
    finally:
        server.kill()
        server.wait()
        for one in sockets:
            one.close()
    counts = collections.Counter(row['status'] for row in rows)
    beside = seconds_of_answers(rows)
    told = ' '.join(f'{status.replace(" ", "-")}={number}' for status, number in sorted(counts.items()))
    print(f'lines={len(rows)} silent={silent} {told} answers-alone={alone:.1f}s answers-beside={beside:.1f}s whole={whole:.1f}s')
    if counts != {'answered': count, 'no ending': len(dead)} or beside > alone + count / 1000 or complaints:
        print(f'WRONG: {complaints!r}')
        return 1
    return 0


if __name__ == '__main__':
    sys.exit(main(sys.argv[1], *map(int, sys.argv[2:])))
