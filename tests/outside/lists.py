"""A long list asked of one `bac serve` by one `bac ask`, which needs a node for each 256 lines.

    python3 tests/outside/lists.py PROGRAM [LINES [WINDOW]]

Every fourth line is a write, the others are reads. It prints how many lines were answered, refused, aborted and otherwise ended, how many requests a server of its
own performed, and how long that took; the status is 1 where a line is missing, out of order, or was refused, or where the server performed another number of
requests than lines were answered. A server has room for 65,536 requests of the last 65 seconds, and aborts more: those are counted, and are no fault."""

import collections
import subprocess
import sys
import tempfile
import time

from processes import LOOPBACK, free_port, has_port

REQUESTS = ['read analog-input:5 present-value', 'read device:1 object-name', 'write analog-value:1 present-value real:20.5', 'read 2:1 85']
SECONDS = 600


def list_of(lines):
    """The text of the list."""
    return ''.join(f'{REQUESTS[place % len(REQUESTS)]}\n' for place in range(lines))


def kind_of(ended):
    """What a line's ending counts as: its first word, and of an abort its reason."""
    words = ended.split()
    return ' '.join(words[:2]) if words[0] in ('aborted', 'refused') else words[0]


def asked(program, port, path, window):
    """The lines that `bac ask` prints, its status and how long it took."""
    words = [program, 'ask', '--port', str(port), '--lines', path]
    begin = time.monotonic()
    done = subprocess.run(words + (['--window', str(window)] if window else []), capture_output=True, text=True, timeout=SECONDS)
    return done, time.monotonic() - begin


def main(program, lines=1000, window=16):
    port = free_port()
    words = [program, 'serve', '--port', str(port), '--seconds', str(SECONDS), '--until-eof']
    server = subprocess.Popen(words, stdin=subprocess.PIPE, stdout=subprocess.PIPE, stderr=subprocess.DEVNULL, text=True)
    try:
        while not has_port(server.pid, port):
            time.sleep(0.02)
        with tempfile.NamedTemporaryFile('w', suffix='.txt') as file:
            file.write(list_of(lines))
            file.flush()
            done, seconds = asked(program, port, file.name, window)
        served = server.communicate(timeout=SECONDS)[0].split()
    finally:
        server.kill()
        server.wait()
    ends = [line.split(': ', 1) for line in done.stdout.splitlines()]
    counts = collections.Counter(kind_of(ended) for _, ended in ends)
    in_order = [int(number) for number, _ in ends] == list(range(1, lines + 1))
    told = ' '.join(f'{kind}={count}' for kind, count in sorted(counts.items()))
    performed = int(served[1])
    print(f'lines={lines} window={window or 1} {told} performed={performed} status={done.returncode} seconds={seconds:.1f}')
    refused = sum(count for kind, count in counts.items() if kind.startswith('refused'))
    wrong = not in_order or refused or performed != counts['answered'] or done.stderr or done.returncode != (0 if counts['answered'] == lines else 1)
    if wrong:
        print(f'WRONG: in order {in_order}, refused {refused}, {done.stderr!r}')
    return 1 if wrong else 0


if __name__ == '__main__':
    sys.exit(main(sys.argv[1], *map(int, sys.argv[2:])))
