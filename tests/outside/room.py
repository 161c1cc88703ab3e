"""Many new reads of one `bac serve`, from processes that ask at a steady rate.

    python3 tests/outside/room.py PROGRAM SECONDS [RATE [PROCESSES [WORDS..]]]

A process asks from one socket after the other, each with invoke IDs from 0 on that it does not use again, so that every read is new to the server. It prints how
many reads were answered, aborted, and not answered in time; the status is 1 where one was aborted or not answered. WORDS are further ones of `serve`: with --strict
each read takes a slot for 65 seconds."""

import multiprocessing
import socket
import subprocess
import sys
import time

from processes import LOOPBACK, free_port, has_port

TAIL = bytes.fromhex('0C0C000000051955')
IDS = 256
TIMEOUT = 3


def read_of(invoke_id):
    """The datagram of a ReadProperty of the present-value of analog-input 5."""
    return bytes.fromhex('810A001101040005') + bytes([invoke_id]) + TAIL


def asked(port, reads, rate, results):
    """Asks so many new reads, at so many a second, and puts the counts of answered, aborted and lost ones."""
    counts = {'answered': 0, 'aborted': 0, 'lost': 0}
    begin = time.monotonic()
    asker = None
    for number in range(reads):
        if number % IDS == 0:
            if asker:
                asker.close()
            asker = socket.socket(socket.AF_INET, socket.SOCK_DGRAM)
            asker.settimeout(TIMEOUT)
            asker.connect((LOOPBACK, port))
        time.sleep(max(0, begin + number / rate - time.monotonic()))
        asker.send(read_of(number % IDS))
        try:
            apdu = asker.recv(1500)[6:]
        except socket.timeout:
            counts['lost'] += 1
            continue
        counts['answered' if apdu[0] >> 4 == 3 else 'aborted'] += 1
    results.put(counts)


def main(program, seconds, rate=1000, processes=16, *more):
    """Starts the server and the processes that ask it."""
    port = free_port()
    words = [program, 'serve', '--port', str(port), '--seconds', str(seconds + 30), *more]
    server = subprocess.Popen(words, stdout=subprocess.DEVNULL, stderr=subprocess.DEVNULL)
    try:
        while not has_port(server.pid, port):
            time.sleep(0.02)
        results = multiprocessing.Queue()
        own_rate = rate / processes
        workers = [multiprocessing.Process(target=asked, args=(port, int(own_rate * seconds), own_rate, results)) for _ in range(processes)]
        for worker in workers:
            worker.start()
        all_counts = [results.get() for _ in workers]
    finally:
        server.kill()
        server.wait()
    counts = {what: sum(one[what] for one in all_counts) for what in all_counts[0]}
    print(' '.join(f'{what}={count}' for what, count in counts.items()))
    return 1 if counts['aborted'] or counts['lost'] else 0


if __name__ == '__main__':
    sys.exit(main(sys.argv[1], *map(int, sys.argv[2:5]), *sys.argv[5:]))
