"""A flood of file reads: how much memory one `bac serve` takes during it, and after it.

    python3 tests/outside/filling.py PROGRAM [READS [OPTION ..]]

The server has one file of 22,000 octets. Each of so many reads (1,024) asks for all of it, under an invoke ID that nobody else uses, and no segment of an answer is
acknowledged. It prints the resident memory before the flood, at its end, and then every ten seconds: octets that entries gave back stay with the process, which uses
them again. The status is 1 if a read of ten octets is not answered at the end. OPTION is of `bac serve`,
as `--strict` or `--memory 1M`."""

import socket
import subprocess
import sys
import tempfile
import time
from pathlib import Path

from processes import LOOPBACK, free_port, has_port

IDS = 256
LENGTH = 22_000
DOCUMENT = f"""[[object]]
type = "device"
instance = 1
name = "plant"

[[object]]
type = "file"
instance = 1
name = "log"
file = {{ hex = "{'5A' * LENGTH}" }}
"""
AFTER = (0, 10, 20, 30, 40, 50, 60, 70, 80)


def read_of(invoke_id, count, takes_segments):
    """The datagram of an AtomicReadFile of file 1 from its beginning."""
    octets = 1 if count < 256 else 2
    data = bytes.fromhex('C4028000010E3100') + bytes([0x20 + octets]) + count.to_bytes(octets, 'big') + b'\x0f'
    apdu = bytes([0x02 if takes_segments else 0x00, 0x75 if takes_segments else 0x05, invoke_id, 6]) + data
    return bytes.fromhex('810A') + (len(apdu) + 6).to_bytes(2, 'big') + b'\x01\x04' + apdu


def resident(process):
    """The resident memory of a process, in KiB."""
    lines = Path(f'/proc/{process}/status').read_text().splitlines()
    return int(next(line.split()[1] for line in lines if line.startswith('VmRSS:')))


def flood(port, reads):
    """Sends so many reads; their answers are left where they come."""
    askers = []
    for number in range(reads):
        if number % IDS == 0:
            askers.append(socket.socket(socket.AF_INET, socket.SOCK_DGRAM))
            askers[-1].connect((LOOPBACK, port))
        askers[-1].send(read_of(number % IDS, LENGTH, True))
        if number % 8 == 7:
            time.sleep(0.004)
    return askers


def is_answered(port):
    """Whether a read of ten octets gets a ComplexACK."""
    with socket.socket(socket.AF_INET, socket.SOCK_DGRAM) as asker:
        asker.settimeout(3)
        asker.connect((LOOPBACK, port))
        asker.send(read_of(0, 10, False))
        return asker.recv(1500)[6] >> 4 == 3


def main(program, reads=1024, *options):
    with tempfile.NamedTemporaryFile('w', suffix='.toml') as document:
        document.write(DOCUMENT)
        document.flush()
        port = free_port()
        words = [program, 'serve', '--port', str(port), '--objects', document.name, '--seconds', '300', *options]
        server = subprocess.Popen(words, stdout=subprocess.DEVNULL, stderr=subprocess.DEVNULL)
        try:
            while not has_port(server.pid, port):
                time.sleep(0.02)
            before = resident(server.pid)
            askers = flood(port, int(reads))
            end = time.monotonic()
            taken = {}
            for seconds in AFTER:
                time.sleep(max(0, end + seconds - time.monotonic()))
                taken[seconds] = resident(server.pid) - before
            answered = is_answered(port)
        finally:
            server.kill()
            server.wait()
    for asker in askers:
        asker.close()
    print(f'reads={reads} before={before} KiB, more: ' + ', '.join(f'{kib} KiB after {seconds} s' for seconds, kib in taken.items()))
    print(f'answered at the end={answered}')
    return 0 if answered else 1


if __name__ == '__main__':
    sys.exit(main(sys.argv[1], *sys.argv[2:]))
