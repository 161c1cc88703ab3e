#!/usr/bin/env python3
"""How much a forged request moves `bac serve` to send to a victim: amplified.py PROGRAM [PAIRS [OPTION ..]]

The server has one file of 46,000 octets. The attacker sends PAIRS pairs (8) of a read of the whole file, in segments, and an acknowledgement of the first segment
with a window of 127: 32 octets a pair. Both come from the socket of the victim, which is what a forged source address looks like to a server; the victim itself
sends nothing. For 20 seconds all is counted that the server sends there. OPTION is of `bac serve`, as `--rate 128`.

It prints how many octets and datagrams came to the server and to the victim, and how many octets the victim was sent for each that came. Where `--rate KIB` is among
the options, the status is 1 if the victim was sent more than a full budget (256 KiB, or what KIB give in two seconds, if that is more), three times what came, and
KIB * 1,024 octets for each second; it is 1 too if nothing is sent."""

import socket
import subprocess
import sys
import tempfile
import time

from processes import LOOPBACK, START_SECONDS, free_port, has_port

LENGTH = 46_000
SECONDS = 20
ROOM = 16 * 1024 * 1024  # of the victim's socket, as far as the system gives it
BURST = 256 * 1024
DOCUMENT = f"""[[object]]
type = "device"
instance = 1
name = "plant"

[[object]]
type = "file"
instance = 1
name = "log"
file = {{ hex = "{'5A' * LENGTH}" }}
"""


def framed(apdu):
    return bytes.fromhex('810A') + (len(apdu) + 6).to_bytes(2, 'big') + b'\x01\x04' + apdu


def pair(invoke_id):
    """A read of all octets of file 1, and the acknowledgement of the first segment of its answer."""
    service = bytes.fromhex('C4028000010E310022FFFF0F')
    read = framed(bytes([0x02, 0x75, invoke_id, 6]) + service)
    acknowledgement = framed(bytes([0x40, invoke_id, 0, 127]))
    return read, acknowledgement


def counted(victim, end):
    """How many octets and datagrams come to the victim until a moment."""
    octets = datagrams = 0
    while (left := end - time.monotonic()) > 0:
        victim.settimeout(left)
        try:
            octets += len(victim.recv(65_536))
            datagrams += 1
        except TimeoutError:
            break
    return octets, datagrams


def attacked(port, pairs):
    """What the attacker sent, and what the victim was sent: octets and datagrams of both; and the seconds that it took."""
    with socket.socket(socket.AF_INET, socket.SOCK_DGRAM) as victim:
        victim.setsockopt(socket.SOL_SOCKET, socket.SO_RCVBUF, ROOM)
        victim.connect((LOOPBACK, port))
        began = time.monotonic()
        sent = 0
        for number in range(pairs):
            read, acknowledgement = pair(number % 256)
            sent += victim.send(read)
            time.sleep(0.05)  # the first segment is on its way before it is acknowledged
            sent += victim.send(acknowledgement)
        octets, datagrams = counted(victim, began + SECONDS)
        return (sent, 2 * pairs), (octets, datagrams), time.monotonic() - began


def rate_in(options):
    """The KiB a second of `--rate`, if it is given."""
    return int(options[options.index('--rate') + 1]) if '--rate' in options else None


def main(program, pairs=8, *options):
    with tempfile.NamedTemporaryFile('w', suffix='.toml') as document:
        document.write(DOCUMENT)
        document.flush()
        port = free_port()
        words = [program, 'serve', '--port', str(port), '--objects', document.name, '--seconds', str(2 * SECONDS + START_SECONDS), *options]
        server = subprocess.Popen(words, stdout=subprocess.DEVNULL, stderr=subprocess.DEVNULL)
        try:
            end = time.monotonic() + START_SECONDS
            while not has_port(server.pid, port):
                if server.poll() is not None or time.monotonic() > end:
                    raise SystemExit(f'no server at port {port}')
                time.sleep(0.02)
            (came, read), (octets, datagrams), seconds = attacked(port, int(pairs))
        finally:
            server.kill()
            server.wait()
    print(f'came: {came} octets in {read} datagrams; the victim was sent: {octets} octets in {datagrams} datagrams; for each octet: {octets / came:.1f}')
    rate = rate_in(options)
    most = None if not rate else max(BURST, 2 * rate * 1024) + 3 * came + rate * 1024 * seconds
    if most is not None:
        print(f'at most: {most:.0f} octets in {seconds:.1f} seconds')
    return octets == 0 or (most is not None and octets > most)


if __name__ == '__main__':
    if len(sys.argv) < 2:
        raise SystemExit(__doc__)
    sys.exit(main(*sys.argv[1:]))
