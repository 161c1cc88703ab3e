#!/usr/bin/env python3
"""nmap's script bacnet-info against `bac serve`: scan.py PROGRAM [PORT]

The script reads the object-identifier of device 4,194,303, the instance that stands for whichever device hears it (clause 15.5.2). This profile leaves
that rule out, so the answer is Error object, unknown-object (clause 18). By the script "Presence of this error positively identifies the device as a BACnet
device". nmap wants root for UDP.
"""

import subprocess
import sys
sys.dont_write_bytecode = True  # no __pycache__ beside the sources

import xml.etree.ElementTree as tree

from processes import LOOPBACK, Server

TURNS = 1000
DEFAULT_PORT = 47808
# Error of ReadProperty, invoke ID 1: class object (1), code unknown-object (31)
EXPECTED = '\nBACNet ADPU Type: Error (5) \n\t810a000d010050010c9101911f'


def scan(port):
    """What the script printed of the port, or None; and nmap's line of the port."""
    words = ['nmap', '-n', '-Pn', '-sU', '-p', str(port), '--script', '+bacnet-info', '-oX', '-', LOOPBACK]
    done = subprocess.run(words, check=True, capture_output=True, text=True, timeout=300)
    found = tree.fromstring(done.stdout).find('.//port')
    script = found.find("script[@id='bacnet-info']")
    state, service = found.find('state'), found.find('service')
    line = f"{found.get('portid')}/{found.get('protocol')} {state.get('state')} {service.get('name') if service is not None else '?'}"
    return (script.get('output') if script is not None else None), line


def main(words):
    port = int(words[1]) if len(words) > 1 else DEFAULT_PORT
    version = subprocess.run(['nmap', '--version'], check=True, capture_output=True, text=True).stdout.splitlines()[0]
    with Server(words[0], TURNS, port) as server:
        output, line = scan(port)
        performed = server.finish()
    print(version)
    print(line)
    print(f'bacnet-info: {output}')
    print(f'performed {performed} requests')
    if output != EXPECTED:
        print(f'WRONG: expected {EXPECTED!r}')
    return 0 if output == EXPECTED else 1


if __name__ == '__main__':
    sys.exit(main(sys.argv[1:]))
