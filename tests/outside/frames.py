#!/usr/bin/env python3
"""Holds the frames of captures in crates/bac_stack_rows/stdin against tshark: each that carries a datagram, by the file stdout beside it, must
carry it there too, and no other may. Prints what differs and is not known to, and a count. Needs tshark; needs no build."""
import ipaddress
import os
import re
import subprocess
import sys
sys.dont_write_bytecode = True  # no __pycache__ beside the sources

import tempfile

import captures

ROWS = os.path.join(os.path.dirname(__file__), "../../crates/bac_stack_rows")
SECTION = "@ captures\n"
FRAME = re.compile(r"^(.*); (\d+) ([0-9A-F]*)$", re.M)
CARRIED = re.compile(r"^(.*); (.*)$", re.M)
OTHER = "another link layer"
FIELDS = ["ip.src", "ipv6.src", "ip.dst", "ipv6.dst", "udp.srcport", "udp.dstport", "udp.payload"]
PORTS = [*range(47808, 47824), 40001]
# What tshark shows of a row where it goes another way: it shows the octets that are there of a datagram that is cut, or as many
# as the packet has where UDP tells another length; it takes three VLAN tags, four headers of IPv6, and version 6 under 0800;
# it shows fragments apart; it does not know Linux's family of IPv6 on a loopback, and shows no datagram without octets.
KNOWN = {
    "three VLAN tags", "four extensions", "version 6 by EtherType 0800", "cut in the octets", "total within UDP",
    "length within UDP", "length beyond the packet", "length within the packet", "no octets", "first fragment",
}
LINUX_FAMILY = {"0A000000", "0000000A"}


def shown(path):
    words = ["tshark", "-r", path, "-o", "ip.defragment:FALSE", "-o", "ipv6.defragment:FALSE", "-T", "fields", "-E", "separator=|"]
    for field in FIELDS:
        words += ["-e", field]
    return subprocess.run(words, capture_output=True, text=True, check=True).stdout.split("\n")[:-1]


def text_of(line):
    from4, from6, to4, to6, source, target, octets = line.split("|")
    if not octets or not (int(source) in PORTS or int(target) in PORTS):
        return None
    host = lambda text: ipaddress.ip_address(text).packed.hex().upper()
    return f"{host(from4 or from6)}:{source} {host(to4 or to6)}:{target} {octets.upper()}"


def section_of(name):
    with open(f"{ROWS}/{name}") as file:
        return file.read().partition(SECTION)[2].partition("\n@ ")[0]


def rows_of(frames, carried):
    found = FRAME.findall(frames)
    names = {frame[0] for frame in found}
    # (a page of HTML has lines of this form too)
    both = zip(found, (line for line in CARRIED.findall(carried) if line[0] in names), strict=True)
    named = [(*frame, text) for frame, (name, text) in both if frame[0] == name]
    return [(name, int(link), octets, text) for name, link, octets, text in named if text != OTHER]


def main():
    captures.need("tshark")
    rows = rows_of(section_of("stdin"), section_of("stdout"))
    wrong = 0
    for link in sorted({row[1] for row in rows}):
        some = [row for row in rows if row[1] == link]
        with tempfile.NamedTemporaryFile(suffix=".pcap") as file:
            file.write(captures.pcap(link, [(1_000_000_000, bytes.fromhex(row[2])) for row in some]))
            file.flush()
            lines = shown(file.name)
        for (name, _, octets, text), line in zip(some, lines, strict=True):
            theirs = text_of(line)
            ours = text if ":" in text else None
            if ours != theirs and name not in KNOWN and octets[:8] not in LINUX_FAMILY:
                wrong += 1
                print(f"{name}: {text}, tshark: {theirs}")
    print(f"rows={len(rows)} wrong={wrong}")
    return wrong > 0 or not rows


sys.exit(main())
