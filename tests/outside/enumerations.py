"""Holds the names of bac_point_text against those that tshark prints of values of properties:
    python3 tests/outside/enumerations.py
It makes a capture of ReadProperty acknowledgements, one for each number of each property that has an enumeration, and lets tshark name the values.
Each number that both have must have the same name, but for the spellings below, which are tshark's; bits are compared too, as numbers. Of the names
that tshark lacks it tells how many there are. The last line is `enumerations=E names=N compared=C unknown=U wrong=W`, and the status is 1 where W is
not 0."""
import glob
import os
import re
import struct
import subprocess
import sys
import tempfile

TOP = os.path.dirname(os.path.dirname(os.path.dirname(os.path.abspath(__file__))))
SOURCES = f"{TOP}/crates/bac_point_text/src"
PROPERTY_FILES = f"{TOP}/crates/bac_value_text/src/properties/*.rt"

# Words of tshark's for units, and the standard's.
WORDS = {"sq": "square", "kg": "kilogram", "kgs": "kilograms", "feed": "feet", "min": "minute", "kwatt": "kilowatt", "lux": "luxes",
         "obstruction": "obscuration"}
# Names that tshark spells otherwise, or has at another number.
OTHERWISE = {
    ("engineering-units", 29): "relative-humidity",
    ("engineering-units", 47): "watt",
    ("engineering-units", 125): "kilojoules-per-kg",
    ("life-safety-mode", 13): "atomic-release-disabled",
    ("lock-status", 2): "fault",
    ("lock-status", 3): "unknown",
    ("network-type", 5): "bacnet-ipv4",
    ("network-type", 9): "bacnet-ipv6",
    ("limit-enable", 0): "low-limit",
    ("limit-enable", 1): "high-limit",
}
# What tshark says of a number that it has no name for.
NO_NAME = re.compile(r"Proprietary|[Rr]eserved|unassigned|Unknown|deprecated")
# tshark counts the priorities from 1 on, as people do; the bits of the standard count from 0 on.
COUNTED_FROM_ONE = {"priority-filter"}


def tables():
    """Of each enumeration its names by number."""
    found = {}
    for file in sorted(glob.glob(f"{SOURCES}/names/*.rt")):
        with open(file, encoding="utf-8") as it:
            for text in re.findall(r'&str = "\\\n(.*?)";', it.read(), re.S):
                word, *rows = text.splitlines()
                found[word] = {int(number): name for number, name in (row.split(" ") for row in rows)}
    return found


def properties():
    """Of each property that has an enumeration in objects of any type, or of all types that have it, the enumeration."""
    numbers = {}
    for file in sorted(glob.glob(PROPERTY_FILES)):
        with open(file, encoding="utf-8") as it:
            for found in re.finditer(r'\(\s*"([a-z0-9-]+)",\s*([\d_]+),?\s*\)', it.read()):
                numbers[found[1]] = int(found[2].replace("_", ""))
    with open(f"{SOURCES}/property_names.rt", encoding="utf-8") as it:
        lines = re.search(r'PROPERTIES: &str = "\\\n(.*?)";', it.read(), re.S)[1].splitlines()
    wanted, several = {}, set()
    for line in lines:
        _, name, word = line.split(" ")
        if wanted.setdefault(numbers[name], word) != word:
            several.add(numbers[name])
    return {number: word for number, word in wanted.items() if number not in several}


def octets(number):
    return number.to_bytes(max(1, (number.bit_length() + 7) // 8), "big")


def acknowledgement(number, value):
    """A datagram that answers a read of a property with an Enumerated value (clause 20.1.5)."""
    value, number = octets(value), octets(number)
    apdu = (bytes([0x30, 1, 12, 0x0C, 0, 0, 0, 1, 0x18 | len(number)]) + number
            + bytes([0x3E, 0x90 | len(value)]) + value + bytes([0x3F]))
    return b"\x81\x0a" + struct.pack(">H", len(apdu) + 6) + b"\x01\x00" + apdu


def capture(datagrams):
    parts = [struct.pack("<IHHiIII", 0xA1B2C3D4, 2, 4, 0, 0, 65535, 1)]
    for place, datagram in enumerate(datagrams):
        udp = struct.pack(">HHHH", 47808, 47808, 8 + len(datagram), 0) + datagram
        ip = struct.pack(">BBHHHBBH4s4s", 0x45, 0, 20 + len(udp), 0, 0, 64, 17, 0, bytes([10, 0, 0, 1]), bytes([10, 0, 0, 2])) + udp
        frame = bytes(12) + b"\x08\x00" + ip
        parts.append(struct.pack("<IIII", place, 0, len(frame), len(frame)) + frame)
    return b"".join(parts)


def told(asked):
    """What tshark calls each value of a property, by property and value; nothing for one that it has no name for."""
    with tempfile.NamedTemporaryFile(suffix=".pcap") as file:
        file.write(capture([acknowledgement(number, value) for number, value in asked]))
        file.flush()
        ran = subprocess.run(["tshark", "-r", file.name, "-T", "pdml", "-J", "bacapp"], capture_output=True, text=True, check=True)
    packets = ran.stdout.split("<packet>")[1:]
    names = {}
    for (number, value), packet in zip(asked, packets, strict=True):
        inside = packet[packet.index("{[3]"):]
        for found in re.finditer(r'show(?:name)?="([^":]+): +([^"]*) \((\d+)\)"', inside):
            if int(found[3]) == value and "Tag" not in found[1] and not NO_NAME.search(found[2]):
                names[number, value] = found[2]
    return names


def plain(word, said):
    """What tshark says, as the standard divides and abbreviates words."""
    said = re.sub(r"([a-z])([A-Z])", r"\1-\2", said) if word == "services-supported" else said
    parts = re.split(r"[\s_-]+", said.lower())
    return "-".join(WORDS.get(part, part) for part in parts) if word == "engineering-units" else "-".join(parts)


def same(word, value, name, said):
    said = plain(word, said)
    other = OTHERWISE.get((word, value), name)
    if word == "services-supported":
        return said.replace("-", "") == name.replace("-", "")
    return name.lower() in (said, said.removesuffix("s") + "s") or other == said


def main():
    names, wrong, compared, seen = tables(), 0, 0, set()
    asked = []
    for number, word in sorted(properties().items()):
        if word in names:
            shift = word in COUNTED_FROM_ONE
            asked += [(number, value + shift) for value in sorted(names[word])]
    said = told(asked)
    for number, word in sorted(properties().items()):
        for value, name in sorted(names.get(word, {}).items()):
            there = said.get((number, value + (word in COUNTED_FROM_ONE)))
            if there is None:
                continue
            compared += 1
            seen.add((word, value))
            if not same(word, value, name, there):
                print(f"property {number}, {word} {value}: {name}, tshark: {there}")
                wrong += 1
    every = {(word, value) for word, table in names.items() for value in table}
    print(f"enumerations={len(names)} names={len(every)} compared={compared} unknown={len(every - seen)} wrong={wrong}")
    sys.exit(wrong > 0 or compared == 0)


main()
