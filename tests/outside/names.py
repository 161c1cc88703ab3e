"""Holds the names of bac_value_text against tshark's own tables:
    python3 tests/outside/names.py
Each number that both have must have the same name, but for the spellings below, which are tshark's. The last line is
`types=T properties=P classes=C codes=E rejects=R aborts=A wrong=N`, and the status is 1 where N is not 0."""
import glob
import os
import re
import subprocess
import sys

TOP = os.path.dirname(os.path.dirname(os.path.dirname(os.path.abspath(__file__))))
# Clause 21 has the plural, another division of words, or no prefix.
SPELLED_OTHERWISE = {
    0: "acked-transition",
    5: "active-vt-session",
    23: "datelist",
    24: "daylights-savings-status",
    122: "vt-class-supported",
    130: "event-time-stamp",
    149: "maximum-value-time-stamp",
    150: "minimum-value-time-stamp",
    400: "bacnet-ip-address",
    401: "bacnet-ip-default-gateway",
    402: "bacnet-ip-dhcp-enable",
    403: "bacnet-ip-dhcp-lease-time",
    404: "bacnet-ip-dhcp-lease-time-remaining",
    405: "bacnet-ip-dhcp-server",
    406: "bacnet-ip-dns-server",
    411: "bacnet-ip-subnet-mask",
    489: "subordinate-relationship",
}

CODES_SPELLED_OTHERWISE = {14: "invalid-time-stamp"}
# Of each table the files of its rows, tshark's field, and tshark's own spellings.
TABLES = {
    "types": ("object_types.rt", "objectType", {}),
    "properties": ("properties/*.rt", "property_identifier", SPELLED_OTHERWISE),
    "classes": ("error_classes.rt", "error_class", {}),
    "codes": ("error_codes/*.rt", "error_code", CODES_SPELLED_OTHERWISE),
    "rejects": ("reject_reasons.rt", "reject_reason", {}),
    "aborts": ("abort_reasons.rt", "abort_reason", {}),
}


def rows_of(pattern):
    rows = {}
    for file in sorted(glob.glob(f"{TOP}/crates/bac_value_text/src/{pattern}")):
        with open(file, encoding="utf-8") as it:
            for found in re.finditer(r'\(\s*"([a-z0-9-]+)",\s*([\d_]+),?\s*\)', it.read()):
                rows[int(found[2].replace("_", ""))] = found[1]
    return rows


def tshark_tables():
    ran = subprocess.run(["tshark", "-G", "values"], capture_output=True, text=True, check=True)
    tables = {}
    for line in ran.stdout.splitlines():
        part = line.split("\t")
        if len(part) >= 4 and part[0] == "V" and part[1].startswith("bacapp."):
            name = re.sub(r"\(.*?\)", "", part[3].lower()).strip()
            tables.setdefault(part[1], {})[int(part[2], 0)] = re.sub(r"[\s_/-]+", "-", name)
    return tables


def wrong_in(rows, table, otherwise):
    """How many rows are not those of the table; each is printed."""
    wrong = 0
    for number, name in sorted(rows.items()):
        there = table.get(number)
        if there not in (name, otherwise.get(number, name)):
            print(f"{number}: {name}, tshark: {there}")
            wrong += 1
    return wrong


def main():
    tables = tshark_tables()
    wrong, counts = 0, []
    for what, (files, field, otherwise) in TABLES.items():
        rows = rows_of(files)
        counts.append(f"{what}={len(rows)}")
        wrong += wrong_in(rows, tables[f"bacapp.{field}"], otherwise) + (not rows)
    print(" ".join(counts), f"wrong={wrong}")
    sys.exit(wrong > 0)


main()
