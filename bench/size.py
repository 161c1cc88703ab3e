#!/usr/bin/env python3
"""Prints how large the project is: crates, and lines of code, definitions and proofs, without blank lines.

    python3 bench/size.py [REVISION]
"""
import re
import subprocess
import sys

revision = sys.argv[1] if len(sys.argv) > 1 else "HEAD"


def git(*words):
    return subprocess.run(["git", *words], check=True, capture_output=True, text=True).stdout


KINDS = {"code": r"crates/\w+/src/.*\.rt", "definitions": r"crates/\w+/specs/.*\.antt", "proofs": r"crates/\w+/proofs/.*\.antt"}
files = git("ls-tree", "-r", "--name-only", revision).splitlines()
print("crates:", len({name.split("/")[1] for name in files if re.match(r"crates/\w+/src/", name)}))
total = 0
for kind, pattern in KINDS.items():
    lines = 0
    for name in files:
        if re.fullmatch(pattern, name):
            lines += sum(1 for line in git("show", f"{revision}:{name}").splitlines() if line.strip())
    total += lines
    print(f"{kind}: {lines} lines")
print(f"together: {total} lines")
