#!/usr/bin/env python3
"""The programs that docs/C.md names, and what it says of them: page.py TOP OUT LIB

examples/c/boiler.c is compiled as strictly as the rest, and asked by OUT/ask as the page asks; the line has to be the page's. A free port stands for the
program's. examples/c/fan.c is compiled so too, and run. And the page has to be right about the size of the archive and its code, to 10 %.
"""
import re
import subprocess
import sys
sys.dont_write_bytecode = True  # no __pycache__ beside the sources

import time
from pathlib import Path

top, out, lib = Path(sys.argv[1]), Path(sys.argv[2]), sys.argv[3]
sys.path.insert(0, str(top / "tests/outside"))
from processes import free_port, has_port

WRONG_BY = 0.1
STRICT = "-std=c99 -O2 -Wall -Wextra -Wpedantic -Werror".split()
page = (top / "docs/C.md").read_text()
wrong = []


def program(port):
    """boiler.c, at that port."""
    text = (top / "examples/c/boiler.c").read_text()
    for theirs, ours in (("htons(47808)", f"htons({port})"), ("0xBA, 0xC0", f"{port >> 8}, {port & 255}")):
        if theirs not in text:
            wrong.append(f"boiler.c has no {theirs}")
        text = text.replace(theirs, ours)
    return text


def asked():
    """The line that the page's ask prints, and the one that it should."""
    words, wanted = re.search(r"examples/c/ask 47808 (.*)\n\n\s*prints `(.*?)`", page).groups()
    port = free_port()
    (out / "boiler.c").write_text(program(port))
    subprocess.run(["cc", *STRICT, f"-I{top}/include", "-o", out / "boiler", out / "boiler.c", top / "examples/c/heap.c", lib], check=True)
    boiler = subprocess.Popen([out / "boiler"])
    while boiler.poll() is None and not has_port(boiler.pid, port):
        time.sleep(0.02)
    done = subprocess.run([out / "ask", str(port), *words.split()], capture_output=True, text=True, timeout=120)
    boiler.kill()
    boiler.wait()
    return done.stdout.rstrip("\n"), wanted


def sizes():
    """The sizes of the archive and of its code in KB: what they are, and what the page says."""
    text = subprocess.run(["size", "-t", lib], capture_output=True, text=True, check=True).stdout.splitlines()[-1]
    told = re.search(r"Archive (\d+) KB, code (\d+) KB", page).groups()
    return [(Path(lib).stat().st_size / 1000, int(told[0])), (int(text.split()[0]) / 1000, int(told[1]))]


def started():
    """The line that the program with objects of any type prints, and the one that it should."""
    wanted = re.search(r"examples/c/fan\.c\) lists .*? it prints `(.*?)`", page)[1]
    subprocess.run(["cc", *STRICT, f"-I{top}/include", "-o", out / "fan", top / "examples/c/fan.c", top / "examples/c/heap.c", lib], check=True)
    return subprocess.run([out / "fan"], capture_output=True, text=True, timeout=120).stdout.rstrip("\n"), wanted


got, wanted = asked()
if got != wanted:
    wrong.append(f"asked: {got!r}, not {wanted!r}")
line, wanted = started()
if line != wanted:
    wrong.append(f"started: {line!r}, not {wanted!r}")
for size, told in sizes():
    if abs(size - told) > WRONG_BY * told:
        wrong.append(f"{size:.0f} KB, not {told}")
print(f"docs/C.md: {got}, archive and code {' and '.join(f'{size:.0f}' for size, _ in sizes())} KB")
for text in wrong:
    print(f"WRONG: {text}")
sys.exit(1 if wrong else 0)
