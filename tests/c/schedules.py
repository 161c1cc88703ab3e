#!/usr/bin/env python3
"""Generated schedules through the calls of bac.h against `bac simulate`, datagram for datagram.

schedules.py BAC REPLAY [NUMBER [SEED]], REPLAY a path or a command in words: asks of each kind in both directions, in one APDU and in segments, copies that
are delivered twice, late, or never, ticks, and changes of the nodes' own stores.
"""
import random
import re
import subprocess
import sys
import tempfile

OBJECTS = ["0:5 85", "2:1 85", "2:1 28", "5:1 85", "8:1 77", "10:1 42", "0:9 85", "2:1 99"]
VALUES = ["4443340000", "44C1200000", "9101", "9100", "7400414243", "21FF"]


def hexes(rng, most):
    return bytes(rng.randrange(256) for _ in range(rng.choice([1, 3, 40, most]))).hex().upper()


def ask(rng, value):
    kind = rng.choice(["read", "read", "write", "append", "append", "put", "get"])
    if kind == "read":
        return f"read {rng.choice(OBJECTS)}"
    if kind == "write":
        return f"write {rng.choice(OBJECTS)} {value}"
    if kind == "append":
        return f"append 10:1 {hexes(rng, 4000)}"
    if kind == "put":
        return f"put 10:1 {rng.choice([0, 1, 2, 50, -1, -7])} {hexes(rng, 2000)}"
    return f"get 10:1 {rng.choice([0, 1, 3, 9999])} {rng.choice([0, 1, 100, 6000])}"


def schedule(rng):
    """Lines; a delivery gets its copy later, once it is known how many there are."""
    lines = ["nodes 2"]
    for _ in range(rng.randrange(20, 60)):
        a = rng.randrange(2)
        lines.append(rng.choices([f"ask {a} {1 - a} " + ask(rng, rng.choice(VALUES)), "deliver", f"tick {a}",
                                  f"advance {rng.choice([1, 50, 1000, 2000, 3000, 5001, 20000])}", f"set {a} {rng.choice(OBJECTS)} {rng.choice(VALUES)}"],
                                 [5, 20, 4, 4, 2])[0])
    return lines


def copies_in(text):
    return len(re.findall(r"^sent ", text, flags=re.M))


def told_by_bac(text):
    text = re.sub(r"^(asked \d+) id \d+$", r"\1", text, flags=re.M)
    text = re.sub(r"^performed \d+$", "performed", text, flags=re.M)
    return re.sub(r"^refused \d+$", "refused", text, flags=re.M)


def run(command, script):
    return subprocess.run(command, input=script, capture_output=True, text=True)


def main():
    bac, replay = sys.argv[1], sys.argv[2].split()
    number = int(sys.argv[3]) if len(sys.argv) > 3 else 1000
    seed = int(sys.argv[4]) if len(sys.argv) > 4 else 1
    sent = performed = ended = 0
    for at in range(seed, seed + number):
        rng = random.Random(at)
        script, there = "", 0
        for line in schedule(rng):
            if line == "deliver":
                there = copies_in(run(replay, script).stdout)
                if there == 0:
                    continue
                line = f"deliver {rng.randrange(max(0, there - 4), there) if rng.random() < 0.9 else rng.randrange(there)}"
            script += line + "\n"
        ours = run(replay, script)
        with tempfile.NamedTemporaryFile("w", suffix=".txt") as file:
            file.write(script)
            file.flush()
            theirs = run([bac, "simulate", file.name], "")
        if ours.returncode != 0 or theirs.returncode != 0 or ours.stdout != told_by_bac(theirs.stdout):
            print(f"schedule {at} differs:\n{script}\n--- bac\n{told_by_bac(theirs.stdout)}{theirs.stderr}\n--- bac.h\n{ours.stdout}{ours.stderr}")
            sys.exit(1)
        sent += copies_in(ours.stdout)
        performed += ours.stdout.count("performed\n")
        ended += len(re.findall(r"^ended ", ours.stdout, flags=re.M))
    print(f"{number} schedules, {sent} datagrams, {performed} performed, {ended} ended: all the same")


main()
