#!/usr/bin/env python3
"""Runs a program once as it is, and then once for each allocation that it asked for, with that one refused:
    python3 refuse.py [--rest] LIBRARY PROGRAM RUN..
LIBRARY is refuse.c, compiled. RUN is the name of a test of PROGRAM, which has to pass each time; or a file N.in, which PROGRAM reads: each time it has to print
N.out, or, where its own memory was refused before it played a row, to end with a status other than 0 and print nothing.

With --rest each allocation from that one on is refused too. A test may then fail as `not prepared`, where memory was refused before what it is about.

It prints how many allocations were refused, and ends with a status other than 0 where a run did not go as it has to."""

import os
import subprocess
import sys
import tempfile
from concurrent.futures import ThreadPoolExecutor
from pathlib import Path

FAILED, PASSED, EARLY = range(3)


class Runs:
    """The runs of a test or of rows."""

    def __init__(self, library, program, name, rest):
        self.library, self.program, self.name, self.rest = library, program, name, rest
        self.is_rows = name.endswith(".in")
        if self.is_rows:
            self.text = Path(name).read_bytes()
            self.wanted = Path(name).with_suffix(".out").read_bytes()

    def title(self):
        """The title of the last row, or the name of the test."""
        if not self.is_rows:
            return self.name
        return [line for line in self.text.decode().split("\n") if line.startswith("=")][-1][1:]

    def run(self, refused):
        """Runs it with that allocation refused, 0 for none: how it went, and how many allocations were asked for and refused."""
        with tempfile.NamedTemporaryFile() as notes:
            notes.write(bytes(16))
            notes.flush()
            words = {"LD_PRELOAD": self.library, "REFUSE_NOTES": notes.name}
            if refused:
                words["REFUSE"] = f"{refused}-" if self.rest else str(refused)
            ran = subprocess.run(
                [self.program] + ([] if self.is_rows else [self.name]),
                input=self.text if self.is_rows else b"",
                capture_output=True,
                env=os.environ | words,
            )
            counts = Path(notes.name).read_bytes()
        numbers = [int.from_bytes(counts[at : at + 8], sys.byteorder) for at in (0, 8)]
        return self.how(ran), *numbers

    def how(self, ran):
        if self.is_rows:
            if ran.returncode == 0 and ran.stdout == self.wanted:
                return PASSED
            return EARLY if ran.returncode > 0 and not ran.stdout else FAILED
        if ran.returncode == 0:
            return PASSED
        return EARLY if self.rest and b"not prepared" in ran.stdout + ran.stderr else FAILED

    def refuse_each(self):
        """Whether each run goes as it has to."""
        how, asked, _ = self.run(0)
        if how != PASSED or asked == 0:
            print(f"{self.title()}: does not pass, or asks for no memory")
            return False
        with ThreadPoolExecutor(os.cpu_count()) as pool:
            runs = list(pool.map(self.run, range(1, asked + 1)))
        failed = [place for place, run in enumerate(runs, 1) if run[0] == FAILED or run[2] == 0]
        early = sum(how == EARLY for how, _, _ in runs)
        refused = sum(run[2] for run in runs)
        print(f"{self.title()}: {refused} allocations refused in {asked} runs, {early} of them ended early, {len(failed)} failed", *failed[:9])
        return not failed


def main(words):
    rest = words[:1] == ["--rest"]
    library, program, *names = words[rest:]
    went = [Runs(library, program, name, rest).refuse_each() for name in names]
    sys.exit(not (went and all(went)))


if __name__ == "__main__":
    main(sys.argv[1:])
