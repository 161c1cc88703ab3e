#!/usr/bin/env python3
"""Takes the rows of nodes out of a file stdin whose titles end in [memory], each with the scene that it is played on, and what has to be printed of them out of a file
stdout:
    python3 tests/memory/rows.py STDIN STDOUT FOLDER
writes FOLDER/N.in and FOLDER/N.out for the row of number N, and prints the names of the first ones."""

import sys
from pathlib import Path


SECTION = "@ nodes\n"


def rows_of(path):
    section = Path(path).read_text().partition(SECTION)[2].partition("\n@ ")[0]
    return ["=" + row for row in ("\n" + section).split("\n=")[1:]]


def main(stdin, stdout, folder):
    scene = scene_printed = ""
    for number, (row, printed) in enumerate(zip(rows_of(stdin), rows_of(stdout), strict=True), 1):
        title = row.split("\n")[0]
        if title.startswith("=scene "):
            scene, scene_printed = row.rstrip("\n") + "\n\n", "\n" + printed.rstrip("\n") + "\n"
        elif title.endswith("[memory]"):
            (Path(folder) / f"{number}.in").write_text(SECTION + scene + row.rstrip("\n") + "\n")
            (Path(folder) / f"{number}.out").write_text(SECTION + scene_printed + "\n" + printed.rstrip("\n") + "\n\n")
            print(Path(folder) / f"{number}.in")


if __name__ == "__main__":
    main(*sys.argv[1:])
