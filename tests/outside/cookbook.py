#!/usr/bin/env python3
"""Runs the scripts of docs/GUIDE.md job by job, as they stand there, and compares what they print: cookbook.py PROGRAM

The block before the first job is run once; then each job's blocks ```sh are run by `sh -e` in one folder and in a network of its own (documents.py), and what
stands in the block ```text below one is what it has to print on standard output. Seconds stand for minutes and hours. Servers that a job begins run until the
end. The last line says how many scripts ran, and how many ended or printed otherwise.
"""

import sys
sys.dont_write_bytecode = True  # no __pycache__ beside the sources

import tempfile
from pathlib import Path

from documents import TOP, Desk, in_own_network, scripts_of

LEAST = 12  # scripts of the guide


def main(program):
    scripts, wrong = scripts_of((TOP / 'docs/GUIDE.md').read_text()), 0
    with tempfile.TemporaryDirectory() as folder:
        desk = Desk(Path(folder), program)
        for job, script, wanted in scripts:
            status, printed = desk.run(script)
            right = status == 0 and (wanted is None or printed == wanted)
            wrong += not right
            print(f'job {job}: {"right" if right else "WRONG"}')
            if not right:
                print(f'status {status}, printed:\n{printed}wanted:\n{wanted}', end='')
        desk.close()
    print(f'scripts={len(scripts)} wrong={wrong}')
    return 1 if wrong or len(scripts) < LEAST else 0


if __name__ == '__main__':
    if len(sys.argv) != 2:
        sys.exit(__doc__)
    in_own_network()
    sys.exit(main(sys.argv[1]))
