#!/usr/bin/env python3
"""Prints the frames with which `bac answer` answers datagrams, as a table for compare.py: answers.py PROGRAM FILE.."""

import subprocess
import sys
sys.dont_write_bytecode = True  # no __pycache__ beside the sources

from concurrent.futures import ThreadPoolExecutor

from readings import read_datagrams


def frames(program, datagram):
    done = subprocess.run([program, 'answer', datagram], check=True, capture_output=True, text=True, timeout=60)
    return [line for line in done.stdout.splitlines() if line != 'none']


def main(words):
    datagrams, _ = read_datagrams(words[1:])
    with ThreadPoolExecutor(4) as pool:
        for datagram, answers in zip(datagrams, pool.map(lambda text: frames(words[0], text), datagrams)):
            for frame in answers:
                print(f'{frame}\tanswers {datagram}')


if __name__ == '__main__':
    main(sys.argv[1:])
