#!/usr/bin/env python3
"""Random runs at each bound of the headline, and one step beyond it: run.py [BOUND..] [--runs N] [--first N] [--seed S] [--jobs N] [--plant NAME] [--show]

Prints a line for each bound: how many runs there were at it, and how many of them were wrong; then, one step beyond, how many of how many, until ten were.
Where none is known to go wrong there, a fifth as many are tried, and the first step that is known to go wrong follows. With --plant a wrong machine runs at a
bound until it is found ('all': each of them). With --show the first wrong run of each kind is printed, made as short as may be. The status is 0 if all was
right at the bounds, if runs went wrong beyond them (or at that first step), and if planted machines were found; otherwise 1.
"""

import sys
sys.dont_write_bytecode = True  # no __pycache__ beside the sources

import argparse
import gc
from multiprocessing import Pool
from random import Random

from bounds import BOUNDS
from judge import judge
from plants import PLANTS
from shorten import shortest
from world import World

CHUNK = 250  # so many runs are done at a time
ENOUGH = 10  # wrong runs beyond a bound


def made(bound, side, seed, number):
    """A run by its number: the same one each time."""
    return bound.maker(Random(f'{seed} {bound.name} {side} {number}'), bound, getattr(bound, side)).run()


def chunk(work):
    """Which of these runs are wrong. A run leaves no cycles, so that its memory is free without a search for them."""
    gc.disable()
    World.records = False
    name, side, seed, numbers = work
    bound = next(bound for bound in BOUNDS if bound.name == name)
    return len(numbers), [number for number in numbers if judge(made(bound, side, seed, number))]


def count(pool, bound, side, words, enough=None):
    """How many runs were done, in the order of their numbers, and the numbers of the wrong ones; no more than are enough to find so many wrong ones."""
    runs = words.runs or bound.runs
    if side == 'beyond' and bound.far is not None:
        runs = -(-runs // 5)
    numbers = range(words.first, words.first + runs)
    works = ((bound.name, side, words.seed, numbers[place:place + CHUNK]) for place in range(0, runs, CHUNK))
    done, wrong = 0, []
    for number, found in pool.imap(chunk, works):
        done, wrong = done + number, wrong + found
        if enough and len(wrong) >= enough:
            break
    return done, wrong


def workers(words, prepare=None):
    """Processes that make runs, with a wrong machine or none."""
    return Pool(words.jobs, prepare)


def try_bound(bound, words):
    """Runs at a bound and beyond: whether it is as it should be."""
    told, found = [], {}
    for side, title in (('at', ''), ('beyond', ' | one beyond: '), ('far', ' | far: ')):
        if getattr(bound, side) is not None:
            with workers(words) as pool:
                done, found[side] = count(pool, bound, side, words, None if side == 'at' else ENOUGH)
            told.append(f'bound {bound.name}: runs={done} wrong={len(found[side])}' if side == 'at' else f'{title}wrong={len(found[side])} of {done:,}')
    print(f'{"".join(told)} ({bound.about})', flush=True)
    for side, wrong in found.items() if words.show else ():
        if wrong:
            show(bound, side, words.seed, wrong[0])
    return not found['at'] and bool(found.get('far', found['beyond']))


def show(bound, side, seed, number):
    """A wrong run, made as short as may be."""
    world = shortest(made(bound, side, seed, number))
    print(f'run {number} {side} {bound.name}: {judge(world)}')
    for name, event in world.events:
        print(f'  {name}: {" ".join(str(word) for word in event)}')
    for fact in world.log:
        print(f'  log: {" ".join(str(word) for word in fact)}')


def try_plant(name, words):
    """Runs of a wrong machine: whether it is found."""
    machine, where = PLANTS[name]
    bound = next(bound for bound in BOUNDS if bound.name == where)
    with workers(words, machine) as pool:
        done, wrong = count(pool, bound, 'at', words, 1)
    print(f'plant {name}: ' + (f'found in run {wrong[0] + 1:,}' if wrong else f'not found in {done:,} runs') + f' ({machine.__doc__.rstrip(".")})', flush=True)
    return bool(wrong)


def main():
    names = [bound.name for bound in BOUNDS]
    parser = argparse.ArgumentParser(description=__doc__, formatter_class=argparse.RawDescriptionHelpFormatter)
    parser.add_argument('bounds', nargs='*', metavar='BOUND', help=', '.join(names))
    parser.add_argument('--runs', type=int, help='at each bound, and at most beyond it')
    parser.add_argument('--first', type=int, default=0, help='the number of the first run, so that a series can be made in parts')
    parser.add_argument('--seed', default='1')
    parser.add_argument('--jobs', type=int, default=2)
    parser.add_argument('--plant', choices=[*PLANTS, 'all'])
    parser.add_argument('--show', action='store_true')
    words = parser.parse_args()
    unknown = set(words.bounds) - set(names)
    if unknown:
        parser.error(f'no such bound: {", ".join(sorted(unknown))}')
    if words.plant:
        right = [try_plant(name, words) for name in PLANTS if words.plant in (name, 'all')]
    else:
        right = [try_bound(bound, words) for bound in BOUNDS if not words.bounds or bound.name in words.bounds]
    return 0 if all(right) else 1


if __name__ == '__main__':
    sys.exit(main())
