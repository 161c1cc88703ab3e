#!/usr/bin/env python3
"""200 appends over a bad network, to servers that are killed and started again: restarts.py PROGRAM SEED [forgetful]

Eight processes of `bac serve`, with 25 appends each by processes of `bac ask`, all through a proxy. While the tenth append of each is under way, and each
answer to it is lost, its server is killed, and started again with `--restarted` and, by `--objects`, the file that it had. Asks go on at once, and are turned
away; 65 seconds later they are performed again. At the end each file is read: no append may be in it twice, or in part, and each that was answered has to be
at the position of its answer.

With `forgetful` the servers are started again without `--restarted`: then some append has to be found twice, which shows that it would be seen.
"""

import sys
sys.dont_write_bytecode = True  # no __pycache__ beside the sources

import random
import tempfile
import threading
import time
from concurrent.futures import ThreadPoolExecutor
from contextlib import ExitStack, contextmanager
from pathlib import Path

from losses import APPENDS, FILE, SERVERS, TURNS, WHOLE, Story, append_of, counts, judge_appends, octets_of
from processes import Server, ask
from proxy import Network

KILLED_AT = 9  # the tenth append is under way when its server is killed
TURNED_AWAY = 5  # so many appends are asked while the server waits
WAITS = 65.1  # how long it does, in seconds
SAYS = 'serving from 65001\n'  # and what it says, counted from its start
HOUSE_FILE = 'file = { text = "OK"'


def document(house, octets):
    """The house whose file has these octets."""
    if house.count(HOUSE_FILE) != 1:
        raise SystemExit('docs/house.toml: no such file')
    return house.replace(HOUSE_FILE, f'file = {{ hex = "{octets.hex()}"')


@contextmanager
def restarted(program, network, server, folder, house, options):
    """While nothing comes to the server, its file is read; it is killed, and another one with that file is at its port."""
    with ExitStack() as runs:
        with network.held(server.port):
            octets = octets_of(ask(program, server.port, WHOLE))
            if octets is None:
                raise SystemExit('the file was not read')
            path = Path(folder) / f'{server.port}.toml'
            path.write_text(document(house, octets))
            server.process.kill()
            server.process.wait()
            said = SAYS if options else ''
            again = runs.enter_context(Server(program, TURNS, server.port, [*options, '--objects', str(path)], said))
        yield again


def run(program, network, server_number, folder, house, options):
    """The asks of one server, one after the other."""
    story, draws = Story(), random.Random(f'{network.seed} restart {server_number}')
    first = server_number * APPENDS
    with Server(program, TURNS) as server:

        def append(number):
            with network.route(server.port, number) as port:
                story.ends[number] = ask(program, port, ['append', FILE, append_of(number).hex()])

        for number in range(first, first + KILLED_AT):
            append(number)
        under_way = threading.Thread(target=append, args=(first + KILLED_AT,))
        with ExitStack() as runs:
            with network.silent(server.port):
                under_way.start()
                time.sleep(draws.random() * 3)
                serving = runs.enter_context(restarted(program, network, server, folder, house, options))
            began = time.monotonic()
            under_way.join()
            for number in range(first + KILLED_AT + 1, first + KILLED_AT + 1 + TURNED_AWAY):
                append(number)
            time.sleep(max(0, began + WAITS - time.monotonic()))
            for number in range(first + KILLED_AT + 1 + TURNED_AWAY, first + APPENDS):
                append(number)
            network.wait_until_empty()
            story.file = octets_of(ask(program, serving.port, WHOLE)) or b''
            story.performed = serving.finish()
    judge_appends(story)
    return story


def main(words):
    program, seed = words[0], int(words[1])
    options = [] if 'forgetful' in words else ['--restarted']
    house = Path('docs/house.toml').read_text()
    with Network(seed) as network, tempfile.TemporaryDirectory() as folder, ThreadPoolExecutor(SERVERS) as pool:
        stories = list(pool.map(lambda number: run(program, network, number, folder, house, options), range(SERVERS)))
    ends = [line for story in stories for line in story.ends.values()]
    twice = [number for story in stories for number, places in story.found.items() if len(places) > 1]
    print(f'appends: {counts(ends)}')
    print(f'found in files: {sum(len(story.found) for story in stories)} appends, {len(twice)} of them twice, {sum(len(story.file) for story in stories)} octets')
    print(f'performed by the servers that were started again: {sum(story.performed for story in stories)} requests')
    print(f'network: {network.summary()}')
    wrong = [text for story in stories for text in story.wrong]
    if options:
        wrong += [f'append {number} is there twice' for number in twice]
    elif not twice:
        wrong.append('no append was found twice')
    for text in wrong:
        print(f'WRONG: {text}')
    print(f'{len(wrong)} wrong')
    return 1 if wrong or len(ends) != SERVERS * APPENDS else 0


if __name__ == '__main__':
    sys.exit(main(sys.argv[1:]))
