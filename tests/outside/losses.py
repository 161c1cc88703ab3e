#!/usr/bin/env python3
"""200 appends over a network that drops, repeats, delays and reorders datagrams: losses.py PROGRAM SEED

Eight processes of `bac serve`, with 25 appends each by processes of `bac ask`, all through a proxy. Each append has a number and octets of its own. At the
end each file is read: no append may be in it twice, or in part, and each that was answered has to be at the position of its answer.
"""

import sys
sys.dont_write_bytecode = True  # no __pycache__ beside the sources

from concurrent.futures import ThreadPoolExecutor
from dataclasses import dataclass, field

from processes import Server, ask
from proxy import Network

SERVERS = 8
APPENDS = 25
LOOK_EVERY = 5  # after so many appends the file is read through the network
LONG_EVERY = 5  # one of so many appends needs segments
LONG, SHORT = 3000, 8
OPENING = b'OK'  # what the file has at first
TURNS = 20000
FILE = '10:1'
WHOLE = ['get', FILE, '0', '60000']


def append_of(number):
    """The octets of an append: its number, its length, and octets that no other append has in this order."""
    length = LONG if number % LONG_EVERY == 0 else SHORT
    return number.to_bytes(2, 'big') + length.to_bytes(2, 'big') + bytes((number * 7 + place) % 251 for place in range(length))


@dataclass
class Story:
    """What happened at one server."""

    ends: dict = field(default_factory=dict)  # the line of each append, by its number
    looks: list = field(default_factory=list)  # the lines of reads through the network
    file: bytes = b''
    found: dict = field(default_factory=dict)  # the positions of each append in it, by its number
    performed: int = 0
    wrong: list = field(default_factory=list)


def octets_of(line):
    """The octets of a file that was read to its end, or None for another end of the ask."""
    if not line.startswith('answered file '):
        return None
    words = line.removeprefix('answered file ').split(' ')
    if words[:2] != ['1', '0']:
        raise SystemExit(f'a whole file was asked for: {line[:60]}')
    return bytes.fromhex(words[2])


def run(program, network, server_number):
    """The asks of one server, one after the other."""
    story = Story()
    with Server(program, TURNS) as server:
        for number in range(server_number * APPENDS, (server_number + 1) * APPENDS):
            with network.route(server.port, number) as port:
                story.ends[number] = ask(program, port, ['append', FILE, append_of(number).hex()])
            if number % LOOK_EVERY == LOOK_EVERY - 1:
                with network.route(server.port, number + SERVERS * APPENDS) as port:
                    story.looks.append(ask(program, port, WHOLE))
        network.wait_until_empty()
        story.file = octets_of(ask(program, server.port, WHOLE)) or b''
        story.performed = server.finish()
    judge(story)
    return story


def appends_in(story):
    """The positions of each append in the file, by its number."""
    found, at = {}, len(OPENING)
    if not story.file.startswith(OPENING):
        story.wrong.append('the file has lost its front')
    while at < len(story.file):
        number = int.from_bytes(story.file[at:at + 2], 'big')
        octets = append_of(number)
        if number not in story.ends or story.file[at:at + len(octets)] != octets:
            story.wrong.append(f'octets of no append at {at}')
            break
        found.setdefault(number, []).append(at)
        at += len(octets)
    return found


def judge_appends(story):
    """Finds the appends; each that was answered has to be at the position of its answer."""
    story.found = appends_in(story)
    for number, line in story.ends.items():
        places = story.found.get(number, [])
        if line.startswith('answered') and line not in [f'answered position {place}' for place in places]:
            story.wrong.append(f'append {number}: {line}, and found at {places}')


def judge(story):
    judge_appends(story)
    story.wrong += [f'append {number} twice' for number, places in story.found.items() if len(places) > 1]
    looks = [octets_of(line) for line in story.looks]
    for octets in looks:
        if octets is not None and not story.file.startswith(octets):
            story.wrong.append('a read gave octets that the file never had')
    # the last read was performed, and each that was answered
    answered = len(story.found) + 1 + sum(octets is not None for octets in looks)
    unanswered = sum(octets is None for octets in looks)
    if not answered <= story.performed <= answered + unanswered:
        story.wrong.append(f'served {story.performed}, where {answered} were seen, and {unanswered} asks not answered')


def counts(lines):
    """How often each ending came, without what was answered."""
    kinds = [' '.join(line.split(' ')[:2]) if line.startswith('answered') else line for line in lines]
    return ', '.join(f'{kinds.count(kind)} {kind}' for kind in sorted(set(kinds)))


def main(words):
    program, seed = words[0], int(words[1])
    with Network(seed) as network, ThreadPoolExecutor(SERVERS) as pool:
        stories = list(pool.map(lambda number: run(program, network, number), range(SERVERS)))
    ends = [line for story in stories for line in story.ends.values()]
    print(f'appends: {counts(ends)}')
    print(f'reads through the network: {counts([line for story in stories for line in story.looks])}')
    print(f'found in files: {sum(len(story.found) for story in stories)} appends, {sum(len(story.file) for story in stories)} octets')
    print(f'performed by the servers: {sum(story.performed for story in stories)} requests')
    print(f'network: {network.summary()}')
    wrong = [text for story in stories for text in story.wrong]
    for text in wrong:
        print(f'WRONG: {text}')
    print(f'{len(wrong)} wrong')
    return 1 if wrong or len(ends) != SERVERS * APPENDS else 0


if __name__ == '__main__':
    sys.exit(main(sys.argv[1:]))
