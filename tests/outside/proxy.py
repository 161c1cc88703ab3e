"""A network on this machine that drops, repeats, delays and reorders UDP datagrams, by a seed."""

import heapq
import random
import selectors
import socket
import threading
import time
from contextlib import contextmanager
from itertools import count

from processes import LOOPBACK

DROPPED = 0.15
REPEATED = 0.15
# how likely a copy is delayed by at most so many seconds; all are younger than the 5 seconds in which a copy can still be delivered
DELAYS = [(0.5, 0.005), (0.8, 0.1), (0.95, 0.8), (1.0, 4.0)]

LIFE = 4.9  # seconds; 5 are the age at which a copy is lost


class Route:
    """The way between one client and a server: a socket that the client sends to, and one by which the server sees it."""

    def __init__(self, server, draws):
        self.server, self.client, self.draws = (LOOPBACK, server), None, draws
        self.front, self.back = bound_socket(), bound_socket()


def bound_socket():
    opened = socket.socket(socket.AF_INET, socket.SOCK_DGRAM)
    opened.bind((LOOPBACK, 0))
    opened.setblocking(False)
    return opened


class Network:
    """Routes, and the copies that are under way on them. What becomes of a route's datagrams depends on the seed and the route's number alone."""

    def __init__(self, seed):
        self.seed, self.order, self.under_way, self.held_back = seed, count(), [], set()
        self.unheard = set()
        self.selector, self.lock, self.ended = selectors.DefaultSelector(), threading.Lock(), False
        self.counts = {'came': 0, 'dropped': 0, 'repeated': 0, 'late': 0, 'overtaken': 0}
        self.thread = threading.Thread(target=self.carry)

    def __enter__(self):
        self.thread.start()
        return self

    def __exit__(self, *_):
        self.ended = True
        self.thread.join()
        for key in list(self.selector.get_map().values()):
            key.fileobj.close()
        self.selector.close()

    @contextmanager
    def route(self, server, number):
        """The port of a way to a server. Copies that are under way may still come after its end: its sockets are closed with the network."""
        made = Route(server, random.Random(f'{self.seed} {number}'))
        with self.lock:
            self.selector.register(made.front, selectors.EVENT_READ, (made, made.front))
            self.selector.register(made.back, selectors.EVENT_READ, (made, made.back))
        yield made.front.getsockname()[1]

    @contextmanager
    def held(self, server):
        """Meanwhile nothing comes from or to that server: it waits, and is lost where it gets too old."""
        with self.lock:
            self.held_back.add(server)
        try:
            yield
        finally:
            with self.lock:
                self.held_back.remove(server)

    @contextmanager
    def silent(self, server):
        """Meanwhile all that the server sends is lost."""
        with self.lock:
            self.unheard.add(server)
        try:
            yield
        finally:
            with self.lock:
                self.unheard.remove(server)

    def wait_until_empty(self):
        """Waits until all copies that are under way now have come."""
        time.sleep(DELAYS[-1][1] + 0.5)

    def carry(self):
        while not self.ended:
            with self.lock:
                for key, _ in self.selector.select(0.002):
                    self.take(*key.data)
                self.hand_over(time.monotonic())
            time.sleep(0.0005)

    def take(self, route, taken):
        """A datagram has come to a socket of a route: its copies are under way to the other end."""
        octets, sender = taken.recvfrom(65535)
        if taken is route.front:
            route.client = sender
        self.counts['came'] += 1
        is_lost = taken is route.back and route.server[1] in self.unheard
        if route.draws.random() < DROPPED or is_lost:
            self.counts['dropped'] += 1
            return
        self.start(route, taken is route.front, octets)
        while route.draws.random() < REPEATED:
            self.counts['repeated'] += 1
            self.start(route, taken is route.front, octets)

    def start(self, route, is_request, octets):
        draw = route.draws.random()
        most = next(seconds for share, seconds in DELAYS if draw < share)
        delay = route.draws.random() * most
        self.counts['late'] += delay > 0.5
        due = time.monotonic() + delay
        number = next(self.order)
        self.counts['overtaken'] += any(other[0] > due and other[2:4] == (route, is_request) for other in self.under_way)
        heapq.heappush(self.under_way, (due, number, route, is_request, octets, time.monotonic()))

    def hand_over(self, now):
        """Sends the copies that are due, but those of servers that are held back and those that are too old."""
        waiting = []
        while self.under_way and self.under_way[0][0] <= now:
            copy = heapq.heappop(self.under_way)
            _, _, route, is_request, octets, born = copy
            if route.server[1] in self.held_back:
                waiting.append(copy)
            elif now - born > LIFE:
                self.counts['dropped'] += 1
            elif is_request:
                route.back.sendto(octets, route.server)
            else:
                route.front.sendto(octets, route.client)
        for copy in waiting:
            heapq.heappush(self.under_way, copy)

    def summary(self):
        words = {'came': 'datagrams came', 'late': 'copies later than 0.5 s', 'overtaken': 'copies overtook an earlier one'}
        return ', '.join(f'{number} {words.get(name, name)}' for name, number in self.counts.items())
