"""Random runs over minutes and hours, directed at critical moments.

What may happen stands in an agenda by real moments. Each thing that happens puts what follows from it there: when a copy arrives (at once, at the end of its
life or beside that), when an end ticks (when a timer is due, at the last moment of an ask or an entry, or beside it), when a client asks again or restarts.
"""

from heapq import heappop, heappush

import client
from server import Rules
from transfer import Abort, ComplexAck, Limits, Request, Settings
from world import MILLION, Node, World

NODES = 3  # nodes 0 and 2 ask node 1 most of the time
MOST_EVENTS = 200


class Walk:
    """One run."""

    def __init__(self, random, bound, setup):
        self.random, self.bound, self.setup = random, bound, setup
        self.is_tight = random.random() < 0.6  # everything happens at critical moments, and in few segments
        self.world = World(setup, [Node(self.settings(), self.rules(), number) for number in range(NODES)])
        self.agenda, self.name, self.serial, self.last_request = [], 0, 0, None
        self.parts = setup.pace.grain * setup.pace.step
        self.asks_left = 2 if self.is_tight else random.choice((2, 3, 4))
        self.loss, self.late, self.repeats, self.prompt = self.draw_network()
        self.manners = self.draw_manners()
        self.begin_agenda()

    # What is drawn.

    def draw_network(self):
        """How often a copy is lost, arrives at the end of its life, arrives once more, and how often a timer is heeded at once."""
        draw = self.random.choice
        if self.is_tight:
            return *draw(((0.3, 0.9), (0.5, 0.4))), draw((0, 0, 0.2)), 0
        return draw((0, 0.1, 0.3, 0.6)), draw((0.1, 0.4)), draw((0, 0.2, 0.5)), draw((0, 0.5, 1))

    def draw_manners(self):
        """How clocks go, by ends: slow, true, fast, or now so and now so; in a tight run all clients slow and all servers fast, or the other way round."""
        draw = self.random
        if self.is_tight and draw.random() < 0.8:
            return draw.choice(((-1, 1), (1, -1))) * NODES
        return [draw.choice((-1, 0, 1, None)) for _ in self.world.ends]

    def settings(self):
        """Any settings of a node."""
        if self.is_tight:
            size = self.random.choice((50, 50, 128)) if 'other settings' in self.bound.happens else 50
            return Settings(Limits(size, True, 100_000), self.random.choice((2, 32)))
        limits = Limits(self.random.choice((50, 50, 128, 206)), self.random.random() < 0.95, self.random.choice((2, 4, 8, 64, 100_000)))
        return Settings(limits, self.random.choice((1, 2, 3, 8, 32, 64)))

    def rules(self):
        """Any rules of a server that remembers requests long enough."""
        least = self.setup.remembers
        return Rules(self.random.random() < 0.5, self.random.choice((None, least, least, least + self.random.choice((1, 1_000, 30_000)))))

    def exact(self):
        """Where a clock may stand when its node begins."""
        return self.random.choice((0, 0, 7, self.world.now // self.parts, 135_001)) * self.parts + self.random.choice((0, 0, self.parts - 1))

    def request(self):
        """A service choice and a text: sometimes those of the ask before. The text says how long it is, and what reply it wants."""
        draw = self.random
        if self.last_request is None or draw.random() < 0.7:
            self.serial += 1
            length = draw.choice((1, 9, 9, 60, 100, 300))
            if self.is_tight:
                length, wanted = 9, draw.choice((9, 60, 60, 60, 100))
            else:
                wanted = draw.choice((1, 2, 3, 20, 48, 60, 100, 300)) if draw.random() < 0.95 else draw.randrange(3, 2_000)
            self.last_request = draw.choice((7, 7, 7, 6, 12, 15)), (self.serial * 100_000 + length - 1) * 100_000 + wanted
        return self.last_request

    def beside(self):
        """A critical moment, or one beside it."""
        return 0 if self.is_tight and self.random.random() < 0.9 else self.random.choice((0, 0, 0, -1, 1))

    # Time.

    def goes(self, place, by):
        """How far the clock of the end in that place goes on."""
        slack = by * self.setup.pace.drift // MILLION
        manner = self.manners[place]
        return by + (self.random.randint(-slack, slack) if manner is None else manner * slack)

    def reach(self, end, exact):
        """The real moment at which an end's clock will be there, in one step."""
        left, manner = exact - end.exact, self.manners[self.world.ends.index(end)] or 0
        if left <= 0:
            return self.world.now
        drift = self.setup.pace.drift
        by = max(left * MILLION // (MILLION + manner * drift) - 2, 0)
        while by + manner * (by * drift // MILLION) < left:
            by += 1
        return self.world.now + by

    def first(self, end, shows):
        """The first real moment at which it shows so much."""
        return self.reach(end, -(-shows // self.setup.pace.step) * self.parts)

    def last(self, end, shows):
        """The last real moment at which it shows no more than that."""
        return self.reach(end, (shows // self.setup.pace.step + 1) * self.parts) - 1

    # The agenda.

    def at(self, moment, action, *words):
        heappush(self.agenda, (moment, self.random.random(), action, words))

    def do(self, *event):
        """An event happens, and copies that it sent will arrive, or not."""
        self.name += 1
        answer = self.world.do(self.name, event)
        for name in self.world.names:
            self.follow_copy(name)
        return answer

    def run(self):
        """The run, to its end."""
        while self.agenda and self.name < MOST_EVENTS:
            moment, _, action, words = heappop(self.agenda)
            by = moment - self.world.now
            if by > 0:
                self.do('advance', by, tuple(self.goes(place, by) for place in range(2 * NODES)))
            action(*words)
        return self.world

    def begin_agenda(self):
        """How a run begins."""
        draw, happens = self.random, self.bound.happens
        for number in range(NODES):
            self.do('begin', number, self.exact())
            if 'late starts' in happens and draw.random() < 0.5:
                self.at(draw.choice((3_000, 65_001, 100_000)) * self.setup.pace.grain, self.do, 'begin', number, self.exact())
        start = draw.choice((0, 0, self.parts - 1, 2_000 * self.parts))
        self.at(start, self.ask, (0, 1, 0))
        for _ in range(draw.choice((0, 0, 0, 1) if self.is_tight else (0, 1, 2))):
            self.at(draw.choice((start, draw.randrange(150_000) * self.parts)), self.other)

    def other(self):
        """Something beside the ask that the run is about: a node's own change, another's ask, an ask of a stranger, or noise that is any APDU of a stranger."""
        draw = self.random
        word = draw.randrange(5)
        if word == 0:
            self.do('change', draw.choice((1, 1, 0)), draw.randrange(100))
        elif word == 1:
            self.ask(draw.choice(((2, 1, 0), (1, 0, 0), (0, 1, 1), (0, 2, 0))))
        elif word == 2:
            self.ask((0, -1, 0))
        elif self.world.copies:
            _, _, apdu, _ = draw.choice(list(self.world.copies.values()))
            self.do('stray', draw.choice(((-1, 1, 0), (-2, 1, 0), (0, -1, 0))), draw.random() < 0.9, draw.choice((apdu, Abort(True, 0), Abort(False, 0))))

    # Copies.

    def age(self):
        """At what age a copy arrives."""
        draw, life = self.random.random(), self.setup.pace.life
        if draw < self.late and not self.is_prompt():
            return life + self.beside()
        return self.random.randrange(life + 1) if draw > 0.9 else 0

    def is_prompt(self):
        """A copy arrives at once: in a tight run so do most of those after an ask that is not the first of its transaction."""
        return self.is_tight and len(self.world.numbers) < self.world.asks and self.random.random() < 0.8

    def follow_copy(self, name):
        """When a copy arrives: never, once, or more often."""
        if self.random.random() < self.loss and not self.is_prompt():
            return
        self.at(self.world.now + self.age(), self.deliver, name)
        while self.random.random() < self.repeats:
            self.at(self.world.now + self.age(), self.deliver, name)

    def deliver(self, name):
        """A copy arrives; what it begins or moves will tick."""
        key, _, apdu, _ = self.world.copies[name]
        self.do('deliver', name, self.random.random() < 0.97)
        if type(apdu) is Request:
            self.follow_entry(key)
        elif type(apdu) is ComplexAck:
            self.follow_ticket(key)

    # Entries.

    def follow_entry(self, key):
        """When the entry of a request that came just now ticks, and its server restarts."""
        end = self.world.nodes[key[1]].server
        e = end.table.get((key[0], key[2]))
        if e is None:
            return
        if self.random.random() < self.prompt and e.state in ('segmented request', 'segmented response'):
            wait = self.setup.times.more if e.inc else self.setup.times.segment
            self.at(self.first(end, e.since + wait) + self.beside(), self.do, 'tick_server', key[1])
        if e.begin == end.now:
            self.at(self.last(end, e.begin + self.setup.times.keep) + self.beside(), self.do, 'tick_server', key[1])
            if 'server restarts' in self.bound.happens and self.random.random() < 0.4:
                after = self.random.choice((0, 0, 1, 5_000 * self.parts, self.random.randrange(70_000 * self.parts)))
                self.at(self.world.now + after, self.restart_server, key[1])

    def restart_server(self, number):
        """A server restarts, and requests on their way may come when it begins entries again."""
        draw, world = self.random, self.world
        node = world.nodes[number]
        settings, rules = (self.settings(), self.rules()) if 'other settings' in self.bound.happens else (node.server.settings, node.rules)
        self.do('restart_server', number, self.exact(), settings, rules, draw.choice((None, None, 12_345)))
        opens = self.first(node.server, node.server.opens)
        for name, (_, moment, apdu, _) in world.copies.items():
            if moment + self.setup.pace.life >= opens and type(apdu) is Request:
                self.at(opens + self.beside(), self.deliver, name)
        self.at(opens + self.beside(), self.come_again, number)

    def come_again(self, number):
        """Young requests to a server come again."""
        for name, (key, moment, apdu, _) in list(self.world.copies.items()):
            if key[1] == number and type(apdu) is Request and self.world.now - moment <= self.setup.pace.life:
                self.deliver(name)

    # Tickets.

    def ask(self, key):
        """A client asks, if it may, and will ask again, end or restart."""
        if self.asks_left == 0:
            return
        size = self.world.nodes[key[1]].server.settings.limits.apdu if key[1] >= 0 else 50
        if not self.do('ask', key, *self.request(), self.random.choice((size, size, 50))):
            return
        self.asks_left -= 1
        end, times, draw = self.world.nodes[key[0]].client, self.setup.times, self.random
        t = end.table[key[1:]]
        self.follow_ticket(key)
        if draw.random() < 0.7:
            self.at(self.last(end, t.first + times.deadline) + self.beside(), self.do, 'tick_client', key[0])
        self.at(self.first(end, t.first + times.hold + 1) + self.beside(), self.ask, key)
        if draw.random() < 0.3:
            self.at(self.world.now + draw.choice((1, 3_000, 70_000, draw.randrange(135_000))) * self.parts, self.ask, key)
        if 'client restarts' in self.bound.happens and draw.random() < 0.6:
            ends = (self.world.now, self.last(end, t.first + times.deadline), self.world.now + draw.randrange(140_000 * self.parts))
            self.at(draw.choice(ends), self.restart_client, key)
        if 'other clients' in self.bound.happens and key[1] >= 0:
            self.at(self.world.quiet_at(key[0]) + self.beside(), self.begin_again, key)

    def follow_ticket(self, key):
        """When a ticket's timer is heeded."""
        end = self.world.nodes[key[0]].client
        t = end.table.get(key[1:])
        if t is not None and t.phase != 'idle' and self.random.random() < self.prompt:
            self.at(self.first(end, client.due(self.setup.times, t)) + self.beside(), self.tick_client, key)

    def tick_client(self, key):
        self.do('tick_client', key[0])
        self.follow_ticket(key)

    def client_settings(self, key):
        """The settings of the next client at a node."""
        return self.settings() if 'other settings' in self.bound.happens else self.world.nodes[key[0]].client.settings

    def restart_client(self, key):
        """A client restarts; it asks again, or another begins in its place."""
        self.do('restart_client', key[0], self.exact(), self.client_settings(key))
        end = self.world.nodes[key[0]].client
        self.at(self.first(end, end.opens) + self.beside(), self.ask, key)
        if 'other clients' in self.bound.happens:
            self.at(self.world.quiet_at(key[0]) + self.beside(), self.begin_again, key)

    def begin_again(self, key):
        """Another client begins at a node, if it may, and asks."""
        if self.world.now >= self.world.quiet_at(key[0]):
            self.do('begin_again', key[0], self.exact(), self.client_settings(key))
            self.at(self.world.now, self.ask, key)
