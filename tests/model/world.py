"""Nodes with their clocks, the network between them, and the log, as World, Pace and Log of crates/bac_protocol/specs state them.

Each event has a name of its own, and a copy is named by the event that sent it and its place there: so events may be left out of a run and the others keep
their meaning. An APDU carries no invoke ID here, since a copy has its transaction: (client, server, invoke ID). A stranger is a negative number. Octets that
mean no APDU change nothing, so there are none here.
"""

from collections import Counter
from typing import Callable, NamedTuple, Optional

import client
import server
from transfer import ComplexAck, READS, Request, SegmentAck, Settings, is_from_client, length_of, pieces_of

MILLION = 1_000_000


class Times(NamedTuple):
    """The constants of time, in milliseconds."""

    answer: int = 3_000
    segment: int = 2_000
    more: int = 8_000
    deadline: int = 60_000
    keep: int = 65_000
    hold: int = 135_000
    server_waits: int = 65_000
    client_waits: int = 75_000


class Pace(NamedTuple):
    """So many parts are a millisecond, of which a clock shows multiples of `step`; its drift in parts in a million; the life of a copy in parts."""

    grain: int = 1
    drift: int = 0
    life: int = 5_000
    step: int = 1

    def most(self, milliseconds):
        """The most real time that passes while a clock shows no more than that to have passed."""
        parts = self.grain * self.step
        return MILLION * (parts * (milliseconds // self.step) + parts - 1) // (MILLION - self.drift)

    def least(self, milliseconds):
        """While no more than this passes, no clock shows more than that to have passed."""
        return (MILLION * (self.grain * self.step * (milliseconds // self.step) + 1) - 1) // (MILLION + self.drift)


def greatest_overtake(window):
    """How many later copies of its transaction may overtake one, where windows are so great."""
    return 255 - 2 * window


class Setup(NamedTuple):
    """What never changes in a run. Transactions whose transfers have at most `short` pieces know no limit on overtaking."""

    times: Times = Times()
    pace: Pace = Pace()
    window: int = 64  # the greatest of all nodes
    overtake: Callable[[int], int] = greatest_overtake
    short: int = 256
    quiet_less: int = 0  # another client begins so many parts of real time too soon
    guards_begin: bool = True  # a node that asked or served does not begin
    remembers: int = 65_000  # no server remembers a request for less, in milliseconds


class End:
    """A node's client or its server: its clock, its settings, its table, and the first moment at which it asks, or begins entries.

    A machine reads its settings, what its clock shows now, and the times of the run, which its world tells it.
    """

    __slots__ = ('settings', 'times', 'exact', 'now', 'opens', 'table', 'acted')

    def __init__(self, settings):
        self.settings, self.exact, self.now, self.opens, self.table, self.acted = settings, 0, 0, 0, {}, False


class Node:
    """A node: its two ends, the rules of its server, its store, and the moment from which its client sends no more for its asks so far."""

    def __init__(self, settings, rules, store):
        self.client, self.server = End(settings), End(settings)
        self.rules, self.store, self.sends_until = rules, store, 0

    def service(self, choice, octets):
        """What the store says to a request."""
        return outcome(self.store, choice, octets)


def outcome(store, choice, octets):
    """What a store says to a request. A text's number tells how long a reply it wants (1: an Error, 2: a Reject), and whether that depends on the store."""
    serial, wanted = octets[0][0] // 10**10, octets[0][0] % 100_000
    if wanted == 2:
        return 'rejected', 9
    if wanted == 1:
        return 'error', store % 97
    if choice == 15:
        return ('simple',)
    return 'complex', ((hash((store, octets)), 0, wanted + (50 if serial % 2 == 0 and store % 2 else 0)),)


def after(store, choice, octets):
    """The store after a performed request."""
    return store if choice in READS or octets[0][0] % 100_000 == 1 else hash((store, choice, octets))


def table_key(key):
    """By what a server's table knows a transaction: its peer and its invoke ID."""
    return key[0], key[2]


class World:
    """The whole. A copy is (key, moment, apdu, place): its transaction, when it was sent, and how many of its transaction were sent before."""

    records = True  # its events, which only runs that are shown need

    def __init__(self, setup, nodes):
        self.setup, self.nodes, self.overtake = setup, nodes, setup.overtake(setup.window)
        self.beginning = [(node.client.settings, node.rules, node.store) for node in nodes]
        self.ends = [end for node in nodes for end in (node.client, node.server)]
        for end in self.ends:
            end.times = setup.times
        self.life, self.short = setup.pace.life, setup.short
        self.now, self.asks, self.log, self.events = 0, 0, [], []
        self.copies, self.sent, self.numbers, self.pieces = {}, Counter(), {}, Counter()
        self.name, self.names = None, []  # of the event, and of the copies that it sent

    def do(self, name, event):
        """An event happens: its word and what it says."""
        self.name, self.names = name, []
        if self.records:
            self.events.append((name, event))
        return getattr(self, event[0])(*event[1:])

    def post(self, key, apdus):
        """Copies are sent; what goes to a stranger is not followed."""
        if not apdus or key[0] < 0 or key[1] < 0:
            return
        event, now, names, copies, before = self.name, self.now, self.names, self.copies, self.sent[key]
        self.sent[key] = before + len(apdus)
        for place, apdu in enumerate(apdus, before):
            name = event, len(names)
            names.append(name)
            copies[name] = key, now, apdu, place

    def is_deliverable(self, copy):
        """A copy may arrive while it is young and, in a transaction with long transfers, not overtaken by too many."""
        key, moment, _, place = copy
        return self.now - moment <= self.life and (self.pieces[key] <= self.short or self.sent[key] - place - 1 <= self.overtake)

    # Asks.

    def is_id_held(self, key):
        """The client can't ask under that key: it waits, or holds the invoke ID."""
        end = self.nodes[key[0]].client
        t = end.table.get(key[1:])
        return end.now < end.opens or t is not None and client.is_held(end, t)

    def ask(self, key, choice, text, size):
        """A node asks another, or a stranger, in APDUs of that size at the most. Refused where the invoke ID is held."""
        if self.is_id_held(key):
            return False
        node, is_away = self.nodes[key[0]], key[1] < 0
        end, octets = node.client, ((text, 0, 1 + text // 100_000 % 100_000),)
        size = min(size, end.settings.limits.apdu)
        pieces = None if length_of(octets) + 4 <= size else pieces_of(octets, size - 6)
        end.acted = True
        self.log.append(('asked away', self.asks) if is_away else ('asked', self.asks, key, (choice, octets)))
        if not is_away:
            node.sends_until = self.now + self.setup.pace.most(self.setup.times.deadline) + 1
            self.numbers[key], self.pieces[key] = self.asks, len(pieces or [0])
        end.table[key[1:]] = t = client.Ticket(self.asks, end.now, choice, octets, pieces)
        self.asks += 1
        self.client_acts(key, t, client.asks(end, t))
        return True

    def client_acts(self, key, t, reaction):
        sends, how = reaction
        if sends:
            self.post(key, sends)
        if how:
            self.log.append(('ended' if key[1] >= 0 else 'ended away', t.number, how))

    # APDUs.

    def deliver(self, name, free):
        """The copy of that name arrives, if it may; `free` says whether the server has a slot for an entry."""
        copy = self.copies.get(name)
        if copy is None or not self.is_deliverable(copy):
            return
        key, _, apdu, _ = copy
        if is_from_client(apdu):
            self.server_hears(key, free, apdu)
        else:
            self.client_hears(key, apdu)

    def receiver(self, name):
        """The end, and its ticket or entry, that would take the segment of that name now as its next one, and how many it would take without an answer."""
        key, _, apdu, _ = copy = self.copies[name]
        end = self.nodes[key[1]].server if is_from_client(apdu) else self.nodes[key[0]].client
        if type(apdu) is Request:
            taker = server.reassembles(end, end.table.get(table_key(key)))
        elif type(apdu) is ComplexAck:
            taker = client.reassembles(end, end.table.get(key[1:]), apdu)
        else:
            taker = None
        segment = apdu.segment if taker is not None else None
        if segment is None or not taker.inc.is_expected(segment.number) or not self.is_deliverable(copy):
            return None, None, 0
        return end, taker, taker.inc.room(apdu.octets)

    def is_ignored(self, name):
        """Whether the copy of that name is a SegmentACK that would change nothing."""
        key, _, apdu, _ = self.copies[name]
        if type(apdu) is not SegmentAck:
            return False
        if apdu.by_server:
            end = self.nodes[key[0]].client
            return client.ignores(end, end.table[key[1:]], apdu)
        node = self.nodes[key[1]]
        return server.ignores(node.server, node.rules, node.server.table.get(table_key(key)), apdu)

    def note_delivered(self, name, names):
        """These copies arrived one after the other, by events from that name on."""
        if self.records:
            self.events += [(name + ahead, ('deliver', copy, True)) for ahead, copy in enumerate(names)]

    def deliver_taken(self, name, end, taker, names):
        """Segments arrive, and this receiver takes all of them without an answer."""
        self.note_delivered(name, names)
        taker.inc.takes_row([self.copies[copy][2].octets for copy in names])
        taker.since = end.now

    def deliver_refused(self, name, answer, names):
        """Segments arrive that are not expected, right after such a one, and each gets the same answer: the names of the answers."""
        self.note_delivered(name, names)
        key, _, _, _ = self.copies[names[0]]
        now, copies, before = self.now, self.copies, self.sent[key]
        sent = [(name + ahead, 0) for ahead in range(len(names))]
        for place, copy in enumerate(sent, before):
            copies[copy] = key, now, answer, place
        self.sent[key] = before + len(sent)
        return sent

    def stray(self, key, free, apdu):
        """A stranger sends any APDU to a node: to its server as a client, to its client as a server."""
        if key[0] < 0 and is_from_client(apdu):
            self.server_hears(key, free, apdu)
        elif key[1] < 0 and not is_from_client(apdu):
            self.client_hears(key, apdu)

    def client_hears(self, key, apdu):
        end = self.nodes[key[0]].client
        t = end.table.get(key[1:])
        if t is not None:
            self.client_acts(key, t, client.hears(end, t, apdu))

    def server_hears(self, key, free, apdu):
        node = self.nodes[key[1]]
        end, place = node.server, table_key(key)
        end.acted = True
        may_begin = free and end.now >= end.opens
        before = end.table.get(place)
        e, sends, effect = server.hears(end, node.rules, node.service, before, may_begin, apdu)
        if e is not before:
            end.table[place] = e
        if sends:
            self.post(key, sends)
        if e is not None and e.out is not None and len(e.out.segments) > self.pieces[key]:
            self.pieces[key] = len(e.out.segments)
        if effect:
            choice, octets, reply = effect
            node.store = after(node.store, choice, octets)
            said = ('served', key[1]) if key[0] < 0 else ('performed', self.numbers.get(key))
            self.log.append((*said, (choice, octets), reply))

    # Ticks and time.

    def tick_client(self, number):
        end = self.nodes[number].client
        for place in sorted(end.table):
            t = end.table[place]
            self.client_acts((number, *place), t, client.ticks(end, t))

    def tick_server(self, number):
        end = self.nodes[number].server
        for peer, invoke_id in sorted(end.table):
            e = end.table[peer, invoke_id]
            if e is not None:
                end.acted = True
                self.post((peer, number, invoke_id), server.ticks(end, e))

    def shown(self, exact):
        """What a clock shows, in milliseconds."""
        pace = self.setup.pace
        return exact // (pace.grain * pace.step) * pace.step

    def advance(self, by, owns):
        """Real time passes, and each end's clock goes on as far as it likes, within its pace."""
        slack = by * self.setup.pace.drift // MILLION
        self.now += by
        for end, own in zip(self.ends, owns):
            end.exact += min(max(own, by - slack), by + slack)
            end.now = self.shown(end.exact)

    # What an operator does.

    def change(self, number, change):
        """A node's store changes at the node itself."""
        node = self.nodes[number]
        node.store = hash((node.store, change))
        self.log.append(('changed', number, change))

    def set_clock(self, end, exact):
        end.exact, end.now = exact, self.shown(exact)

    def client_anew(self, node, exact, settings):
        self.set_clock(node.client, exact)
        node.client.table, node.client.settings, node.client.acted = {}, settings, True

    def restart_client(self, number, exact, settings):
        """A node's client restarts: its tickets are lost, and it asks nothing for REST."""
        node = self.nodes[number]
        self.client_anew(node, exact, settings)
        node.sends_until = min(node.sends_until, self.now + 1)
        node.client.opens = node.client.now + self.setup.times.client_waits + 1

    def restart_server(self, number, exact, settings, rules, store: Optional[int]):
        """A node's server restarts, with the store that it had or another one: its entries are lost, and it begins none for KEEP."""
        node, end = self.nodes[number], self.nodes[number].server
        self.set_clock(end, exact)
        end.table, end.settings, end.acted, node.rules = {}, settings, True, rules
        end.opens = end.now + self.setup.times.server_waits + 1
        node.store = node.store if store is None else store
        self.log.append(('restarted', number, store, rules.fresh))

    def begin(self, number, exact):
        """A node that neither asked nor served so far begins, with a clock at any value."""
        node = self.nodes[number]
        if self.setup.guards_begin and (node.client.acted or node.server.acted):
            return
        self.set_clock(node.client, exact)
        self.set_clock(node.server, exact)

    def quiet_at(self, number):
        """The real moment from which all is over that a node's client sent."""
        pace = self.setup.pace
        return self.nodes[number].sends_until + pace.life + pace.most(self.setup.times.keep) + pace.life - self.setup.quiet_less

    def begin_again(self, number, exact, settings):
        """Another client begins at a node once it is quiet, and with it the node's server, where that never served."""
        node = self.nodes[number]
        if self.now < self.quiet_at(number):
            return
        self.client_anew(node, exact, settings)
        node.client.opens = 0
        if not node.server.acted:
            self.set_clock(node.server, exact)
