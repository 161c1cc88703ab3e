"""Random runs of long transfers in segments, directed at numbers modulo 256 that could be misread.

One ask, whose request or reply has some hundred pieces. Copies arrive mostly in order, and some come again, late, or never. An adversary knows which piece an
old copy is of, and lets it arrive where its number would be taken for another's.
"""

from collections import deque

import client
from server import Rules
from transfer import ComplexAck, Limits, NUMBERS, Request, SegmentAck, Settings, join
from world import Node, World

KEY = (0, 1, 0)
PLACE = KEY[1:]  # in the client's table
SIZE = 50  # octets of an APDU
REQUEST_PIECE, REPLY_PIECE = SIZE - 6, SIZE - 5
SHORT = 9  # octets of what goes in one APDU


class Way:
    """The way of a request or of a reply in segments: the newest segment of each piece, and the newest SegmentACK for each.

    A SegmentACK is for the piece that it says was taken last. Numbers that could be misread are there once piece 255 was sent of more than 256. Then the way is
    open to the adversary.
    """

    def __init__(self, pieces, size):
        self.pieces, self.size, self.is_open = pieces, size, False
        self.segments, self.acks, self.after = [None] * pieces, {}, 0  # no SegmentACK is for the piece `after` or a later one
        self.noted, self.vain = 0, None  # so many SegmentACKs; for which sender none was found that would be misread
        self.joined, self.is_mixed = None, False  # which receiver was looked at, and whether it took a wrong piece

    def note_segments(self, names, first):
        """Segments were sent that follow each other, the first one with these octets."""
        piece = first[0][1] // self.size
        after = piece + len(names)
        self.segments[piece:after] = names
        self.is_open = self.is_open or self.pieces > NUMBERS <= after

    def note_ack(self, name, inc):
        """A SegmentACK was sent by this receiver, or by one that took the last piece."""
        after = len(inc.parts) if inc else self.pieces
        self.acks[after - 1], self.after = name, max(self.after, after)
        self.noted += 1

    def has_mixed(self, inc):
        """Whether a receiver took a wrong piece."""
        state = inc, len(inc.parts)
        if state != self.joined:
            self.joined, self.is_mixed = state, len(join(inc.parts)) > 1
        return self.is_mixed

    def other_segment(self, meant, count=1):
        """The newest segment of another piece that has the number of that piece, or of one of so many from it on."""
        names = []
        for first in range(meant % NUMBERS - NUMBERS, self.pieces, NUMBERS):
            if first != meant:
                names += filter(None, self.segments[max(first, 0):max(first + count, 0)])
        return max(names, default=None)

    def other_ack(self, meant, count=1):
        """The newest SegmentACK for another piece that has the number of that piece, or of one of so many from it on."""
        names = []
        for first in range(meant % NUMBERS - NUMBERS, self.after, NUMBERS):
            if first != meant:
                names += filter(None, map(self.acks.get, range(first, first + count)))
        return max(names, default=None)


class Transfers:
    """One run."""

    def __init__(self, random, bound, setup):
        self.random, self.name, self.most = random, 0, random.choice(bound.windows)
        self.setup = setup._replace(window=self.most)
        self.world = World(self.setup, [self.node(window) for window in self.windows()])
        self.queue, self.names = deque(), []
        long = random.choice(bound.pieces or [setup.short - less for less in (0, 0, 0, 1, 50)])
        self.pieces = random.choice(((long, 1), (long, 1), (1, long), (1, long), (long, long)))  # of the request, and of the reply
        self.request, self.reply = Way(self.pieces[0], REQUEST_PIECE), Way(self.pieces[1], REPLY_PIECE)
        self.is_long, self.is_open = max(self.pieces) > NUMBERS, False  # where none is longer, no number is ever another's; a way is open
        self.disorder, self.is_greedy, self.drops_answers = random.choice((0, 0, 0.005, 0.02)), random.random() < 0.7, random.random() < 0.2
        self.misreads = random.choice((('segments',), ('acks',), ('segments', 'acks')))
        self.loses_windows = random.random() < 0.5  # where a SegmentACK was misread, what was just sent is late
        self.full_windows, self.stumbles_after = 0, random.randrange(1, 10)  # after so many a segment arrives too early, and again in its turn

    def node(self, window):
        """A node with that window."""
        return Node(Settings(Limits(SIZE, True, 100_000), window), Rules(self.random.random() < 0.5, None), 5)

    def windows(self):
        """The greatest windows of both nodes."""
        less = self.random.randint(1, self.most)
        return self.random.choice(((self.most, self.most), (self.most, self.most), (self.most, less), (less, self.most)))

    def do(self, *event):
        """An event happens; what it sends waits for its turn, and is known by its number."""
        self.name += 1
        self.world.do(self.name, event)
        names = self.world.names
        if names:
            self.full_windows += len(names) == self.most
            self.queue += names
            self.names += names
            if self.is_long:
                self.note(names)

    def note(self, names):
        """Copies that were sent: a SegmentACK, or segments that follow each other, or both."""
        for place, name in enumerate(names):
            _, _, apdu, _ = self.world.copies[name]
            kind = type(apdu)
            if kind is SegmentAck:
                way, end = (self.request, self.entry()) if apdu.by_server else (self.reply, self.ticket())
                way.note_ack(name, end.inc)
            elif kind in (Request, ComplexAck) and apdu.segment is not None:
                way = self.request if kind is Request else self.reply
                way.note_segments(names[place:], apdu.octets)
                self.is_open = self.is_open or way.is_open
                return

    def ticket(self):
        return self.world.nodes[0].client.table[PLACE]

    def entry(self):
        return self.world.nodes[1].server.table.get((0, 0))

    # What arrives next.

    def young(self, name):
        """That name, if there is one and its copy may arrive."""
        return name if name and self.world.is_deliverable(self.world.copies[name]) else None

    def misread_segment(self, inc, way):
        """A copy of another piece that a receiver would take for the next one."""
        return self.young(way.other_segment(len(inc.parts)))

    def misread_ack(self, out, way):
        """A SegmentACK for another piece that a sender would take for one of its window, the last it can. Where there was none, only a new one may be."""
        state = out, out.first, out.window, way.noted
        if state == way.vain:
            return None
        window = out.in_window()
        if self.young(way.other_ack(out.first, window)):
            return next(filter(None, (self.young(way.other_ack(out.first + ahead)) for ahead in reversed(range(window)))))
        way.vain = state
        return None

    def misread(self):
        """A copy that would be misread now, if there is one."""
        t, e = self.ticket(), self.entry()
        if 'segments' in self.misreads:
            for end, way in ((e, self.request), (t, self.reply)):
                name = way.is_open and end is not None and end.inc and self.misread_segment(end.inc, way)
                if name:
                    return name
        if 'acks' in self.misreads:
            if t.phase == 'segmented request':
                return self.request.is_open and self.misread_ack(t.out, self.request)
            return self.reply.is_open and e is not None and e.transfer == 'running' and self.misread_ack(e.out, self.reply)
        return None

    def ending(self):
        """The last piece, where it comes next for a receiver that took a wrong one before."""
        for end, way in ((self.entry(), self.request), (self.ticket(), self.reply)):
            inc, last = end and end.inc, way.pieces - 1
            if inc and len(inc.parts) > 1 and (len(inc.parts) - last) % NUMBERS == 0 and way.has_mixed(inc):
                name = self.young(way.segments[last])
                if name:
                    return name
        return None

    def next_copy(self, draw):
        """The copy that arrives next: one that would be misread, the next one in order, or any old one."""
        if self.is_open and (self.is_greedy or draw < 0.05):
            name = self.ending() or self.misread()
            if name:
                if self.loses_windows and type(self.world.copies[name][2]) is SegmentAck:
                    self.queue.clear()
                return name
        queue = self.queue
        if queue and self.full_windows == self.stumbles_after:
            self.full_windows += 1
            return queue[-1]
        if draw < 2.5 * self.disorder:
            if draw < self.disorder:
                return self.random.choice(self.names)
            if queue:
                if draw < 2 * self.disorder:
                    queue.rotate(self.random.choice((-1, 1, -self.random.randrange(64))))
                else:
                    queue.popleft()
        return queue.popleft() if queue else None

    def is_withheld(self, name):
        """The answer is lost for a while, so that the request is sent a second time."""
        _, _, apdu, _ = self.world.copies[name]
        return type(apdu) is ComplexAck and (apdu.segment is None or apdu.segment.number == 0) and self.random.random() < 0.8

    def run(self):
        """The run, until its ask has ended and all that was sent for it has arrived."""
        texts = [(count - 1) * size + SHORT for count, size in zip(self.pieces, (REQUEST_PIECE, REPLY_PIECE))]
        self.do('ask', KEY, 7, (100_000 + texts[0] - 1) * 100_000 + texts[1], SIZE)
        most = 8 * sum(self.pieces) + 200
        random = self.random.random
        draw = random()
        while self.name < most:
            name = self.next_copy(draw)
            if name is None:
                if self.ticket().phase == 'idle':
                    break
                self.wait()
            elif not (self.drops_answers and self.is_withheld(name)):
                self.do('deliver', name, True)
                draw = random()
                if self.queue:
                    draw = self.row(name, draw, most - self.name)
                continue
            draw = random()
        return self.world

    # Copies that arrive in their turn and do alike are delivered in rows.

    def row(self, name, draw, most):
        """That copy arrived: those that arrive next and do alike, no more than so many. What is drawn after them."""
        world, first, (event, place) = self.world, self.queue[0], name
        answers, follows = world.names, first == (event, place + 1)
        if self.full_windows == self.stumbles_after or len(answers) > 1:
            return draw
        if answers:
            answer = world.copies[answers[0]][2]
            return self.refused_row(answer, draw, most) if follows and type(answer) is SegmentAck and answer.nak else draw
        if follows:
            return self.taken_row(draw, most)
        return self.ignored_row(draw, most) if world.is_ignored(first) else draw

    def turns(self, draw, most, goes_on):
        """Copies that arrive in their turn, as long as nothing else is drawn and that says so of the next one and how many came. What is drawn after them."""
        queue, random, names = self.queue, self.random.random, []
        least = max(2.5 * self.disorder, 0.05 * self.is_open)
        while draw >= least and len(names) < most and queue and goes_on(queue[0], len(names)):
            names.append(queue.popleft())
            draw = random()
        return names, draw

    def finds(self):
        """Whether the adversary finds a copy now, wherever it looks."""
        return self.is_open and self.is_greedy and bool(self.ending() or self.misread())

    def taken_row(self, draw, most):
        """Segments of a window that are taken without an answer."""
        copies, (event, place) = self.world.copies, self.queue[0]
        end, taker, room = self.world.receiver((event, place))
        if room == 0 or self.finds():
            return draw
        way, taken = self.request if type(copies[event, place][2]) is Request else self.reply, len(taker.inc.parts)
        most = min(most, room, (way.pieces - 1 - taken) % NUMBERS, -taken % NUMBERS)  # not the last piece, nor one with the number 0, which may be withheld
        looks = self.is_open and self.is_greedy and 'segments' in self.misreads and self.young(way.other_segment(taken, most))

        def goes_on(name, count):
            return name == (event, place + count) and not (looks and self.young(way.other_segment(taken + count)))
        names, draw = self.turns(draw, most, goes_on)
        if names:
            self.world.deliver_taken(self.name + 1, end, taker, names)
            self.name += len(names)
        return draw

    def refused_row(self, answer, draw, most):
        """Segments of a window that are not expected, as the one before, and get that answer."""
        copies, (event, place) = self.world.copies, self.queue[0]
        way, end, sender = (self.request, self.entry(), self.ticket()) if answer.by_server else (self.reply, self.ticket(), self.entry())
        inc, out = end.inc, sender and sender.out
        ahead = len(inc.parts) - 1 - out.first if out else -1
        is_misreadable = ahead % NUMBERS != ahead and out and out.is_in_window(answer.number)
        if self.most == 1 or self.is_open and is_misreadable or self.finds():
            return draw

        def goes_on(name, count):
            if name != (event, place + count):
                return False
            number = copies[name][2].segment.number
            return number != 0 and not inc.is_expected(number)
        names, draw = self.turns(draw, most, goes_on)
        if names:
            sent = self.world.deliver_refused(self.name + 1, answer, names)
            self.name += len(names)
            self.queue += sent
            self.names += sent
            if self.is_long:
                way.note_ack(sent[-1], inc)
        return draw

    def ignored_row(self, draw, most):
        """SegmentACKs that change nothing."""
        if self.finds():
            return draw
        names, draw = self.turns(draw, most, lambda name, count: self.world.is_ignored(name))
        self.world.note_delivered(self.name + 1, names)
        self.name += len(names)
        return draw

    def wait(self):
        """Time passes until a timer is due, and both ends tick."""
        t, e, times = self.ticket(), self.entry(), self.setup.times
        due = [client.due(times, t)] + ([e.since + times.segment] if e is not None and e.transfer == 'running' else [])
        self.do('advance', max(min(due) - self.world.now, 1), (10**6,) * 4)
        self.do('tick_client', 0)
        self.do('tick_server', 1)
