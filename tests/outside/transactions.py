"""What frames make of transactions by the rules of docs/FORMATS.md ("explain"), told again: the model that explain.py holds `bac explain` against."""

from dataclasses import dataclass, field
from datetime import datetime, timezone

from sightings import ABORT, COMPLEX_ACK, ERROR, REJECT

KEEP, LIFE, MOST_SENDS, ROUND, OPEN_LIMIT, MOST_DEVICES = 65_000, 5_000, 4, 128, 16_384, 4_096
ENDS = ('answered', 'errors', 'rejected', 'aborted', 'unanswered')
APPEND, WRITE_FILE = bytes.fromhex('07C4028000010E31FF61AA0F'), 7
REUSED = 'another request with the invoke ID of an earlier one'
CONFUSED = f"{REUSED}, whose answer this stack's server would send"


def ahead(last, number):
    """How far a segment's number is ahead of another."""
    return (number - last) % 256


@dataclass
class Sent:
    """A request or an answer, as far as it was seen. `index` is how many segments come before the last one; which segments may be sent after it (`grant`) is a
    word, or what the last SegmentACK took, its window, and how often the next one was sent."""

    moment: int
    apdu: object
    number: int
    index: int
    last: int
    whole: bool
    grant: str | tuple
    times: int = 1
    more: int = 0

    def place(self, apdu):
        """Where an APDU stands after what was seen."""
        if apdu.segment is not None and apdu.segment == (self.number + 1) % 256:
            return 'next'
        if apdu.octets == self.apdu.octets:
            return 'again'
        if apdu.segment is None or (apdu.segment == 0 and self.more < ROUND):
            return 'other'
        return 'ahead' if 0 < ahead(self.number, apdu.segment) < 128 or ahead(apdu.segment, self.number) > self.index else 'back'

    def count(self, now, where, apdu):
        number = apdu.segment or 0
        if where == 'again':
            self.times += 1
            self.grant = 'first' if self.grant == 'first' else 'unknown'
            self.index = first_index(number)
        else:
            self.more += 1
            self.whole = self.whole or not apdu.more
            self.index += -ahead(number, self.number) if where == 'back' else ahead(self.number, number)
            if isinstance(self.grant, tuple) and number == (self.grant[0] + 1) % 256:
                self.grant = (*self.grant[:2], self.grant[2] + 1)
        self.number, self.last = number, now

    def take(self, apdu):
        """A SegmentACK: one behind the last was sent before."""
        if isinstance(self.grant, str) or ahead(self.grant[0], apdu.segment) < 128:
            self.grant = (apdu.segment, apdu.window, 0)

    def segment_finding(self, where, number):
        """What is wrong with a segment after what was sent before."""
        taken = isinstance(self.grant, tuple)
        beyond = ahead(self.grant[0], number) if taken else 0
        if (self.grant == 'first' and number) or (taken and self.grant[1] < beyond < 128):
            return 'a segment beyond the window'
        if where == 'ahead':
            return 'a segment before it is missing'
        return 'a segment sent more than four times' if taken and beyond == 1 and self.grant[2] >= MOST_SENDS else None

    def again_finding(self, apdu):
        """What is wrong with a request, or its first segment, that comes again."""
        if self.times < MOST_SENDS:
            return None
        if apdu.segment is None:
            return 'a request sent more than four times'
        return 'a segment sent more than four times' if self.grant == 'first' else None


def first_index(number):
    """Numbers may have gone round before a first segment that is a later one."""
    return number + 256 if number else 0


def begun(now, apdu):
    number = apdu.segment or 0
    return Sent(now, apdu, number, first_index(number), now, not apdu.more, 'unknown' if number else 'first')


def missing(apdu):
    return 'a segment before it is missing' if apdu.segment else None


@dataclass
class Transaction:
    request: Sent
    reused: bool
    answer: Sent | None = None
    broken_off: bool = False
    naks: int = 0
    gave_up: bool = False
    findings: int = 0
    told: bool = False
    frames: list = field(default_factory=list)
    wrongs: list = field(default_factory=list)

    def ending(self):
        """How it counts, whatever was seen of an answer whose end was not."""
        if self.answer and self.answer.whole:
            return {REJECT: 'rejected', ABORT: 'aborted', ERROR: 'error'}.get(self.answer.apdu.kind, 'answered')
        return 'aborted' if self.gave_up or (self.answer and self.broken_off) else 'unanswered'

    def is_repeated(self):
        """Whether its request was sent more than once, or a segment of it."""
        return self.request.times > 1 or self.request.more > self.request.index

    def is_over(self):
        """Whether nothing more has to come."""
        return self.gave_up or (self.answer is not None and (self.answer.whole or self.broken_off))

    def is_unanswered(self):
        return self.answer is None or not (self.answer.whole or self.broken_off)

    def last_line(self):
        if self.gave_up:
            return ['  given up by the client']
        if self.answer is None:
            return ['  unanswered']
        if self.answer.whole:
            return []
        return ['  aborted by the server' if self.broken_off else '  incomplete answer']

    def lines(self, key):
        asked = [f'{rfc_3339(self.request.moment)} {key[0]} > {key[1]} id {key[2]}{counts(self.request)}']
        if self.answer:
            name = {'error': 'answered'}.get(self.ending(), self.ending()) if self.answer.whole else 'began'
            asked.append(f'  {name} after={self.delay()}ms{counts(self.answer)}')
        return asked + ([f'  negative SegmentACKs={self.naks}'] if self.naks else []) + self.last_line()

    def members(self):
        """Its object of JSON, but for what its APDUs carry."""
        answered = {'after': self.delay(), 'answers': self.answer.times, 'answer_segments': self.answer.more} if self.answer else {
            'after': None, 'answers': 0, 'answer_segments': 0}
        return answered | {'kind': 'transaction', 'asked_at': self.request.moment, 'time': rfc_3339(self.request.moment), 'requests': self.request.times,
                           'segments': self.request.more, 'status': self.ending(), 'unanswered': self.is_unanswered(), 'given_up': self.gave_up,
                           'negative_acks': self.naks, 'frames': self.frames, 'findings': self.wrongs}

    def delay(self):
        return max(self.answer.moment - self.request.moment, 0)

    def would_answer(self, apdu):
        """Whether this stack's server takes another request for this one."""
        first = self.request.apdu
        if first.is_segment():
            return apdu.is_segment() and self.answer is not None
        return not apdu.is_segment() and first.octets[3:] == apdu.octets[3:]

    def is_performed_twice(self, apdu):
        written = all(it.kind == COMPLEX_ACK and it.choice == WRITE_FILE and not it.is_segment() for it in (self.answer.apdu, apdu))
        return written and not self.reused and self.request.apdu.octets[3:] == APPEND

    def answered(self, now, apdu):
        """An answer is seen; what is wrong with it."""
        if apdu.choice is not None and apdu.choice != self.request.apdu.choice:
            return 'an answer of another service'
        if self.answer is None:
            self.answer = begun(now, apdu)
            return missing(apdu)
        if apdu.kind == ABORT and not self.answer.whole:
            self.broken_off = True
            return None
        where = self.answer.place(apdu)
        if where == 'other':
            return 'an append performed twice' if self.is_performed_twice(apdu) else 'another answer than before'
        old = apdu.segment is None and now - self.answer.moment > LIFE and now - self.request.last > 2 * LIFE
        finding = ('a copy older than 5 s' if old else None) if where == 'again' else self.answer.segment_finding(where, apdu.segment)
        self.answer.count(now, where, apdu)
        return finding

    def requested(self, now, where, apdu):
        again = None if self.is_over() else self.request.again_finding(apdu)
        finding = again if where == 'again' else self.request.segment_finding(where, apdu.segment)
        self.request.count(now, where, apdu)
        if self.answer and isinstance(self.answer.grant, tuple):
            self.answer.grant = (*self.answer.grant[:2], 0)
        return finding


def rfc_3339(moment):
    seconds = datetime.fromtimestamp(moment // 1000, timezone.utc)
    return f'{seconds:%Y-%m-%dT%H:%M:%S}.{moment % 1000:03d}Z'


def totals_of(ends):
    """How many transactions ended in each way, and the slowest answer."""
    delays = [delay for _, _, delay in ends if delay is not None]
    counts = {name: sum(end == name for _, end, _ in ends) for name in ENDS}
    return {'transactions': len(ends)} | counts | {'slowest': max(delays, default=None)}


def in_words(totals):
    slowest = '-' if totals['slowest'] is None else f"{totals['slowest']}ms"
    return ' '.join(f'{name}={totals[name]}' for name in ('transactions', *ENDS)) + f' slowest={slowest}'


def moment_of(moment):
    """The members of a frame's moment in its object of JSON."""
    return {'moment': moment, 'time': rfc_3339(moment)}


def ends_of(key):
    return {'client': key[0], 'server': key[1], 'invoke_id': key[2]}


def counts(sent):
    return (f' times={sent.times}' if sent.times != 1 else '') + (f' more-segments={sent.more}' if sent.more else '')


@dataclass
class Selection:
    """The filters, and --fail."""

    unanswered: bool = False
    errors: bool = False
    repeated: bool = False
    findings: bool = False
    slower: int | None = None
    peer: str | None = None
    fail: bool = False
    strict_ids: bool = False

    def words(self):
        names = ('unanswered', 'errors', 'repeated', 'findings', 'fail', 'strict_ids')
        flags = ['--' + name.replace('_', '-') for name in names if getattr(self, name)]
        return flags + [word for name in ('slower', 'peer') if getattr(self, name) is not None for word in (f'--{name}', str(getattr(self, name)))]

    def is_narrow(self):
        return self.unanswered or self.errors or self.repeated or self.findings or self.slower is not None or self.peer is not None

    def has_peer(self, key):
        ends = [end.split('/')[0] for end in key[:2]]
        return self.peer is None or any(self.peer in (end, end.split(':')[0]) for end in ends)

    def passes(self, key, it):
        """Whether a transaction is printed; None stands for an answer to no request."""
        if not self.has_peer(key):
            return False
        if it is None:
            return not self.unanswered and not self.errors and not self.repeated and self.slower is None
        slow = self.slower is None or it.is_unanswered() or it.delay() > self.slower
        again = it.is_repeated() or not self.repeated
        refused = it.ending() in ('error', 'rejected', 'aborted') or not self.errors
        return slow and again and refused and (it.is_unanswered() or not self.unanswered) and (it.findings > 0 or not self.findings)


@dataclass
class Watch:
    """The open transactions, in the order of their beginning, and what is to be printed: lines, where a transaction is printed once it is over, and objects, where it
    is printed when it is closed."""

    selection: Selection = field(default_factory=Selection)
    open: dict = field(default_factory=dict)
    lines: list = field(default_factory=list)
    objects: list = field(default_factory=list)
    ends: list = field(default_factory=list)
    findings: int = 0
    frames: int = 0
    unread: int = 0
    shown: int = 0
    shown_lines: int = 0
    wrong: int = 0
    wrong_lines: int = 0

    def close(self, key):
        it = self.open.pop(key)
        passes = self.selection.passes(key, it)
        wrong = it.is_unanswered() or it.findings > 0
        if passes and not it.told:
            self.lines += it.lines(key)
        if passes:
            self.objects.append(it.members() | ends_of(key))
        self.shown += passes
        self.wrong += passes and wrong
        self.shown_lines += passes or it.told
        self.wrong_lines += (passes or it.told) and wrong
        self.ends.append((key[1], {'error': 'errors'}.get(it.ending(), it.ending()), it.delay() if it.answer else None))

    def tell(self, seen):
        """A transaction is printed once it is over, if it passes then."""
        it = self.awaited(seen)
        if it and not it.told and it.is_over() and self.selection.passes(seen.key, it):
            it.told = True
            self.lines += it.lines(seen.key)

    def totals(self):
        """How the transactions ended: of all servers, and of each."""
        servers = list(dict.fromkeys(server for server, _, _ in self.ends))[:MOST_DEVICES]
        return totals_of(self.ends), {server: totals_of([end for end in self.ends if end[0] == server]) for server in servers}

    def awaited(self, seen):
        """The transaction for which answers are looked for: so long after the last copy of its request."""
        it = self.open.get(seen.key)
        return it if it and seen.moment - it.request.last <= KEEP else None

    def asks(self, seen):
        it = self.open.get(seen.key)
        it = it if it and seen.moment - it.request.moment <= KEEP else None
        where = it.request.place(seen.apdu) if it else 'other'
        if where != 'other':
            return it.requested(seen.moment, where, seen.apdu)
        reused = None if it and it.is_over() and not self.selection.strict_ids else CONFUSED if it and it.would_answer(seen.apdu) else REUSED
        finding = reused if it else missing(seen.apdu)
        if seen.key in self.open:
            self.close(seen.key)
        elif len(self.open) >= OPEN_LIMIT:
            self.close(next(iter(self.open)))
        self.open[seen.key] = Transaction(begun(seen.moment, seen.apdu), it is not None)
        return finding

    def answers(self, seen):
        it = self.awaited(seen)
        return it.answered(seen.moment, seen.apdu) if it else 'an answer to no request'

    def takes(self, seen):
        it, role = self.awaited(seen), seen.apdu.role()
        if not it:
            return None
        sent = it.request if role.endswith('request') else it.answer
        if sent:
            sent.take(seen.apdu)
        if role.startswith('refuses'):
            it.naks += 1
            return 'a negative SegmentACK'
        return None

    def gives_up(self, seen):
        it = self.awaited(seen)
        if it:
            it.gave_up = True

    def see(self, seen):
        """One frame; None where it has no part in a transaction."""
        self.frames += 1
        if seen is None:
            return
        first = next(iter(self.open), None)
        if first and seen.moment - self.open[first].request.last > KEEP:
            self.close(first)
        finding = {'asks': self.asks, 'answers': self.answers, 'gives up': self.gives_up}.get(seen.apdu.role(), self.takes)(seen)
        it = self.awaited(seen)
        if it:
            it.frames.append(seen.number)
            it.wrongs += [finding] if finding else []
        if finding:
            self.find(seen, finding)
        elif it and it.told and seen.apdu.role() in ('asks', 'answers'):
            self.lines.append(f'frame {seen.number}: again, {seen.key[0]} > {seen.key[1]} id {seen.key[2]}')
        self.tell(seen)

    def find(self, seen, finding):
        """What is wrong with a frame is of its transaction, if there is one."""
        it = self.awaited(seen)
        self.findings += 1
        if it:
            it.findings += 1
        if self.selection.passes(seen.key, it):
            self.wrong += it is None
            self.wrong_lines += it is None
            self.lines.append(f'frame {seen.number}: {finding}, {seen.key[0]} > {seen.key[1]} id {seen.key[2]}')
            self.objects.append({'kind': 'finding', 'frame': seen.number, 'finding': finding} | moment_of(seen.moment) | ends_of(seen.key))

    def see_unread(self, number, moment, why):
        """One frame that cannot be looked at."""
        self.frames += 1
        self.unread += 1
        self.lines.append(f'frame {number}: {why}')
        self.objects.append({'kind': 'unread', 'frame': number, 'text': why} | moment_of(moment))

    def end(self):
        for key in list(self.open):
            self.close(key)
        totals, devices = self.totals()
        if len(devices) > 1:
            self.lines += [f'{server} {in_words(of)}' for server, of in devices.items()]
        if self.selection.is_narrow():
            self.lines.append(f'shown={self.shown_lines} of {len(self.ends)}')
        self.lines.append(f'{in_words(totals)} findings={self.findings} frames={self.frames} unread={self.unread}')
        self.objects.append(totals | {'kind': 'summary', 'shown': self.shown, 'findings': self.findings, 'frames': self.frames, 'unread': self.unread,
                                      'devices': [of | {'server': server} for server, of in devices.items()]})

    def status(self, of_lines=True):
        wrong = self.wrong_lines if of_lines else self.wrong
        return 1 if self.unread or (wrong if self.selection.fail else self.findings) else 0
