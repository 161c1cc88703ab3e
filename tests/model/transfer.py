"""Octets, APDUs, and both sides of a transfer in segments (clauses 20.1, 5.2 and 5.4).

Octets stand here as slices of texts: (text, start, end), in order. No two texts have octets in common, so octets are equal exactly where their slices are.
"""

from dataclasses import dataclass
from functools import lru_cache
from typing import NamedTuple, Optional

N_RETRY = 3  # repeats before giving up
DATA = 65_535  # the most octets, and segments, of a transfer
NUMBERS = 256  # segments count modulo this
OTHER, BUFFER_OVERFLOW, SEGMENTATION_NOT_SUPPORTED = 0, 1, 4  # reasons of Aborts (clause 18.10)
SIMPLE, COMPLEX = {15}, {6, 7, 12}  # the service choices that are answered by a SimpleACK, and by a ComplexACK
READS = {6, 12}  # the choices of requests that change no store


def join(parts):
    """The octets of these parts in order: slices that follow each other in one text become one."""
    joined, text, begin, end = [], None, 0, 0
    for part in parts:
        for here, start, after in part:
            if here != text or start != end:
                joined.append((text, begin, end))
                text, begin = here, start
            end = after
    return (*joined[1:], (text, begin, end)) if joined else ()


def length_of(octets):
    """How many octets these are."""
    length = 0
    for _, start, end in octets:
        length += end - start
    return length


@lru_cache
def pieces_of(octets, size):
    """The pieces of one whole text: all of that size but the last, which may be shorter."""
    [(text, start, end)] = octets
    return tuple(((text, place, min(place + size, end)),) for place in range(start, end, size))


class Limits(NamedTuple):
    """What a node takes of the other end: octets of an APDU, whether segments, and the most of them."""

    apdu: int
    segments: bool
    most: int


class Settings(NamedTuple):
    """What a node is set to: its limits, and the greatest window that it proposes or grants."""

    limits: Limits
    window: int


@dataclass(slots=True)
class Segment:
    """What a segment says: whether more follow, its number, and the proposed window."""

    more: bool
    number: int
    window: int


@dataclass(slots=True)
class Request:
    limits: Limits
    segment: Optional[Segment]
    choice: int
    octets: tuple


class SimpleAck(NamedTuple):
    choice: int


@dataclass(slots=True)
class ComplexAck:
    segment: Optional[Segment]
    choice: int
    octets: tuple


@dataclass(slots=True)
class SegmentAck:
    by_server: bool
    nak: bool
    number: int
    window: int


class Error(NamedTuple):
    choice: int
    code: int


class Reject(NamedTuple):
    reason: int


class Abort(NamedTuple):
    by_server: bool
    reason: int


def is_from_client(apdu):
    """Whether the client of a transaction sends it."""
    kind = type(apdu)
    return kind is Request or (kind is SegmentAck or kind is Abort) and not apdu.by_server


@lru_cache
def heads_of(count, proposed):
    """What the segments of so many pieces say."""
    return tuple(Segment(n + 1 < count, n % NUMBERS, proposed) for n in range(count))


class Outgoing:
    """The sender: its segments, the first one that was not acknowledged, the window, and how often the window may be sent again."""

    __slots__ = ('segments', 'first', 'window', 'retries')

    def __init__(self, segments):
        self.segments, self.first, self.window, self.retries = segments, 0, 1, N_RETRY

    def in_window(self):
        """How many segments are in the window."""
        left = len(self.segments) - self.first
        return left if left < self.window else self.window

    def sends(self):
        """What the window sends."""
        return self.segments[self.first:self.first + self.window]

    def is_in_window(self, number):
        """Whether the number is that of a segment of the window."""
        return (number - self.first) % NUMBERS < self.in_window()

    def is_finished(self):
        """Whether every segment was acknowledged."""
        return len(self.segments) <= self.first

    def acknowledged(self, greatest, number, window):
        """A SegmentACK comes: whether it acknowledges a segment of the window."""
        ahead = (number - self.first) % NUMBERS
        if ahead >= self.in_window():
            return False
        self.first, self.window, self.retries = self.first + ahead + 1, min(window, greatest), N_RETRY
        return True

    def again(self):
        """A timeout: whether a retry was left."""
        if self.retries == 0:
            return False
        self.retries -= 1
        return True


class Incoming:
    """The receiver: what it took in order, how many segments since its last SegmentACK, and the actual window."""

    __slots__ = ('parts', 'octets', 'unacknowledged', 'window')

    def __init__(self, greatest, proposed):
        self.parts, self.octets, self.unacknowledged, self.window = [], 0, 0, min(proposed, greatest)

    def is_expected(self, number):
        """Whether the number is that of the next piece."""
        return number == len(self.parts) % NUMBERS

    def takes(self, segment, octets):
        """A segment comes: 'too long', or what became of it with the SegmentACK that is due, if any, as (nak, number)."""
        if not self.is_expected(segment.number):
            self.unacknowledged = 0
            return 'not expected', (True, (len(self.parts) - 1) % NUMBERS)
        length = self.octets + length_of(octets)
        if length > DATA or len(self.parts) + 1 > DATA:
            return 'too long', None
        is_due = not self.parts or self.window <= self.unacknowledged + 1
        self.parts.append(octets)
        self.octets = length
        if not segment.more:
            return 'whole', (False, segment.number)
        self.unacknowledged = 0 if is_due else self.unacknowledged + 1
        return 'taken', (False, segment.number) if is_due else None

    def room(self, octets):
        """How many segments like this one it takes before a SegmentACK is due."""
        return min(self.window - 1 - self.unacknowledged, (DATA - self.octets) // length_of(octets), DATA - len(self.parts))

    def takes_row(self, parts):
        """Segments come that follow each other, for which there is room and of which none is the last."""
        self.parts += parts
        self.octets += sum(map(length_of, parts))
        self.unacknowledged += len(parts)
