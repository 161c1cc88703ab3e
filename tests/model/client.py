"""The client's transaction state machine (clause 5.4.4), as crates/bac_protocol/specs/Client states it.

Every answer can be read here, since those of the model's stores can be. An ending is a tuple that begins with its name.
"""

import transfer
from transfer import (Abort, BUFFER_OVERFLOW, COMPLEX, ComplexAck, Error, Incoming, Outgoing, Reject, Request, SIMPLE, SegmentAck, SimpleAck, heads_of, join)


class Ticket:
    """A client transaction. `number` is that of its ask, which no rule reads."""

    __slots__ = ('number', 'first', 'choice', 'octets', 'pieces', 'segments', 'phase', 'out', 'all_sent', 'inc', 'repeats', 'since')

    def __init__(self, number, now, choice, octets, pieces):
        self.number, self.first, self.since = number, now, now
        self.choice, self.octets, self.pieces = choice, octets, pieces  # no pieces where the request goes whole
        self.phase, self.repeats = 'await confirmation', transfer.N_RETRY
        self.segments, self.out, self.all_sent, self.inc = None, None, False, None


def is_expired(c, t):
    """Nothing is sent later than DEADLINE after the first sending."""
    return c.now - t.first > c.times.deadline


def is_held(c, t):
    """A slot and its invoke ID are held while the ticket is open, or no more than HOLD has passed since its first sending."""
    return t.phase != 'idle' or c.now - t.first <= c.times.hold


def request_of(c, t):
    """The whole request."""
    return Request(c.settings.limits, None, t.choice, t.octets)


def request_window(c, t):
    """The window is sent; all is sent once the last piece was."""
    t.phase, t.since = 'segmented request', c.now
    t.all_sent = t.all_sent or len(t.pieces) <= t.out.first + t.out.in_window()
    return t.out.sends(), None


def asks(c, t):
    """A new ask sends the whole request, or segment 0."""
    if t.pieces is None:
        return [request_of(c, t)], None
    t.segments = [Request(c.settings.limits, head, t.choice, octets) for head, octets in zip(heads_of(len(t.pieces), c.settings.window), t.pieces)]
    t.out = Outgoing(t.segments)
    return request_window(c, t)


def ends(t, sends, *how):
    """The ticket ends so, after these sends."""
    t.phase, t.out, t.inc = 'idle', None, None
    return sends, how


def on_segment(c, t, apdu):
    """A segment of the answer comes for the reassembly."""
    taking, ack = t.inc.takes(apdu.segment, apdu.octets)
    if taking == 'too long':
        return ends(t, [Abort(False, BUFFER_OVERFLOW)], 'aborted', BUFFER_OVERFLOW)
    t.phase, t.since = 'segmented conf', c.now
    sends = [SegmentAck(False, *ack, t.inc.window)] if ack else []
    if taking == 'whole':
        return ends(t, sends, 'answered', ('complex', join(t.inc.parts)))
    return sends, None


def on_refusal(t, apdu):
    """A Reject, or a server's Abort, ends the ticket in any state; all else is ignored."""
    if type(apdu) is Reject:
        return ends(t, [], 'rejected', apdu.reason)
    if type(apdu) is Abort:
        return ends(t, [], 'aborted', apdu.reason)
    return [], None


def on_answer(c, t, apdu):
    """AWAIT_CONFIRMATION: an answer of the request's choice and kind."""
    kind = type(apdu)
    if kind in (SimpleAck, ComplexAck, Error) and apdu.choice != t.choice:
        return [], None
    if kind is SimpleAck and t.choice in SIMPLE:
        return ends(t, [], 'answered', ('simple',))
    if kind is Error:
        return ends(t, [], 'answered', ('error', apdu.code))
    if kind is ComplexAck and t.choice in COMPLEX:
        if apdu.segment is None:
            return ends(t, [], 'answered', ('complex', apdu.octets))
        if c.settings.limits.segments and apdu.segment.number == 0:
            t.inc = Incoming(c.settings.window, apdu.segment.window)
            return on_segment(c, t, apdu)
        return [], None
    return on_refusal(t, apdu)


def hears(c, t, apdu):
    """An APDU comes for the ticket: what it sends, and how it ends, if it does."""
    if t.phase == 'idle' or transfer.is_from_client(apdu):
        return [], None
    if is_expired(c, t):
        return ends(t, [], 'expired')
    if t.phase == 'await confirmation':
        return on_answer(c, t, apdu)
    if t.phase == 'segmented conf':
        if type(apdu) is ComplexAck and apdu.segment is not None:
            return on_segment(c, t, apdu) if apdu.choice == t.choice else ([], None)
        return on_refusal(t, apdu)
    if type(apdu) is not SegmentAck:
        return on_answer(c, t, apdu) if t.all_sent else on_refusal(t, apdu)
    if not t.out.acknowledged(c.settings.window, apdu.number, apdu.window):
        return [], None
    if not t.out.is_finished():
        return request_window(c, t)
    t.phase, t.since = 'await confirmation', c.now
    return [], None


def reassembles(c, t, apdu):
    """The ticket, if a segment like this one comes for its reassembly now."""
    return t if t is not None and t.phase == 'segmented conf' and apdu.choice == t.choice and not is_expired(c, t) else None


def ignores(c, t, ack):
    """Whether a SegmentACK changes nothing."""
    return t.phase == 'idle' or not is_expired(c, t) and (t.phase != 'segmented request' or not t.out.is_in_window(ack.number))


def repeats(c, t):
    """The request is sent again: whole in the state it is in, or from segment 0 on with window 1."""
    if t.repeats == 0:
        return ends(t, [], 'timed out')
    t.repeats, t.since = t.repeats - 1, c.now
    if t.pieces is None:
        return [request_of(c, t)], None
    t.out, t.all_sent = Outgoing(t.segments), True
    return request_window(c, t)


def due(times, t):
    """The moment at which the ticket's timer is due."""
    wait = {'segmented request': times.segment, 'await confirmation': times.answer, 'segmented conf': times.more}
    return t.since + wait[t.phase]


def ticks(c, t):
    """A tick of the ticket."""
    if t.phase == 'idle':
        return [], None
    if is_expired(c, t):
        return ends(t, [], 'expired')
    if c.now < due(c.times, t):
        return [], None
    if t.phase == 'segmented request':
        return request_window(c, t) if t.out.again() else ends(t, [], 'timed out')
    if t.phase == 'segmented conf' and t.pieces is not None:
        return ends(t, [], 'timed out')
    return repeats(c, t)
