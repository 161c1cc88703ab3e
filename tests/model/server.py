"""The server's transaction state machine (clause 5.4.5) over its reply table, as Server, Reuse and Serving of crates/bac_protocol/specs state it.

A dead entry counts as none, so here it is none. What a call hears or ticks gives the entry after it, what is sent, and an effect: (choice, octets, reply).
"""

from typing import NamedTuple, Optional

from transfer import (Abort, BUFFER_OVERFLOW, ComplexAck, Error, Incoming, N_RETRY, OTHER, Outgoing, READS, Reject, Request, SEGMENTATION_NOT_SUPPORTED,
                      SegmentAck, SimpleAck, heads_of, join, length_of, pieces_of)


class Rules(NamedTuple):
    """Whether reads are performed anew and invoke IDs may be used again, and how long a request that is over is remembered."""

    fresh: bool
    remember: Optional[int]


class Entry:
    """An entry of the reply table, which begins now with a request of that choice."""

    __slots__ = ('begin', 'choice', 'limits', 'request', 'first', 'state', 'inc', 'since', 'kept', 'out', 'transfer')

    def __init__(self, now, apdu):
        self.begin, self.since, self.choice, self.limits = now, now, apdu.choice, apdu.limits
        self.request = apdu.octets if apdu.segment is None else None
        self.first, self.state, self.inc, self.kept, self.out, self.transfer = None, 'dropped', None, None, None, None


def is_live(c, e):
    """An entry is live for KEEP."""
    return c.now - e.begin <= c.times.keep


def abort(e, reason):
    """Nothing changes, and an Abort is sent."""
    return e, [Abort(True, reason)], None


def reply_apdu(choice, reply):
    """A reply of one APDU."""
    if reply[0] == 'simple':
        return SimpleAck(choice)
    return ComplexAck(None, choice, reply[1]) if reply[0] == 'complex' else Error(choice, reply[1])


def reply_way(c, limits, reply):
    """How a reply goes: None for one APDU, its pieces, or the reason for which it can't go."""
    size = min(c.settings.limits.apdu, limits.apdu)
    if reply[0] != 'complex' or length_of(reply[1]) + 3 <= size:
        return None
    if not limits.segments:
        return SEGMENTATION_NOT_SUPPORTED
    pieces = pieces_of(reply[1], size - 5)
    return pieces if len(pieces) <= limits.most else BUFFER_OVERFLOW


def reply_window(c, e):
    """The window of a reply is sent."""
    e.transfer, e.since = 'running', c.now
    return e.out.sends()


def keeps(e, sends, apdu, effect):
    """A reply of one APDU is kept and sent."""
    e.state, e.kept, e.inc = 'done', apdu, None
    return e, sends + [apdu], effect


def performs(c, service, e, sends, octets):
    """The request is performed in that entry, after these sends; where its reply can't go, it is not."""
    outcome = service(e.choice, octets)
    if outcome[0] == 'rejected':
        return keeps(e, sends, Reject(outcome[1]), None)
    way = reply_way(c, e.limits, outcome)
    if way is None:
        return keeps(e, sends, reply_apdu(e.choice, outcome), (e.choice, octets, outcome))
    if type(way) is int:
        return keeps(e, sends, Abort(True, way), None)
    segments = [ComplexAck(head, e.choice, octets) for head, octets in zip(heads_of(len(way), c.settings.window), way)]
    e.state, e.out, e.inc = 'segmented response', Outgoing(segments), None
    return e, sends + reply_window(c, e), (e.choice, octets, outcome)


def on_segment(c, service, e, apdu):
    """A segment of the request comes for the reassembly."""
    taking, ack = e.inc.takes(apdu.segment, apdu.octets)
    if taking == 'too long':
        e.state, e.inc = 'dropped', None
        return abort(e, BUFFER_OVERFLOW)
    e.since = c.now
    sends = [SegmentAck(True, *ack, e.inc.window)] if ack else []
    if taking == 'whole':
        e.first = e.inc.parts[0] if len(e.inc.parts) <= 256 else None
        return performs(c, service, e, sends, join(e.inc.parts))
    return e, sends, None


def idle(c, rules, service, may_begin, apdu):
    """An APDU comes where no entry is live: all but a request is dropped, and a request that may not begin an entry gets an Abort."""
    if type(apdu) is not Request or apdu.segment is not None and apdu.segment.number != 0:
        return None, [], None
    e = Entry(c.now, apdu)
    if apdu.segment is None:
        if rules.fresh and apdu.choice in READS:
            e, sends, effect = performs(c, service, e, [], apdu.octets)
            if e.state != 'segmented response':
                return None, sends, effect
            return (e, sends, effect) if may_begin else abort(None, OTHER)
        return performs(c, service, e, [], apdu.octets) if may_begin else abort(None, OTHER)
    if not may_begin:
        return abort(None, OTHER)
    e.state, e.inc = 'segmented request', Incoming(c.settings.window, apdu.segment.window)
    return on_segment(c, service, e, apdu)


def is_kept(e, kept, apdu):
    """Whether a request, or its first piece, is the kept one."""
    return kept is not None and apdu.choice == e.choice and apdu.octets == kept


def kept_reply(service, e):
    """The kept reply."""
    return e.kept


def on_repeat(c, service, e, apdu):
    """A request or a segment comes for an entry that gave its reply: its own gets the kept reply, or sets a stopped transfer going again."""
    is_own = is_kept(e, e.request, apdu) if apdu.segment is None else e.request is None
    if not is_own:
        return abort(e, OTHER)
    if e.state == 'done':
        return e, [kept_reply(service, e)], None
    if e.transfer != 'stopped':
        return e, [], None
    e.out.retries = N_RETRY
    return e, reply_window(c, e), None


def live(c, service, e, apdu):
    """An APDU comes for a live entry."""
    kind = type(apdu)
    is_abort = kind is Abort and not apdu.by_server
    if e.state == 'segmented request':
        if is_abort:
            e.state, e.inc = 'dropped', None
        elif kind is Request and apdu.segment is not None:
            if c.now - e.since < c.times.more:
                return on_segment(c, service, e, apdu)
            e.state, e.inc = 'dropped', None
            return abort(e, OTHER)
    elif kind is Request:
        return abort(e, OTHER) if e.state == 'dropped' else on_repeat(c, service, e, apdu)
    elif e.state == 'segmented response':
        if is_abort:
            e.transfer = 'finished'
        elif kind is SegmentAck and e.transfer == 'running' and e.out.acknowledged(c.settings.window, apdu.number, apdu.window):
            if not e.out.is_finished():
                return e, reply_window(c, e), None
            e.transfer, e.since = 'finished', c.now
    return e, [], None


def reassembles(c, e):
    """The entry, if a segment of its request comes for its reassembly now."""
    return e if e is not None and e.state == 'segmented request' and is_live(c, e) and c.now - e.since < c.times.more else None


def is_over(e):
    """Its reply of one APDU was sent, its reply in segments was acknowledged or aborted, or its request was given up."""
    return e.state in ('done', 'dropped') or e.state == 'segmented response' and e.transfer == 'finished'


def ends_with_reply(e, apdu):
    """The entry of a read that came without SEG ends with its reply in segments."""
    if e.choice not in READS or e.request is None or e.state != 'segmented response':
        return False
    if type(apdu) is Abort:
        return not apdu.by_server
    left = len(e.out.segments) - e.out.first
    return type(apdu) is SegmentAck and not apdu.by_server and e.transfer == 'running' and (
        left <= e.out.in_window() and (apdu.number - e.out.first) % 256 == left - 1)


def is_used_again(e, apdu):
    """The APDU uses the entry's invoke ID again, or is the last one of its transaction."""
    if type(apdu) is not Request:
        return ends_with_reply(e, apdu)
    if not is_over(e):
        return False
    if apdu.segment is None:
        return apdu.choice in READS or not is_kept(e, e.request, apdu)
    if apdu.segment.number != 0:
        return False
    return e.request is not None if e.first is None else not is_kept(e, e.first, apdu)


def is_forgotten(c, rules, e, apdu):
    """A request comes for an entry that is over, and began longer ago than requests are remembered."""
    begins = type(apdu) is Request and (apdu.segment is None or apdu.segment.number == 0)
    return begins and is_over(e) and c.now - e.begin > rules.remember


def hears(c, rules, service, e, may_begin, apdu):
    """An APDU comes for the entry of its key, if there is one."""
    if e is not None and is_live(c, e):
        if not (rules.fresh and is_used_again(e, apdu) or rules.remember is not None and is_forgotten(c, rules, e, apdu)):
            return live(c, service, e, apdu)
    return idle(c, rules, service, may_begin, apdu)


def ignores(c, rules, e, ack):
    """Whether a SegmentACK changes nothing."""
    if e is None:
        return True
    if not is_live(c, e) or rules.fresh and is_used_again(e, ack):
        return False
    return e.state != 'segmented response' or e.transfer != 'running' or not e.out.is_in_window(ack.number)


def ticks(c, e):
    """A tick of the entry: what it sends."""
    if not is_live(c, e):
        return []
    if e.state == 'segmented request' and c.now - e.since >= c.times.more:
        e.state, e.inc = 'dropped', None
    elif e.state == 'segmented response' and e.transfer == 'running' and c.now - e.since >= c.times.segment:
        if e.out.again():
            return reply_window(c, e)
        e.transfer = 'stopped'
    return []
