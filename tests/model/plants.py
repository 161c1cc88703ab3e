"""Wrong machines that the model has to find: each changes one rule, and is run at a bound at which all is right otherwise."""

import client
import server
import transfer
import world
from world import World


def keeps_less():
    """An entry is kept one millisecond less than KEEP."""
    server.is_live = lambda c, e: c.now - e.begin < c.times.keep


def no_peer():
    """A server's table is keyed by the invoke ID, without the peer."""
    world.table_key = lambda key: (0, key[2])


def frees_early():
    """A client frees an invoke ID as soon as its ticket has ended."""
    client.is_held = lambda c, t: t.phase != 'idle'


def sends_late():
    """A tick sends the request again, however late it is."""
    client.is_expired = lambda c, t: False


def takes_any():
    """A receiver takes any number of the window."""
    transfer.Incoming.is_expected = lambda inc, number: (number - len(inc.parts)) % transfer.NUMBERS < inc.window


def computes_again():
    """The kept reply of a request is computed again by the store as it now is."""
    def kept_reply(service, e):
        is_whole = type(e.kept) is transfer.ComplexAck and e.request is not None
        return server.reply_apdu(e.choice, service(e.choice, e.request)) if is_whole else e.kept
    server.kept_reply = kept_reply


def never_waits():
    """A server that restarts begins entries at once."""
    restart = World.restart_server

    def restart_server(self, number, *words):
        restart(self, number, *words)
        self.nodes[number].server.opens = 0
    World.restart_server = restart_server


def begins_soon():
    """A client begins in another's place though not all is over that this sent."""
    World.quiet_at = lambda self, number: self.now


def changes_silently():
    """A read changes the store."""
    world.after = lambda store, choice, octets: hash((store, choice, octets))


PLANTS = {
    'keeps-less': (keeps_less, 'keep'),
    'no-peer': (no_peer, 'keep'),
    'frees-early': (frees_early, 'hold'),
    'sends-late': (sends_late, 'deadline'),
    'takes-any': (takes_any, 'keep'),
    'computes-again': (computes_again, 'keep'),
    'never-waits': (never_waits, 'server-wait'),
    'begins-soon': (begins_soon, 'end-unseen'),
    'changes-silently': (changes_silently, 'keep'),
}
