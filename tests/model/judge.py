"""Whether a run was right, by its log and its stores alone: nothing here knows of copies, clocks, tables or invoke IDs.

Every accepted ask takes effect at most once (a read at a server of fresh reads may be performed again), and exactly once where a service answer reached its
client; the request performed and the answer are its own, whole; and each store is that of its server's last start, after what was performed and changed since.
"""

from transfer import READS
from world import after, outcome


class Judge:
    """Goes through a log from its beginning on."""

    def __init__(self, beginning):
        self.stores = [store for _, _, store in beginning]
        self.fresh = [rules.fresh for _, rules, _ in beginning]
        self.asked, self.replies, self.ended = {}, {}, set()

    def does(self, number, request, reply):
        """A server performs a request: what is wrong with its reply."""
        store = self.stores[number]
        self.stores[number] = after(store, *request)
        return None if outcome(store, *request) == reply else 'a reply is not that of the store'

    def performed(self, ask, request, reply):
        if ask not in self.asked:
            return 'performed what was not asked'
        key, wanted = self.asked[ask]
        if request != wanted:
            return 'performed another request than the one asked'
        if ask in self.replies and not (self.fresh[key[1]] and request[0] in READS):
            return 'performed twice'
        self.replies.setdefault(ask, []).append(reply)
        return self.does(key[1], request, reply)

    def ended_with(self, ask, how):
        if ask not in self.asked or ask in self.ended:
            return 'ended twice'
        self.ended.add(ask)
        if how[0] == 'answered' and how[1] not in self.replies.get(ask, ()):
            return 'answered with what is no reply to it'
        return None

    def enters(self, fact):
        """A fact enters the log: what is wrong with it, if anything."""
        word, number, *said = fact
        if word == 'asked':
            self.asked[number] = said
        elif word == 'performed':
            return self.performed(number, *said)
        elif word == 'ended':
            return self.ended_with(number, *said)
        elif word == 'served':
            return self.does(number, *said)
        elif word == 'changed':
            self.stores[number] = hash((self.stores[number], *said))
        elif word == 'restarted':
            store, self.fresh[number] = said
            self.stores[number] = self.stores[number] if store is None else store
        return None


def judge(world):
    """What is wrong with a run, or None."""
    judging = Judge(world.beginning)
    for fact in world.log:
        wrong = judging.enters(fact)
        if wrong:
            return wrong
    return None if judging.stores == [node.store for node in world.nodes] else 'a store is not what was performed and changed'
