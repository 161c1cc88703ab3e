"""Makes a wrong run as short as may be, by leaving events out for as long as it stays wrong."""

from judge import judge
from world import Node, World


def replayed(world, events):
    """These events from the same beginning on."""
    again = World(world.setup, [Node(*node) for node in world.beginning])
    for name, event in events:
        again.do(name, event)
    return again


def is_wrong(world):
    """Whether a run that was shortened is wrong; one that makes no sense any more is not."""
    try:
        return judge(world) is not None
    except (KeyError, ValueError):
        return False


def shortest(world):
    """The run without what it does not need."""
    events, size = world.events, len(world.events)
    while size:
        place, before = 0, len(events)
        while place < len(events):
            fewer = events[:place] + events[place + size:]
            if is_wrong(replayed(world, fewer)):
                events = fewer
            else:
                place += size
        if size > 1 or len(events) == before:
            size //= 2
    return replayed(world, events)
