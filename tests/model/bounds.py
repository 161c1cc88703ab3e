"""Each bound of the headline: where runs have to be right, and one step beyond it, where some go wrong."""

from typing import NamedTuple, Optional

from transfers import Transfers
from walk import Walk
from world import Pace, Setup, Times


def greatest_life(pace):
    """That pace with the longest life of a copy for which the times suffice (IsTimely)."""
    times = Times()
    keeps = pace.least(times.keep) - pace.most(times.deadline)
    rests = (pace.least(times.client_waits) - pace.most(times.keep)) // 2
    return pace._replace(life=min(keeps, rests))


def one_more(window):
    """One later copy more than may overtake one."""
    return 256 - 2 * window


def first_wrong(window):
    """The least limit at which runs are known to go wrong: a SegmentACK arrives once all windows up to the one with its number again were sent."""
    return 255 - window + 256 // window


class Bound(NamedTuple):
    """A bound: what it is about, its setups at it and one beyond it, what happens in its runs, and how they are made.

    Where one beyond is not known to go wrong, `far` is the first setup that is. Long transfers have so many pieces (otherwise as many as know no limit on
    overtaking, or fewer), and windows of at most so many.
    """

    name: str
    about: str
    at: Setup
    beyond: Setup
    happens: tuple = ()
    maker: type = Walk
    pieces: tuple = ()
    windows: tuple = ()
    far: Optional[Setup] = None
    runs: int = 100_000


def times(**changed):
    """A setup with these times."""
    return Setup(times=Times()._replace(**changed))


def longer(pace):
    """A setup in which copies live one part longer."""
    return Setup(pace=pace._replace(life=pace.life + 1))


ALL = ('client restarts', 'server restarts', 'other clients', 'late starts')
WHOLE, FINE, COARSE = greatest_life(Pace(drift=1_000)), greatest_life(Pace(grain=1_000, drift=1_000)), greatest_life(Pace(grain=1_000, step=10))
SOON = Setup(times=Times()._replace(deadline=20_000), remembers=25_000)  # clients give up after 20 seconds

BOUNDS = [
    Bound('deadline', 'DEADLINE 60,000 ms, beyond 60,001', Setup(), times(deadline=60_001)),
    Bound('keep', 'KEEP 65,000 ms, beyond 64,999', Setup(), times(keep=64_999)),
    Bound('hold', 'HOLD 135,000 ms, beyond 134,999', Setup(), times(hold=134_999)),
    Bound('rest', 'REST 75,000 ms, beyond 74,999', Setup(), times(client_waits=74_999), ('client restarts',)),
    Bound('server-wait', "a restarted server's wait, 65,000 ms, beyond 64,999", Setup(), times(server_waits=64_999), ('server restarts',)),
    Bound('end-seen', 'the next client 75,001 ms after the end, beyond 75,000', Setup(), Setup(quiet_less=1), ('client restarts', 'other clients')),
    Bound('end-unseen', 'the next client 135,001 ms after the last ask, beyond 135,000', Setup(), Setup(quiet_less=1), ('other clients',)),
    Bound('late-start', 'a node that did nothing begins, beyond any', Setup(), Setup(guards_begin=False), ('late starts',)),
    Bound('memory', 'a server remembers 25,000 ms, its clients give up after 20,000, beyond 24,999', SOON, SOON._replace(remembers=24_999)),
    Bound('life', 'L 5,000 ms with one clock, beyond 5,001', Setup(), longer(Pace()), ALL),
    Bound('life-drift', 'L 4,876 ms, clocks of milliseconds off by 0.1 %, beyond 4,877', Setup(pace=WHOLE), longer(WHOLE), ALL),
    Bound('life-grain', 'L 4,874.005 ms, clocks of microseconds off by 0.1 %, beyond 4,874.006', Setup(pace=FINE), longer(FINE), ALL),
    Bound('life-coarse', 'L 4,990.001 ms, clocks that tick every 10 ms, beyond 4,990.002', Setup(pace=COARSE), longer(COARSE), ALL),
    Bound('settings', "restarts with other settings, beyond: a server's wait of 64,999 ms", Setup(), times(server_waits=64_999),
          (*ALL, 'other settings'), runs=60_000),
    Bound('pieces', 'no limit on overtaking up to 256 pieces, beyond 257', Setup(), Setup(short=257), (), Transfers, (), (64, 32, 8)),
    Bound('overtaking', 'V + 2W = 255 for W 64 and 32, beyond 256, far V 195 and 231', Setup(), Setup(overtake=one_more), (), Transfers,
          (257, 258, 300, 321, 385), (64, 32), Setup(overtake=first_wrong)),
]
