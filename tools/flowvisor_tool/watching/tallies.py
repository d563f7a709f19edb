"""How many messages there were, by type, and how many of them each second."""
from array import array

from ..openflow.protocol import MessageType
from .messages import TYPES

MINUTES = 10
SECONDS = 60 * MINUTES
# What the rate of a slice counts (own rule): messages that are sent on to the switch, or answered from the book.
RATED = (
    MessageType.FLOW_MOD, MessageType.PACKET_OUT, MessageType.STATS_REQUEST, MessageType.BARRIER_REQUEST,
    MessageType.QUEUE_GET_CONFIG_REQUEST,
)
NAMES = [*(kind.name for kind in MessageType), "OTHER"]
NONE = (0,) * (TYPES + 1)


class Tally:
    """Messages by type, of the connections that have ended and of the one that is open."""

    __slots__ = ("past", "live", "before", "rates")

    def __init__(self):
        self.past = [0] * (TYPES + 1)
        self.live = NONE  # the counts of the open connection, which go on
        self.before = list(NONE)
        self.rates = list(NONE)  # of the last whole second

    def follow(self, counts):
        """Another connection's counts are added."""
        self.settle()
        self.live = counts

    def settle(self):
        """The connection has ended."""
        self.past = self.totals()
        self.live = NONE

    def totals(self):
        """How many there were of each type."""
        return [past + live for past, live in zip(self.past, self.live)]

    def tick(self):
        """A second has passed; answers how many messages it had."""
        totals = self.totals()
        self.rates = [max(0, now - before) for now, before in zip(totals, self.before)]
        self.before = totals
        return sum(self.rates)

    def absorb(self, other):
        """Takes over what another one has counted."""
        self.past = [mine + its for mine, its in zip(self.past, other.totals())]
        self.before = [mine + its for mine, its in zip(self.before, other.before)]


class Plot:
    """Three numbers for each of the last seconds: messages of the peer, messages to it, and refusals."""

    __slots__ = ("second", "rows")

    def __init__(self):
        self.second = None
        self.rows = [array("I", bytes(SECONDS * array("I").itemsize)) for _row in range(3)]

    def add(self, second, numbers):
        """The numbers of a second; those between are 0, and after a clock is set back all is as new."""
        if self.second is None or not 0 < second - self.second <= SECONDS:
            self.clear()
        else:
            for between in range(self.second + 1, second):
                self.put(between, (0, 0, 0))
        self.put(second, numbers)
        self.second = second

    def put(self, second, numbers):
        for row, number in zip(self.rows, numbers):
            row[second % SECONDS] = min(number, 0xFFFFFFFF)

    def clear(self):
        for row in self.rows:
            row[:] = array("I", bytes(SECONDS * row.itemsize))

    def means(self, width):
        """For each row the means of so many seconds each, up to the last whole such span."""
        if self.second is None:
            return [[] for _row in self.rows]
        end = self.second + 1
        end -= end % width
        starts = range(end - SECONDS, end, width)
        # The oldest seconds of the first span were written over by those behind the last one.
        starts = starts[1:] if self.second + 1 > end else starts
        return [[sum(row[second % SECONDS] for second in range(start, start + width)) / width for start in starts] for row in self.rows]


def by_name(counts):
    """The types of which there are any, with their numbers, the most frequent first."""
    told = [(name, count) for name, count in zip(NAMES, counts) if count]
    return sorted(told, key=lambda pair: -pair[1])
