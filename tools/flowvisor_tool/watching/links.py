"""TCP connections: how far one is, and each side's bytes in order, with what is missing of them."""
import enum
import heapq

SEQUENCES = 0xFFFFFFFF
HALF = 1 << 31
# How much of a side is kept behind a gap, and for how many seconds, before the bytes between are given up.
MOST_HELD, MOST_HELD_BYTES, LONGEST_GAP = 64, 1 << 17, 1.0
# How many seconds a clock may go back without being taken as set anew: a packet may be a little older than the one before.
LATEST = 5
# A reset counts only where its number is near those of the connection.
NEAR = 1 << 24


class State(enum.Enum):
    """How far a connection is."""

    CALLED = enum.auto()
    UP = enum.auto()
    ENDED = enum.auto()


class How(enum.Enum):
    """How a connection ended."""

    END = enum.auto()
    RESET = enum.auto()
    REFUSED = enum.auto()
    REPLACED = enum.auto()
    FORGOTTEN = enum.auto()


class Side:
    """What one side of a connection sends, in order. What follows on a gap waits, until that is filled or given up."""

    __slots__ = ("link", "is_peer", "next", "taken", "messages", "held", "held_bytes", "held_since", "acknowledges", "last")

    def __init__(self, link, is_peer, time):
        self.link = link
        self.is_peer = is_peer
        self.last = time  # of its last bytes
        self.next = None  # the sequence number of the next byte
        self.taken = 0  # how many bytes were taken
        self.messages = None
        self.held = []
        self.held_bytes = 0
        self.held_since = 0.0
        self.acknowledges = None

    def put(self, time, sequence, payload, size):
        """Takes a segment that doesn't follow on the bytes before, or of which bytes were cut off."""
        if self.next is None:
            self.next = sequence
        gap = (sequence - self.next) & SEQUENCES
        if gap >= HALF:
            repeated = SEQUENCES + 1 - gap
            if repeated >= size:
                return
            payload, size, gap = payload[repeated:], size - repeated, 0
        if gap:
            self.hold(time, gap, payload, size)
        else:
            self.take(payload, size)
            self.take_held()

    def hold(self, time, gap, payload, size):
        """Keeps a segment behind a gap, and gives gaps up, the first ones first, until what is kept is in bounds."""
        if not self.held:
            self.held_since = time
        heapq.heappush(self.held, (self.taken + gap, size, payload))
        self.held_bytes += len(payload)
        while self.held and (len(self.held) > MOST_HELD or self.held_bytes > MOST_HELD_BYTES):
            self.give_up_gap()

    def take(self, payload, size):
        """Takes bytes that follow on those before."""
        self.next = (self.next + size) & SEQUENCES
        self.taken += size
        self.messages.feed(payload)
        if len(payload) < size:
            self.messages.lose(size - len(payload))

    def take_held(self):
        """Takes what was held and follows now."""
        while self.held and self.held[0][0] <= self.taken:
            place, size, payload = heapq.heappop(self.held)
            self.held_bytes -= len(payload)
            repeated = self.taken - place
            if repeated < size:
                self.take(payload[repeated:], size - repeated)

    def give_up_gap(self):
        """The bytes before what is held are missing."""
        missing = self.held[0][0] - self.taken
        self.messages.lose(missing)
        self.next = (self.next + missing) & SEQUENCES
        self.taken += missing
        self.take_held()

    def check_gap(self, time):
        """Gives a gap up that has been there for too long."""
        if self.held and not -LATEST <= time - self.held_since < LONGEST_GAP:
            self.held_since = time
            self.give_up_gap()

    def is_near(self, sequence):
        """Whether a sequence number is one that this side may be at."""
        return self.next is None or (sequence - self.next + NEAR) & SEQUENCES < 2 * NEAR


class Link:
    """A TCP connection: its peer is the switch or the controller, and the other side the proxy."""

    __slots__ = ("role", "client", "server", "peer", "proxy", "state", "since", "is_late", "keys", "first", "view", "number")

    def __init__(self, role, client, server, keys, time, number):
        self.role = role  # SWITCH or the slot of a controller
        self.client, self.server = client, server
        self.peer, self.proxy = Side(self, True, time), Side(self, False, time)
        self.state = State.CALLED
        self.since = time  # when it came up, or was called, or ended
        self.is_late = False
        self.keys = keys
        self.first = None  # the number of the client's SYN
        self.view = None  # of whom it is, for who watches
        self.number = number  # of its first packet

    def last(self):
        """When it last had bytes, or ended."""
        return max(self.since, self.peer.last, self.proxy.last)

    def release(self):
        """Frees its memory at once: its sides and their messages name each other, and such cycles are collected late."""
        for side in (self.peer, self.proxy):
            side.messages = side.link = None
