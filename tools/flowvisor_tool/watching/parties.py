"""Switches, and slices on them: whether they are connected, and what is counted of them."""
import collections

from ..openflow.protocol import Header
from .tallies import RATED, Plot, Tally

MOST_REFUSALS, MOST_CODES = 8, 64
# How many of a controller's last messages are kept, and how much of each, to tell what of one was refused.
MOST_SENT, MOST_SENT_BYTES = 64, 1024
# A side that doesn't acknowledge what it was sent for so many seconds is silent.
SILENT = 5
OTHER_CODE = (0xFFFF, 0xFFFF)
# How many entries are kept, of all switches together.
MOST_ENTRIES = 500_000


class Party:
    """A switch, or a slice's controller on one: whether it is connected, since when, and what it sends and gets."""

    def __init__(self, time):
        self.link = None
        self.is_up = False
        self.since = time
        self.reason = "no connection was seen"
        self.silent = 0  # for how many seconds what was sent isn't acknowledged
        self.waiting = None  # what stood unacknowledged at the last tick
        self.connections = 0
        self.sent, self.got = Tally(), Tally()
        self.plot = Plot()

    def connect(self, link):
        """It has a connection."""
        self.link, self.is_up, self.since, self.reason = link, True, link.since, ""
        self.silent, self.waiting = 0, None
        self.connections += 1
        self.sent.follow(link.peer.messages.counts)
        self.got.follow(link.proxy.messages.counts)

    def disconnect(self, time, reason):
        """Its connection has ended."""
        self.link, self.is_up, self.since, self.reason, self.silent = None, False, time, reason, 0
        self.sent.settle()
        self.got.settle()

    def count(self, second, passed, refused):
        """A second is over that had packets, and so many seconds have passed since it began."""
        self.plot.add(second, (self.sent.tick(), self.got.tick(), refused))
        if self.link is not None:
            self.watch_silence(passed)

    def watch_silence(self, passed):
        """Looks whether what one side has sent is acknowledged by the other."""
        waiting = tuple(
            (side.next, other.acknowledges)
            for side, other in ((self.link.peer, self.link.proxy), (self.link.proxy, self.link.peer))
            if None not in (side.next, other.acknowledges) and 0 < (side.next - other.acknowledges) & 0xFFFFFFFF < 1 << 31
        )
        acknowledged = tuple(acknowledges for _next, acknowledges in waiting)
        self.silent = self.silent + passed if acknowledged and acknowledged == self.waiting else 0
        self.waiting = acknowledged


class SliceHere(Party):
    """A slice on one switch."""

    def __init__(self, slot, time):
        super().__init__(time)
        self.slot = slot
        self.call = ""  # what came of the last call of its controller, where that didn't connect
        self.refused = collections.Counter()  # by type and code
        self.refused_before = 0
        self.refusals = collections.deque(maxlen=MOST_REFUSALS)
        self.told = 0  # refusals of this second that were reported one by one
        self.pieces = 0  # flow-mods that the switch was sent for it
        self.entries = 0
        self.entries_at_least = False
        self.last_sent = collections.deque(maxlen=MOST_SENT)

    def connect(self, link):
        """Its controller is connected."""
        super().connect(link)
        self.call = ""

    def refuse(self, error):
        """Counts a refusal."""
        known = error in self.refused or len(self.refused) < MOST_CODES
        self.refused[error if known else OTHER_CODE] += 1

    def sent_message(self, xid):
        """The last message that its controller sent under a transaction id, as far as it is kept; or None."""
        for message in reversed(self.last_sent):
            if Header.of(message).xid == xid:
                return message
        return None

    def rated(self):
        """How many messages of the last second its rate counts."""
        return sum(self.sent.rates[kind] for kind in RATED)

    def absorb(self, other):
        """Takes over what was counted before it was known that it is of this switch."""
        self.sent.absorb(other.sent)
        self.got.absorb(other.got)
        self.refused += other.refused
        self.refused_before += other.refused_before
        self.refusals.extend(other.refusals)
        self.last_sent = other.last_sent


class Room:
    """How many entries more can be kept, of all switches together."""

    def __init__(self, entries=MOST_ENTRIES):
        self.entries = entries

    def take(self):
        """Takes the room of an entry; answers whether there was any."""
        if not self.entries:
            return False
        self.entries -= 1
        return True

    def give_back(self, count):
        """So many entries are kept no longer."""
        self.entries += count


class SwitchHere(Party):
    """A switch, and the slices on it."""

    def __init__(self, slots, time, room):
        super().__init__(time)
        self.room = room
        self.datapath = None
        self.address = None
        self.slices = {slot: SliceHere(slot, time) for slot in slots}
        self.nobody = 0  # packet-ins that no rule has
        self.nobody_before = 0
        self.nobody_told = 0
        self.last_nobody = ""
        self.errors = 0
        self.entries = {}  # the entries that the proxy has booked, each with its slot and the transaction id

    def name(self):
        """Its datapath id, or its address where that isn't known."""
        return f"{self.datapath:016x}" if self.datapath is not None else f"at {self.address}"

    def take_over(self, other):
        """It is the switch that was another one until its datapath id was known."""
        self.address = other.address
        self.nobody, self.nobody_before = self.nobody + other.nobody, self.nobody_before + other.nobody_before
        self.nobody_told += other.nobody_told
        self.errors += other.errors

    def book(self, pair, slot, xid, quota):
        """A flow-mod for a slice puts an entry into the switch."""
        here = self.slices.get(slot)
        if here is None or pair in self.entries:
            return
        if here.entries >= quota or not self.room.take():
            here.entries_at_least = True
            return
        self.entries[pair] = slot, xid
        here.entries += 1

    def release(self, pair, xid=None):
        """An entry has left the switch, or was refused by it to a request that booked it."""
        slot, booked_by = self.entries.get(pair, (None, None))
        if slot is not None and xid in (None, booked_by):
            del self.entries[pair]
            self.slices[slot].entries -= 1
            self.room.give_back(1)

    def disconnect(self, time, reason):
        """Its connection has ended: what it has is not known any more."""
        super().disconnect(time, reason)
        self.forget_entries()

    def forget_entries(self):
        """The switch is set up anew, with an empty table, or isn't kept any more."""
        self.room.give_back(len(self.entries))
        self.entries.clear()
        for here in self.slices.values():
            here.entries, here.entries_at_least = 0, False
