"""What the records of a capture are made with: their list, the switches' numbers, and what is left out."""
import collections

from .captures import Problem
from .openflow.framing import Frames
from .openflow.protocol import Header
from .openflow.text import message_type_of
from .recordings import LARGEST_RECORD, MAGIC, SWITCHES, Record


class Records:
    """The records of a recording, in their order."""

    def __init__(self, limit):
        self.limit = limit
        self.parts = [MAGIC]
        self.size = len(MAGIC)

    def add(self, number, kind, moment, data=b"", slot=0, switch=0):
        """Adds a record of what a packet did: more than one only for very many bytes."""
        if moment >= 1 << 64:
            raise Problem(number, "its time is too far from the first packet's")
        for at in range(0, len(data) or 1, LARGEST_RECORD):
            spelled = Record(kind, moment, data[at : at + LARGEST_RECORD], slot, switch).spelled()
            self.parts.append(spelled)
            self.size += len(spelled)
        if self.size > self.limit:
            raise Problem(number, f"the recording would pass the {self.limit} bytes that replay takes")

    def spelled(self):
        """The recording."""
        return b"".join(self.parts)


class SwitchNumbers:
    """The numbers of switches: the n-th connection has number n, and after 16 of them the lowest that has ended."""

    def __init__(self):
        self.used = set()
        self.begun = 0

    def take(self, packet):
        """The number of the connection that comes up with a packet."""
        free = [number for number in range(SWITCHES) if number not in self.used]
        if not free:
            raise Problem(packet, f"more than {SWITCHES} switches are connected at once")
        number = min(free) if self.begun >= SWITCHES else self.begun
        self.begun += 1
        self.used.add(number)
        return number

    def give_back(self, number):
        """The connection of this number has ended."""
        self.used.discard(number)


class Sieve:
    """Leaves the messages of some types out of streams, and counts them."""

    def __init__(self, types):
        self.types = types
        self.frames = collections.defaultdict(Frames)  # by connection
        self.counts = collections.Counter()

    def sifted(self, connection, data):
        """What is left of the next bytes of a connection. An unfinished message waits for its end."""
        if not self.types:
            return data
        return b"".join(message for message in self.frames[connection].messages(data) if self.keeps(message))

    def keeps(self, message):
        """Whether a message stays. One that doesn't is counted."""
        kind = Header.of(message).type
        if kind not in self.types:
            return True
        self.counts[kind] += 1
        return False

    def lines(self):
        """A line for each of the types."""
        return [f"left out: {self.counts[kind]} {message_type_of(kind)}" for kind in sorted(self.types)]
