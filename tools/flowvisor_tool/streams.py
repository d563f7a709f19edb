"""TCP streams: what one side of a connection sends, put in order."""
import heapq

from .captures import Problem
from .openflow.framing import Frames
from .recordings import is_features_reply
from .segments import FIN, RST, SYN

SEQUENCES = 0xFFFFFFFF
# A SYN's window has 16 bits and isn't scaled: all that a client sends before it is answered has fewer numbers than this.
FIRST_WINDOW = 1 << 16

EARLIER_BYTES = "its side sent bytes before it that aren't in the capture"
ACKNOWLEDGED_BYTES = "it acknowledges bytes that aren't in the capture"


def nearest(sequence, place):
    """The place of a sequence number that is the nearest one to a place."""
    return place + ((sequence - place + (1 << 31)) & SEQUENCES) - (1 << 31)


class Stream:
    """What one side of a connection sends, put in order.

    A place is a sequence number that doesn't wrap around, but counts on.
    """

    def __init__(self):
        self.first = None  # the first byte's sequence number; None while it isn't known
        self.next = None  # the place of the next byte
        self.end = None  # the place behind the last byte, once it is known
        self.held = []  # a heap of bytes that wait: the place, the packet's number, how many were sent, and those that are there
        self.claim = None  # the furthest place before which all is said to be sent, by which packet, and its problem
        self.sent = None  # the furthest place that the side's own packets show, where they are looked at

    def begin(self, sequence):
        """The first byte has this sequence number."""
        self.first = self.next = self.sent = sequence & SEQUENCES

    def is_begun_by(self, segment):
        """Whether a SYN has the number before the first byte's."""
        return self.first == (segment.sequence + 1) & SEQUENCES

    def place(self, sequence):
        """The place of a sequence number: the nearest one to the next byte's."""
        return nearest(sequence, self.next)

    def place_of(self, segment):
        """The place of a segment's first byte, which comes behind the number of a SYN."""
        return self.place(segment.sequence + bool(segment.flags & SYN))

    def is_behind(self, segment):
        """Whether a segment lies wholly before the stream's first byte. A probe doesn't, which has the number of the SYN."""
        return self.next is not None and self.place_of(segment) + max(1, segment.size) < self.first

    def is_repeat(self, segment):
        """Whether all bytes of a segment were taken before. A probe's byte with the FIN's number is none."""
        return self.next is not None and self.place_of(segment) + segment.size <= self.next + self.is_finished()

    def note_sent(self, segment):
        """Notes how far a segment shows that its side has sent."""
        # A FIN has a number of its own.
        place = nearest(segment.sequence, self.sent) + segment.size + bool(segment.flags & FIN)
        # A reset that is far off tells nothing: anybody can have made it.
        if not segment.flags & RST or place - self.sent < FIRST_WINDOW:
            self.sent = max(self.sent, place)

    def has_sent(self, segment):
        """Whether a segment lies within what its side is known to have sent. A probe may have the number of the SYN."""
        if self.sent is None:
            return False
        place = nearest(segment.sequence, self.sent)
        return self.first - 1 <= place and place + segment.size <= self.sent

    def known_end(self):
        """The furthest place before which all is known to be sent, be it there or not."""
        taken = self.next + self.is_finished()
        return max(taken, self.claim[0]) if self.claim else taken

    def put(self, segment):
        """Takes the bytes of a segment in."""
        place = self.place_of(segment)
        if not segment.size:
            self.note_claim(place, segment.number, EARLIER_BYTES)
        elif not self.is_repeat(segment):
            heapq.heappush(self.held, (place, segment.number, segment.size, segment.payload))
        # One that lies behind the bytes is of a connection before.
        if segment.flags & FIN and self.end is None and place + segment.size >= self.next:
            self.end = place + segment.size

    def take(self):
        """The bytes that follow on those taken, up to the first gap. Those that the capture has cut off are left out."""
        parts = []
        while self.held and self.held[0][0] <= self.next:
            place, _number, size, payload = heapq.heappop(self.held)
            parts.append(payload[self.next - place :])
            self.next = max(self.next, place + size)
        return b"".join(parts)

    def acknowledge(self, segment):
        """The other side says that it has all bytes before the segment's acknowledgement."""
        self.note_claim(self.place(segment.acknowledgement), segment.number, ACKNOWLEDGED_BYTES)

    def note_claim(self, place, number, text):
        """A packet shows that all before a place was sent. The text says what that is where it isn't there."""
        if self.claim is None or place > self.claim[0]:
            self.claim = place, number, text

    def is_finished(self):
        """Whether all bytes up to the side's FIN were taken."""
        return self.end is not None and self.next >= self.end

    def lack(self):
        """The problem of bytes that are missing. None where none are known to be."""
        if self.held:
            return Problem(self.held[0][1], EARLIER_BYTES)
        return self.unmet_claim()

    def unmet_claim(self):
        """The problem of missing bytes that were sent, as a packet behind them shows. None where none are known to be."""
        # A FIN has a number of its own, behind the bytes.
        if self.claim is not None and self.claim[0] > self.next + self.is_finished():
            return Problem(*self.claim[1:])
        return None


class FeaturesWatch:
    """Looks for the first FEATURES_REPLY in a stream of messages, for the datapath id in it."""

    def __init__(self):
        self.frames = Frames()
        self.datapath = None

    def is_over(self):
        """Whether nothing more is looked for: it was found, or nobody knows where the next message begins."""
        return self.datapath is not None or self.frames.is_over

    def hear(self, data):
        """Looks at the stream's next bytes."""
        if self.is_over():
            return
        for message in self.frames.messages(data):
            if is_features_reply(message):
                self.datapath = message[8:16]
                return
