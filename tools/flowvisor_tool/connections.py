"""TCP connections: how far one is, and which segments are its own."""
import enum
import math

from .captures import Problem
from .segments import ACK, FIN, RST, SYN
from .streams import FIRST_WINDOW, SEQUENCES, FeaturesWatch, Stream, nearest

# The role of a switch's connection; that of a controller's is the slot.
SWITCH = "switch"


class State(enum.Enum):
    """How far a connection is. One that ends before both sides have agreed to it was refused."""

    OPENING = enum.auto()
    UP = enum.auto()
    ENDED = enum.auto()
    REFUSED = enum.auto()


class Connection:
    """A TCP connection. Its peer is the switch or the controller, which stands at the other side than the proxy."""

    def __init__(self, number, client, server, role):
        self.number = number  # of its first packet
        self.client = client
        self.server = server
        self.role = role  # SWITCH, the slot of a controller, or None where nothing is recorded of it
        self.peer = client if role == SWITCH else server
        self.streams = {client: Stream(), server: Stream()}
        self.early = []  # segments that were captured before the controller's answer to the SYN
        self.features = FeaturesWatch()
        self.state = State.OPENING
        self.displaced = None  # the number of a connection that was up, and whose end by this one isn't sure yet
        self.before = None  # the connection that was up between the same ports, until the SYN of this one is answered
        self.reset_by = set()  # the sides that have reset it
        self.known_at_reset = None  # the furthest place before which the peer was known to have sent all when the proxy reset
        self.proxy_has_ended = False
        self.acknowledged = None  # the furthest place before which the proxy acknowledges all, up to its first end
        self.acknowledged_by = None  # the number of the first packet that acknowledges as much
        self.end_acknowledges = False  # whether that end acknowledges anything
        self.proxy_is_seen = False
        self.proxy_has_sent = 0  # how many numbers behind its SYN the proxy is seen to have used
        self.proxy_fin_is_seen = False
        self.first_sign = math.inf  # the number of the first packet that shows that the proxy knows of the end, acknowledgements aside

    def came_up(self):
        """Whether both sides have agreed to the connection, be it up or ended."""
        return self.state in (State.UP, State.ENDED)

    def agree(self, number):
        """Both sides have agreed to the connection, as this packet shows."""
        self.state = State.UP
        self.take_place(number)

    def take_place(self, number):
        """This packet shows that the connection before between the same ports is over, and that the proxy knows of it."""
        self.displaced = None
        if self.before is not None:
            self.before.first_sign = min(number, self.before.end_shown_by())
            self.before = None

    def has_end(self):
        """Whether one side has ended the connection."""
        return self.proxy_has_ended or bool(self.reset_by) or self.streams[self.peer].is_finished()

    def is_reset_by_proxy(self):
        """Whether the proxy has reset the connection."""
        return bool(self.reset_by - {self.peer})

    def is_ended_by_proxy(self):
        """Whether the proxy has ended or reset the connection."""
        return self.proxy_has_ended or self.is_reset_by_proxy()

    def must_end(self):
        """Whether a side has ended the connection, and no bytes are missing that its end counts, as far as that shows."""
        if self.state is State.OPENING:
            return self.proxy_has_ended or bool(self.reset_by)
        # The proxy takes nothing any more once it has ended, so that it doesn't matter what its peer sent besides.
        if self.is_ended_by_proxy():
            return self.has_acknowledged()
        return self.has_end() and self.streams[self.peer].unmet_claim() is None

    def has_acknowledged(self):
        """Whether all bytes are there that the proxy acknowledged up to its end."""
        stream = self.streams[self.peer]
        return self.acknowledged is None or stream.next + stream.is_finished() >= self.acknowledged

    def acknowledge(self, segment):
        """Notes which bytes of its peer the proxy acknowledges."""
        if not self.came_up() or not segment.flags & ACK:
            return
        stream = self.streams[self.peer]
        stream.acknowledge(segment)
        # What it acknowledged before its end it had taken, though the end's own number may be lower.
        if not self.is_ended_by_proxy():
            place = stream.place(segment.acknowledgement)
            if self.acknowledged is None or place > self.acknowledged:
                self.acknowledged, self.acknowledged_by = place, segment.number
            self.end_acknowledges = bool(segment.flags & (FIN | RST))

    def note_sign(self, number):
        """This packet shows that the proxy knows of the connection's end."""
        self.first_sign = min(number, self.first_sign)

    def end_shown_by(self):
        """The number of the packet that shows that the proxy knows of the connection's end. Infinite without one."""
        end = self.streams[self.peer].end
        # The proxy's host acknowledges a FIN, perhaps before the proxy knows of it: that counts only where nothing else does.
        if self.first_sign == math.inf and None not in (end, self.acknowledged) and self.acknowledged > end:
            return self.acknowledged_by
        return self.first_sign

    def limit(self):
        """The place before which the peer's bytes are recorded. A proxy that has ended counts only those it acknowledged."""
        return self.acknowledged if self.is_ended_by_proxy() and self.acknowledged is not None else math.inf

    def counted(self):
        """The place before which the proxy had the peer's bytes when it ended, as its end says. Infinite where it doesn't."""
        return self.limit() if self.end_acknowledges else math.inf

    def take(self):
        """The place of the peer's bytes that follow on those taken, and these, as far as they are recorded."""
        stream = self.streams[self.peer]
        first, data = stream.next, stream.take()
        return first, data[: max(0, min(len(data), self.limit() - first))]

    def end(self):
        """The connection ends, where it hasn't yet."""
        self.state = {State.OPENING: State.REFUSED, State.UP: State.ENDED}.get(self.state, self.state)

    def begins_with(self, segment):
        """Whether a SYN is one of this connection's, and doesn't begin another one between the same ports."""
        if self.state is State.REFUSED:
            return self.is_answered_by(segment)
        if not segment.flags & ACK:
            return segment.source == self.client and self.streams[self.client].is_begun_by(segment) and not self.is_over()
        server = self.streams[self.server]
        return segment.source == self.server and (self.state is State.OPENING or server.first is None or server.is_begun_by(segment))

    def is_over(self):
        """Whether both sides have ended the connection, or one has reset it."""
        return bool(self.reset_by) or (self.proxy_has_ended and self.streams[self.peer].is_finished())

    def open(self, segment):
        """Learns from a SYN where the sides' streams begin, and tells whether it is the one that its side's begins with."""
        client, server = self.streams[self.client], self.streams[self.server]
        if self.has_end() and not segment.flags & ACK:
            raise Problem(segment.number, f"this SYN has the number of the connection of packet {self.number}, of which one side has ended")
        if self.state is State.OPENING:
            if not segment.flags & ACK:
                client.begin(segment.sequence + 1)
            elif client.first is None:
                client.begin(segment.acknowledgement)
            # One that answers an older SYN is passed over.
            if self.is_answered_by(segment):
                server.begin(segment.sequence + 1)
                self.take_place(segment.number)
        return self.streams[segment.source].is_begun_by(segment)

    def is_answered_by(self, segment):
        """Whether a segment of the server acknowledges the client's SYN, and perhaps bytes of it."""
        if segment.source != self.server or not segment.flags & ACK:
            return False
        return (segment.acknowledgement - self.streams[self.client].first) & SEQUENCES < FIRST_WINDOW

    def is_of_before(self, segment):
        """Whether a segment of the server precedes its answer to the SYN, and doesn't acknowledge that: it is of a connection before."""
        if self.state is not State.OPENING or segment.source != self.server or self.streams[self.server].first is not None:
            return False
        return self.streams[self.client].first is not None and not self.is_answered_by(segment)

    def is_agreed_by(self, segment):
        """Whether a segment shows that both sides have agreed to the connection."""
        if segment.source == self.client:
            return bool(segment.flags & ACK)
        is_begun = self.peer == self.server or self.streams[self.server].first is not None
        return segment.size > 0 and is_begun and self.is_answered_by(segment)

    def must_wait(self):
        """Whether it isn't known yet where the peer's bytes begin: the controller's answer to the SYN wasn't captured."""
        return self.streams[self.peer].next is None

    def is_after_end(self, segment):
        """Whether a side has ended the connection and sends something new: the proxy behind its reset, or the peer bytes."""
        if segment.source != self.peer:
            return segment.source in self.reset_by and not self.is_from_before_reset(segment)
        stream = self.streams[self.peer]
        has_ended = self.state is not State.UP and (self.peer in self.reset_by or stream.is_finished())
        return has_ended and segment.size > 0 and not stream.is_repeat(segment)

    def is_from_before_reset(self, segment):
        """Whether the proxy may have sent a segment before its reset: neither the bytes in it nor those it acknowledges are newer."""
        if self.known_at_reset is None:
            return False
        # Another connection's packets may have such numbers by chance, but hardly acknowledge this one's bytes too.
        stream = self.streams[self.peer]
        is_known = stream.first <= stream.place(segment.acknowledgement) <= self.known_at_reset
        return is_known and self.streams[segment.source].has_sent(segment)

    def check(self, segment):
        """Names a segment that can't be of this connection: the capture lacks the beginning of its own."""
        is_agreed = self.is_agreed_by(segment)
        if self.is_after_end(segment) or (is_agreed and self.state is State.REFUSED):
            raise Problem(segment.number, f"the connection of packet {self.number} has ended before")
        has_effect = (segment.source == self.peer and segment.size > 0) or (is_agreed and self.state is State.OPENING)
        if has_effect and self.streams[segment.source].is_behind(segment):
            raise Problem(segment.number, f"it lies before the beginning of the connection of packet {self.number}")

    def see_proxy(self, segment):
        """Notes how far the proxy has sent, as the number of a segment without bytes tells too."""
        if segment.flags & SYN:
            return
        self.proxy_is_seen = True
        self.proxy_fin_is_seen |= bool(segment.flags & FIN)
        stream = self.streams[segment.source]
        if stream.first is None:
            # Where its numbers begin isn't known, so that bytes may stand before this.
            self.proxy_has_sent = math.inf
            return
        if segment.source not in self.reset_by:
            stream.note_sent(segment)
        # A FIN has a number of its own, and the byte of a probe may have the number of the SYN.
        behind = nearest(segment.sequence, stream.first) - stream.first + segment.size + bool(segment.flags & FIN)
        self.proxy_has_sent = max(self.proxy_has_sent, behind)

    def see_acknowledged(self, segment):
        """Notes how far the peer acknowledges what the proxy has sent, which the capture may lack."""
        stream = self.streams[self.client if self.peer == self.server else self.server]
        if stream.first is not None and self.came_up() and segment.flags & (ACK | RST) == ACK:
            self.proxy_has_sent = max(self.proxy_has_sent, nearest(segment.acknowledgement, stream.first) - stream.first)

    def is_passed_over(self):
        """Whether the proxy didn't take the connection up: it greets whom it does."""
        return self.proxy_is_seen and self.proxy_has_sent <= self.proxy_fin_is_seen

    def lack(self):
        """The problem of what is missing of the connection. None where nothing is known to be."""
        if self.displaced is not None:
            return Problem(self.number, f"nothing answers this SYN, so that the connection of packet {self.displaced} may go on behind it")
        if self.is_passed_over():
            return None
        for segment in self.early:
            if self.is_agreed_by(segment):
                return Problem(segment.number, f"the answer to the SYN in packet {self.number} isn't in the capture")
        # What is lost on the way to a proxy that has reset the connection isn't sent again.
        if self.is_reset_by_proxy() and self.end_acknowledges and self.has_acknowledged():
            return None
        return self.streams[self.peer].lack() if self.came_up() else None
