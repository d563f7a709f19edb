"""The TCP connections of a proxy as a capture grows, in bounded memory."""
import math
import struct

from ..captures import Packet, Problem
from ..connections import SWITCH
from ..openflow.ethernet import IPV4, TCP
from ..segments import ACK, FIN, RST, SYN, datagram_of, segment_of
from .links import LATEST, SEQUENCES, How, Link, State
from .messages import Certainty, Messages

MOST_LINKS = 1024
# In which order connections are forgotten where there are more.
GOING = State.ENDED, State.CALLED, State.UP
# A connection that has ended and has bytes after so many seconds is another one, whose beginning isn't in the capture.
REMAINS = 2.0
# For how many seconds a connection is known that has ended, or a call that nobody answers.
KEPT = 60

# Where the type and the IPv4 packet stand behind the head of a link, for the links of most captures.
PLAIN_LINKS = {1: (12, 14), 113: (14, 16), 276: (0, 20), 101: (None, 0), 228: (None, 0)}
# The total length, the numbers of the TCP header, its length and its flags, from the beginning of a plain IPv4 header on.
PLAIN = struct.Struct(">2xH20xIIBB")
PLAIN_SIZE = 40
NO_PLAIN_LINK = None, math.inf
IPV4_TYPE = IPV4.to_bytes(2, "big")
MARKS = SYN | FIN | RST


class Follower:
    """Follows the connections of a policy's proxy through a capture, and tells an observer what happens.

    The observer has `readers(role, is_peer)`, who reads messages, and `called`, `up` and `ended`, which report connections;
    `observe_second` is called where a second of the capture begins.
    """

    def __init__(self, ends, observer, observe_second):
        self.ends = ends
        self.observer = observer
        self.observe_second = observe_second
        self.second = math.inf  # before the first packet
        self.sides = {}  # by the addresses and the ports
        self.open_sides = {}  # those of connections that are up
        self.links = {}  # in the order in which they began
        self.time = 0.0
        self.packets = 0
        self.unreadable = 0  # packets that can't be read, and may be of a connection
        self.passed_missing = self.passed_unread = 0  # of the connections that aren't kept any more

    def hear(self, time, data, start, end, full, link):
        """Takes in the capture's next packet: one of IPv4 and TCP without options and whole is read here, any other further below."""
        self.packets += 1
        if time is not None:
            if not self.second <= time < self.second + 1:
                self.begin_second(time)
            self.time = time
        type_at, at = PLAIN_LINKS.get(link, NO_PLAIN_LINK)
        at += start
        if (
            end - at >= PLAIN_SIZE and data[at] == 0x45 and data[at + 9] == TCP and not data[at + 7] and not data[at + 6] & 0x3F
            and (type_at is None or data[start + type_at : start + type_at + 2] == IPV4_TYPE)
        ):
            total, sequence, acknowledgement, offset, flags = PLAIN.unpack_from(data, at)
            body, stop = at + 20 + (offset >> 4) * 4, at + total
            if offset >= 0x50 and body <= stop <= end:
                side = self.open_sides.get(data[at + 12 : at + 24])
                if side is None or flags & MARKS:
                    self.mark(data[at + 12 : at + 24], sequence, acknowledgement, flags, data[body:stop], stop - body)
                    return
                side.acknowledges = acknowledgement
                if body == stop:
                    return
                side.last = self.time
                if sequence != side.next or side.held:
                    side.put(self.time, sequence, data[body:stop], stop - body)
                    return
                side.next = (sequence + stop - body) & SEQUENCES
                side.taken += stop - body
                side.messages.feed(data[body:stop])
                return
        self.hear_other(data[start:end], full, link)

    def begin_second(self, time):
        """The time of a packet is in another second than that of the packet before."""
        self.second = math.floor(time)
        self.observe_second(self.second)

    def hear_other(self, data, full, link):
        """Takes in a packet that isn't plain IPv4 with TCP."""
        packet = Packet(self.packets, None, link, data, full)
        try:
            datagram = datagram_of(packet)
            if datagram is None or datagram.source[1] is None or not self.ends.concern(datagram):
                return
            segment = segment_of(packet, datagram)
        except Problem:
            self.unreadable += 1
            return
        key = b"".join((
            segment.source[0], segment.destination[0],
            segment.source[1].to_bytes(2, "big"), segment.destination[1].to_bytes(2, "big"),
        ))
        self.mark(key, segment.sequence, segment.acknowledgement, segment.flags, segment.payload, segment.size)

    def mark(self, key, sequence, acknowledgement, flags, payload, size):
        """Takes in any segment, also one that begins or ends a connection, or is of none that is up."""
        side = self.sides.get(key)
        if flags & RST:
            self.reset(side, sequence)
            return
        if flags & SYN:
            side = self.open(key, side, sequence, acknowledgement, flags)
            sequence = (sequence + 1) & SEQUENCES
        elif size:
            side = self.side_of_bytes(key, side)
        if side is None or side.link.state is State.ENDED:
            return
        side.last = self.time
        if side.link.state is State.CALLED and not flags & SYN and flags & ACK:
            self.agree(side.link)
        if flags & ACK:
            side.acknowledges = acknowledgement
        if size:
            side.put(self.time, sequence, payload, size)
        if flags & FIN and side.link.state is State.UP:
            self.end(side.link, side, How.END)

    def open(self, key, side, sequence, acknowledgement, flags):
        """A SYN begins a connection, answers such a call, or is sent once more. The side of who sent it."""
        first = (sequence + 1) & SEQUENCES
        if flags & ACK:
            if side is None or side.link.state is State.ENDED:
                side = self.begin(key, is_client=False)
            if side is not None and side.link.state is State.CALLED and not self.is_client(side):
                side.next = first
                other = self.other(side)
                if other.next is None:
                    other.next = acknowledgement
                self.agree(side.link)
            return side
        if side is not None and side.link.first == first and side.link.state is not State.ENDED:
            return side
        if side is not None and not self.is_client(side):
            return None
        side = self.begin(key, is_client=True)
        if side is not None:
            side.next = side.link.first = first
            self.observer.called(side.link)
        return side

    def side_of_bytes(self, key, side):
        """Of whom bytes are: where their connection isn't known, or has ended long ago, it was open before."""
        if side is not None and not (side.link.state is State.ENDED and self.time - side.link.since > REMAINS):
            return side
        source, destination = ends_of(key)
        is_client = self.ends.role(destination) is not None
        side = self.begin(key, is_client)
        if side is not None:
            side.link.is_late = True
            for each in (side.link.peer, side.link.proxy):
                each.messages.certainty = Certainty.LOST
            self.agree(side.link)
        return side

    def begin(self, key, is_client):
        """The side of who sends in a connection that begins; None where it isn't of the proxy."""
        source, destination = ends_of(key)
        client, server = (source, destination) if is_client else (destination, source)
        role = self.ends.role(server)
        if role is None:
            return None
        self.replace(key)
        if len(self.links) >= MOST_LINKS:
            self.forget_some()
        back = key_of(destination, source)
        link = Link(role, client, server, (key, back), self.time, self.packets)
        for side in (link.peer, link.proxy):
            readers, reader_of_others = self.observer.readers(role, side.is_peer)
            side.messages = Messages(side, readers, reader_of_others)
        sender_is_peer = is_client == (role == SWITCH)
        sender, receiver = (link.peer, link.proxy) if sender_is_peer else (link.proxy, link.peer)
        self.sides[key], self.sides[back] = sender, receiver
        self.links[link] = None
        return sender

    def replace(self, key):
        """Another connection between the same ends begins."""
        side = self.sides.get(key)
        if side is not None:
            self.end(side.link, None, How.REPLACED)
            self.drop(side.link)

    def agree(self, link):
        """Both sides have agreed to a connection."""
        link.state, link.since = State.UP, self.time
        self.open_sides.update((key, self.sides[key]) for key in link.keys)
        self.observer.up(link)

    def reset(self, side, sequence):
        """A side resets a connection, or refuses a call."""
        if side is None or side.link.state is State.ENDED:
            return
        if side.link.state is State.CALLED:
            self.end(side.link, side, How.RESET if self.is_client(side) else How.REFUSED)
        elif side.is_near(sequence):
            self.end(side.link, side, How.RESET)

    def end(self, link, side, how):
        """A connection ends, where it hasn't yet. The side is that which ended it."""
        if link.state is State.ENDED:
            return
        for each in (link.peer, link.proxy):
            while each.held:
                each.give_up_gap()
        before, link.state, link.since = link.state, State.ENDED, self.time
        for key in link.keys:
            self.open_sides.pop(key, None)
        self.observer.ended(link, side, how, before is State.UP)

    def forget_some(self):
        """Makes room for other connections: a quarter goes, the longest silent first, but none that is up where others are."""
        oldest = sorted(self.links, key=lambda link: (GOING.index(link.state), link.last()))[: MOST_LINKS // 4]
        for link in [one for one in oldest if one.state is not State.UP] or oldest:
            if link.state is not State.ENDED:
                self.end(link, None, How.FORGOTTEN)
            self.drop(link)

    def drop(self, link):
        """Keeps nothing of a connection but what wasn't read of it."""
        self.links.pop(link, None)
        for key in link.keys:
            self.sides.pop(key, None)
        self.passed_missing += link.peer.messages.missing + link.proxy.messages.missing
        self.passed_unread += link.peer.messages.unread + link.proxy.messages.unread
        link.release()

    def tick(self, time):
        """Gives up gaps that have been there for too long, and forgets connections that have ended long ago."""
        for link in list(self.links):
            if link.state is State.UP:
                link.peer.check_gap(time)
                link.proxy.check_gap(time)
            elif not -LATEST <= time - link.since < KEPT:
                self.end(link, None, How.FORGOTTEN)
                self.drop(link)

    def missing(self):
        """How many bytes aren't in the capture that were sent."""
        return self.passed_missing + sum(link.peer.messages.missing + link.proxy.messages.missing for link in self.links)

    def unread(self):
        """How many bytes are in the capture of which it isn't known what messages they are."""
        return self.passed_unread + sum(link.peer.messages.unread + link.proxy.messages.unread for link in self.links)

    @staticmethod
    def is_client(side):
        return side.is_peer == (side.link.role == SWITCH)

    @staticmethod
    def other(side):
        return side.link.proxy if side.is_peer else side.link.peer


def ends_of(key):
    """The two ends, each an address and a port, of which a key is made."""
    size = (len(key) - 4) // 2
    source = key[:size], int.from_bytes(key[-4:-2], "big")
    return source, (key[size : 2 * size], int.from_bytes(key[-2:], "big"))


def key_of(source, destination):
    """The key of segments from one end to another."""
    return b"".join((source[0], destination[0], source[1].to_bytes(2, "big"), destination[1].to_bytes(2, "big")))
