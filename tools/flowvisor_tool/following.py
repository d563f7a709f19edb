"""What happens at the connections of a capture, packet by packet."""
import dataclasses
import enum

from .captures import Moments, Problem, packets_of
from .connections import SWITCH, Connection, State
from .files import named
from .segments import ACK, FIN, RST, SYN, datagram_of, segment_of
from .streams import EARLIER_BYTES

CUT_BYTES = "the capture has cut off its bytes"


class Change(enum.Enum):
    """What can happen to a connection. Bytes that the capture has cut off matter only where they would be recorded."""

    UP = enum.auto()
    BYTES = enum.auto()
    DOWN = enum.auto()
    CUT = enum.auto()


@dataclasses.dataclass(slots=True)
class Happening:
    """What a packet does to a connection: it comes up, bytes of its peer follow on those before or are cut off, or it ends."""

    number: int
    moment: int
    connection: Connection
    kind: Change
    data: bytes = b""
    place: int = 0  # of the first of these bytes

    def counted(self):
        """The bytes that reached the proxy: what was captured before its end, but isn't counted by that, didn't."""
        return self.data[: max(0, min(len(self.data), self.connection.counted() - self.place))]


class Follower:
    """Follows the connections that are recorded through a capture, and puts what happens at them on a list."""

    def __init__(self, ends, happenings):
        self.ends = ends
        self.connections = {}
        self.calls = {}  # connections by what their SYNs keep behind a translation of the proxy's address
        self.hosts = {}  # by the two addresses, the first packet of the first recorded connection between them
        self.happenings = happenings
        self.moment = 0

    def hear(self, packet, moment):
        """Takes in the capture's next packet."""
        datagram = datagram_of(packet)
        if datagram is None or not self.ends.concern(datagram):
            if datagram is not None and datagram.source[1] is None:
                self.check_fragment(packet, datagram)
            return
        segment = segment_of(packet, datagram)
        self.moment = moment
        connection = self.connection_of(segment)
        if connection is None or connection.role is None or connection.is_of_before(segment):
            return
        if segment.source != connection.peer:
            connection.see_proxy(segment)
        else:
            connection.see_acknowledged(segment)
        self.advance(connection, segment)

    def check_fragment(self, packet, datagram):
        """Names a later fragment that may be of a connection that is recorded."""
        number = self.hosts.get(frozenset((datagram.source[0], datagram.destination[0])))
        if number is not None:
            raise Problem(packet.number, f"it is an IP fragment, perhaps of the connection of packet {number}")

    def connection_of(self, segment):
        """The connection of a segment, which a SYN may begin. None for remains of one from before the capture."""
        key = frozenset((segment.source, segment.destination))
        known = self.connections.get(key)
        if segment.flags & RST:
            return known
        if segment.flags & SYN:
            if known is None or not known.begins_with(segment):
                known = self.connections[key] = self.begin(segment, known)
        elif known is None and segment.size:
            raise Problem(segment.number, self.open_before(segment))
        return known

    def open_before(self, segment):
        """Why a connection that was open before the capture can't be replayed, and what to do."""
        _address, port = segment.destination if self.ends.role(segment.destination) is None else segment.source
        return (
            "its connection was open before the capture began, and since nobody knows what was said on it until then, no replay "
            "can answer as the proxy did: capture from before it begins (its switch may connect anew), or leave it out of this "
            f"capture by its port (tcpdump -r CAPTURE -w PART 'not tcp port {port}')"
        )

    def begin(self, segment, before):
        """The connection that a SYN begins, in the place of one before between the same ports."""
        ends = segment.source, segment.destination
        client, server = reversed(ends) if segment.flags & ACK else ends
        connection = Connection(segment.number, client, server, self.ends.role(server))
        if before is not None and before.role is not None:
            self.leave(before, connection, segment)
        if connection.role is not None:
            self.hosts.setdefault(frozenset((client[0], server[0])), segment.number)
            self.check_translation(connection, segment)
        return connection

    def check_translation(self, connection, segment):
        """Names a SYN that was captured before with another address of the proxy. Else its connection would be recorded twice."""
        proxy = connection.server if connection.role == SWITCH else connection.client
        other = self.calls.setdefault((connection.peer, proxy[1], segment.sequence), connection)
        if (other.client, other.server) != (connection.client, connection.server):
            text = f"this SYN is that of packet {other.number} behind a translation of the proxy's address"
            raise Problem(segment.number, f"{text}: a capture at one interface has it once")

    def leave(self, before, connection, segment):
        """Another connection takes the place of one before. Where that is up, only an answer to the SYN shows that it has ended."""
        is_open = before.state in (State.OPENING, State.UP)
        if is_open and (segment.flags & ACK or segment.source != before.client):
            raise Problem(segment.number, f"this SYN is none of the connection of packet {before.number}, which is open")
        connection.displaced = before.number if before.state is State.UP else before.displaced
        connection.before = before if before.came_up() else before.before
        before.displaced = None
        self.end(before, segment)
        problem = before.lack()
        if problem:
            raise problem

    def advance(self, connection, segment):
        """Takes in a segment of a connection that is recorded, as far as it is one."""
        if segment.flags & RST:
            self.hear_reset(connection, segment)
        elif segment.flags & SYN:
            if connection.open(segment):
                self.take_in(connection, segment)
        else:
            connection.check(segment)
            if connection.must_wait():
                connection.early.append(segment)
            else:
                self.take_in(connection, segment)
        if connection.early and not connection.must_wait():
            early, connection.early = connection.early, []
            for waiting in early:
                self.advance(connection, waiting)

    def take_in(self, connection, segment):
        """Takes in a segment whose place in its connection is known."""
        if connection.state is State.OPENING and connection.is_agreed_by(segment):
            connection.agree(segment.number)
            self.note(connection, Change.UP, segment)
        if segment.source == connection.peer:
            self.hear_peer(connection, segment)
        else:
            self.hear_proxy(connection, segment)
        self.take(connection, segment)
        if connection.must_end():
            self.end(connection, segment)

    def hear_reset(self, connection, segment):
        """A reset ends the connection. One of the peer that lies behind its bytes is of before, and is passed over."""
        stream = connection.streams[connection.peer]
        if connection.is_answered_by(segment):
            connection.take_place(segment.number)
        if segment.source != connection.peer:
            connection.acknowledge(segment)
            if connection.known_at_reset is None and stream.next is not None:
                connection.known_at_reset = stream.known_end()
        elif stream.next is not None:
            place = stream.place(segment.sequence)
            if place < stream.next:
                return
            stream.note_claim(place, segment.number, EARLIER_BYTES)
        connection.reset_by.add(segment.source)
        connection.note_sign(segment.number)
        if connection.must_end():
            self.end(connection, segment)

    def hear_peer(self, connection, segment):
        """Takes in a segment of the switch or the controller."""
        stream = connection.streams[connection.peer]
        is_cut = len(segment.payload) < segment.size and not stream.is_repeat(segment)
        if is_cut and connection.state is State.OPENING:
            raise Problem(segment.number, CUT_BYTES)
        # Where nothing is recorded of it any more, it doesn't matter what the bytes are that were cut off.
        if is_cut and connection.state is State.UP and stream.place_of(segment) + len(segment.payload) < connection.limit():
            self.note(connection, Change.CUT, segment)
        stream.put(segment)

    def hear_proxy(self, connection, segment):
        """Takes in a segment of the proxy. Of its bytes only the datapath id is read that a controller is sent."""
        connection.acknowledge(segment)
        stream = connection.streams[segment.source]
        if connection.role != SWITCH and stream.next is not None and not connection.features.is_over():
            # Bytes that were cut off are a gap here, behind which it isn't known where a message begins.
            stream.put(dataclasses.replace(segment, size=len(segment.payload)))
            connection.features.hear(stream.take())
        if segment.flags & FIN:
            connection.proxy_has_ended = True
            connection.note_sign(segment.number)

    def take(self, connection, segment):
        """Lists the bytes of the peer that follow on those before, once the connection is up."""
        if not connection.came_up():
            return
        place, data = connection.take()
        if data and connection.state is State.UP:
            self.note(connection, Change.BYTES, segment, data, place)
            if connection.role == SWITCH:
                connection.features.hear(data)

    def end(self, connection, segment):
        """The connection ends, where it hasn't yet."""
        if connection.state is State.UP:
            self.note(connection, Change.DOWN, segment)
        connection.end()

    def note(self, connection, kind, segment, data=b"", place=0):
        """Lists what a segment does."""
        self.happenings.append(Happening(segment.number, self.moment, connection, kind, data, place))

    def finish(self):
        """The capture is over: names the first packet that shows missing bytes."""
        problems = [problem for connection in self.connections.values() if (problem := connection.lack())]
        if problems:
            raise min(problems, key=lambda problem: problem.number)


def follow(path, followers):
    """Has each of some followers hear all packets of a capture."""
    moments = Moments()
    with open(path, "rb") as file, named(path):
        for packet in packets_of(file):
            moment = moments.of(packet)
            for follower in followers:
                follower.hear(packet, moment)
    for follower in followers:
        follower.finish()
