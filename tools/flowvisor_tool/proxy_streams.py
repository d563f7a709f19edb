"""What a proxy sent on each of its connections, as a capture has it and as a report does."""
import collections
from dataclasses import dataclass, field

from .called_ends import play
from .captures import Problem
from .connections import SWITCH, Connection
from .ends import Ends
from .faults import Fault
from .following import CUT_BYTES, Change, Follower, follow
from .openflow.framing import Frames
from .openflow.protocol import HEADER, Header, MessageType
from .recorder import Sieve
from .reports import What
from .sessions import ProxyRecorder

# The role of a switch's connection where it is followed for what the proxy sends.
LANE = "lane"


@dataclass(frozen=True, slots=True)
class Sent:
    """A message, and the packet that ends it or the event that makes it."""

    place: int
    message: bytes


@dataclass
class Stream:
    """What was sent on a connection, whose first packet this is: whole messages, and what is left of an unfinished one."""

    packet: int | None
    messages: list[Sent] = field(default_factory=list)
    rest: bytes = b""


@dataclass
class Session:
    """A switch's connection, and the connections of each slice for it, by name, in their order."""

    number: int
    lane: Stream
    links: dict[str, list[Stream]] = field(default_factory=lambda: collections.defaultdict(list))


class ProxyEnds(Ends):
    """The addresses of a proxy's connections, with roles that make the proxy the peer whose bytes are followed."""

    def role(self, end):
        role = super().role(end)
        return {None: None, SWITCH: LANE}.get(role, SWITCH)


class Nothing:
    """Takes records, and keeps none."""

    def add(self, *_):
        pass


class SessionFinder(ProxyRecorder):
    """Finds to which session of which number each connection belongs, as the recorder of these has it."""

    def __init__(self, attached):
        super().__init__(Nothing(), Sieve(frozenset()), attached)
        self.recorded: list[Connection] = []

    def tell(self, connection, text):
        super().tell(connection, text)
        self.recorded.append(connection)


def captured_sessions(path, ends, names, attached):
    """The sessions of a capture, with what the proxy sent; `names` are the slices' by slot."""
    happenings, sent = [], []
    follow(path, [Follower(ends, happenings), Follower(ProxyEnds(ends.address, ends.port, ends.slots), sent)])
    finder = SessionFinder(attached)
    play(happenings, finder, path, ends)
    streams = streams_of(sent)
    sessions = {}
    for connection in finder.recorded:
        found, stream = finder.session_of[connection], streams.get(connection.number, Stream(connection.number))
        if connection.role == SWITCH:
            sessions[found] = Session(found.number, stream)
        else:
            sessions[found].links[names[connection.role]].append(stream)
    return list(sessions.values())


def streams_of(happenings):
    """What was sent on connections, by the packets that begin them."""
    streams, frames = {}, collections.defaultdict(Frames)
    for happening in happenings:
        connection = happening.connection
        if happening.kind is Change.CUT:
            raise Problem(happening.number, CUT_BYTES)
        stream = streams.setdefault(connection.number, Stream(connection.number))
        cut = frames[connection.number]
        stream.messages += [Sent(happening.number, one) for one in cut.messages(happening.data)]
        stream.rest = cut.rest
    return streams


def reported_sessions(lines, name):
    """The sessions of a report. The proxy greets each connection that it takes up, and so begins each of these by a HELLO."""
    sessions, latest, is_open = [], {}, set()
    for line in lines:
        if line.what is What.END:
            break
        if is_greeting(line, name) and line.slice_name is None:
            latest[line.switch] = Session(line.switch, Stream(None))
            sessions.append(latest[line.switch])
            is_open = {one for one in is_open if one[0] != line.switch}
        if line.switch not in latest:
            raise Fault(f"event {line.event}: switch {line.switch} isn't greeted before it", name)
        if line.slice_name is not None:
            add_to_link(latest[line.switch], line, is_open, is_greeting(line, name))
        elif line.what is What.MESSAGE:
            latest[line.switch].lane.messages.append(Sent(line.event, line.message))
    return sessions


def is_greeting(line, name):
    """Whether a line of a report is a HELLO."""
    if line.what is not What.MESSAGE:
        return False
    if len(line.message) < HEADER.size:
        raise Fault(f"event {line.event}: {line.message.hex()} is no message", name)
    return Header.of(line.message).type == MessageType.HELLO


def add_to_link(session, line, is_open, is_first):
    """Adds what a line says of a slice to its latest connection, or to the one that it begins; `is_open` has those that go on."""
    links, key = session.links[line.slice_name], (line.switch, line.slice_name)
    if is_first or key not in is_open:
        links.append(Stream(None))
        is_open.add(key)
    if line.what is What.CLOSE:
        is_open.discard(key)
    else:
        links[-1].messages.append(Sent(line.event, line.message))
