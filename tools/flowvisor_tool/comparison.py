"""Whether what a proxy sent on its connections is what a report says, and where it first isn't."""
import collections
import itertools
from dataclasses import dataclass

from .openflow.messages import message_text
from .openflow.protocol import Header, MessageType
from .proxy_streams import Sent, Stream

# The top byte of a transaction id on the lane is the slot whose request it is; this one is the proxy's own.
SLOT_SHIFT = 24
ECHO = "echo"


@dataclass(frozen=True)
class Difference:
    """The first message of a connection that isn't the one of the report; one of both may be missing, or not whole."""

    count: int  # of messages before it
    captured: Sent | None
    reported: Sent | None
    rest: bytes = b""

    def lines(self):
        yield f"message {self.count + 1} differs"
        if self.captured is not None:
            yield f"  captured, packet {self.captured.place}: {message_text(self.captured.message)}"
        else:
            yield f"  captured, not whole: {self.rest.hex()}"
        if self.reported is not None:
            yield f"  reported, event {self.reported.place}: {message_text(self.reported.message)}"
        else:
            yield "  reported: no more messages"
        if self.captured is not None and self.reported is not None:
            yield f"  {self.first_byte()}"

    def first_byte(self):
        """Where the two messages first differ; they may read the same."""
        both = itertools.zip_longest(self.captured.message, self.reported.message)
        place, (one, other) = next((place, both) for place, both in enumerate(both) if both[0] != both[1])
        return f"byte {place} is {byte_text(one)}, and {byte_text(other)} in the report"


def byte_text(byte):
    return "none" if byte is None else f"0x{byte:02x}"


@dataclass(frozen=True)
class Verdict:
    """What is printed of a connection: its packet, if it is captured, whose it is, and how it compares."""

    packet: int | None
    whose: str
    text: str
    is_same: bool
    more: tuple[str, ...] = ()


def verdicts(captured, reported):
    """The verdict on each connection of these sessions: those of one number are compared in their order."""
    numbers = {session.number: None for session in (*captured, *reported)}
    for number in numbers:
        both = ([session for session in sessions if session.number == number] for sessions in (captured, reported))
        for one, other in itertools.zip_longest(*both):
            yield verdict(one and one.lane, other and other.lane, f"switch {number}", lane_key)
            names = {name: None for session in (one, other) if session for name in session.links}
            for name in names:
                links = (session.links.get(name, []) if session else [] for session in (one, other))
                for link, told in itertools.zip_longest(*links):
                    yield verdict(link, told, f"switch {number}, {name}", lambda _message: None)


def lane_key(message):
    """Messages to a switch keep their order among those of the same: answers to it, the proxy's own, and each slice's."""
    header = Header.of(message)
    return ECHO if header.type == MessageType.ECHO_REPLY else header.xid >> SLOT_SHIFT


def verdict(captured: Stream | None, reported: Stream | None, whose, key):
    """How a connection compares."""
    if captured is None:
        event = reported.messages[0].place if reported.messages else "?"
        return Verdict(None, whose, f"the capture lacks the connection that begins with event {event}", False)
    if reported is None:
        return Verdict(captured.packet, whose, "the report has no such connection", False)
    difference = first_difference(captured, reported, key)
    if difference is not None:
        first, *more = difference.lines()
        return Verdict(captured.packet, whose, first, False, tuple(more))
    count, left = len(captured.messages), len(reported.messages) - len(captured.messages)
    behind = f"; the report has {left} more behind them" if left else ""
    return Verdict(captured.packet, whose, f"{count} {'message' if count == 1 else 'messages'} as in the report{behind}", True)


def first_difference(captured, reported, key):
    """The first message of a connection that isn't the next one in the report of those with its key; None without one."""
    waiting = collections.defaultdict(collections.deque)
    for sent in reported.messages:
        waiting[key(sent.message)].append(sent)
    for count, sent in enumerate(captured.messages):
        queue = waiting[key(sent.message)]
        wanted = queue.popleft() if queue else None
        if wanted is None or wanted.message != sent.message:
            return Difference(count, sent, wanted)
    fronts = [queue[0] for queue in waiting.values() if queue]
    if any(front.message.startswith(captured.rest) for front in fronts) or not captured.rest:
        return None
    return Difference(len(captured.messages), None, fronts[0] if fronts else None, captured.rest)
