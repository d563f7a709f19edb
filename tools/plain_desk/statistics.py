"""Statistics: what is asked for, the entries of a reply, and replies (OpenFlow 1.0.0, section 5.3.5)."""
import struct
from dataclasses import dataclass

from flowvisor_tool.openflow.protocol import Header, MessageType, Port, StatsFlag, StatsType

from .errors import BAD_LENGTH, BAD_STATISTICS, BAD_VENDOR, Refused
from .matches import SIZE, normal_match, spelled_match
from .messages import body_of, number_at
from .wire import LARGEST_MESSAGE, message

HEAD = struct.Struct(">HH")
FLOW_REQUEST = struct.Struct(f">{SIZE}sBxH")
PORT_REQUEST, QUEUE_REQUEST = struct.Struct(">H6x"), struct.Struct(">HxxI")
REQUEST_SIZES = {
    StatsType.DESC: 0, StatsType.FLOW: FLOW_REQUEST.size, StatsType.AGGREGATE: FLOW_REQUEST.size, StatsType.TABLE: 0,
    StatsType.PORT: PORT_REQUEST.size, StatsType.QUEUE: QUEUE_REQUEST.size,
}
DESCRIPTION_SIZE, LEAST_FLOW_SIZE, PORT_SIZE, QUEUE_SIZE = 1056, 88, 104, 32
FLOW_MATCH_AT, FLOW_COUNTERS = 4, struct.Struct(">72xQQ")
AGGREGATE, TABLE = struct.Struct(">QQI4x"), struct.Struct(">B3x32sIIIQQ")
TABLE_NAME, ALL_FIELDS = b"flowvisor", 0x3FFFFF
LARGEST_BODY = LARGEST_MESSAGE - 12
# The entries of one request that are kept (this proxy's own rule).
LARGEST_COLLECTION = 524_288


@dataclass(frozen=True, slots=True)
class StatsRequest:
    """A STATS_REQUEST: its type, and what it asks for behind that."""

    kind: StatsType
    body: bytes

    @classmethod
    def read(cls, frame):
        body = body_of(frame)
        if len(body) < HEAD.size:
            raise Refused(BAD_LENGTH)
        kind, _ = HEAD.unpack_from(body)
        if kind == StatsType.VENDOR:
            raise Refused(BAD_VENDOR)
        if kind not in REQUEST_SIZES:
            raise Refused(BAD_STATISTICS)
        asked = body[HEAD.size :]
        if len(asked) != REQUEST_SIZES[kind]:
            raise Refused(BAD_LENGTH)
        return cls(StatsType(kind), asked)

    def port(self):
        """The port that is asked for, or None where all are, or none is."""
        match self.kind:
            case StatsType.PORT:
                return None if number_at(self.body, 0) == Port.NONE else number_at(self.body, 0)
            case StatsType.QUEUE:
                return None if number_at(self.body, 0) == Port.ALL else number_at(self.body, 0)
        return None

    def sent_kind(self):
        """What the switch is asked for: a sum is made of single flows (this proxy's own rule)."""
        return StatsType.FLOW if self.kind == StatsType.AGGREGATE else self.kind

    def spelled(self, xid):
        """The message that the switch gets, without flags and with zeros for padding."""
        return message(MessageType.STATS_REQUEST, xid, HEAD.pack(self.sent_kind(), 0) + self.spelled_body())

    def spelled_body(self):
        match self.kind:
            case StatsType.FLOW | StatsType.AGGREGATE:
                pattern, table, out_port = FLOW_REQUEST.unpack(self.body)
                return FLOW_REQUEST.pack(spelled_match(normal_match(pattern)), table, out_port)
            case StatsType.PORT:
                return PORT_REQUEST.pack(*PORT_REQUEST.unpack(self.body))
            case StatsType.QUEUE:
                return QUEUE_REQUEST.pack(*QUEUE_REQUEST.unpack(self.body))
        return b""


@dataclass(frozen=True, slots=True)
class StatsReply:
    """A part of what the switch replies."""

    xid: int
    kind: int
    has_more: bool
    body: bytes

    @classmethod
    def read(cls, frame):
        """That of a well-formed message."""
        body = body_of(frame)
        kind, flags = HEAD.unpack_from(body)
        return cls(Header.of(frame).xid, kind, bool(flags & StatsFlag.MORE), body[HEAD.size :])

    def is_of_entries(self):
        """Whether the proxy looks at it: it has a type of entries, and a description has its one length."""
        if self.kind == StatsType.DESC:
            return len(self.body) == DESCRIPTION_SIZE
        return self.kind in (StatsType.FLOW, StatsType.PORT, StatsType.QUEUE)

    def entries(self):
        """The entries up to the first that isn't well formed."""
        rest = self.body
        while (size := entry_size(self.kind, rest)) is not None:
            yield rest[:size]
            rest = rest[size:]


def entry_size(kind, rest):
    """The size of the first entry, or None where none is whole."""
    if kind == StatsType.FLOW:
        size = number_at(rest, 0)
        return size if len(rest) >= size >= LEAST_FLOW_SIZE else None
    size = {StatsType.DESC: DESCRIPTION_SIZE, StatsType.PORT: PORT_SIZE, StatsType.QUEUE: QUEUE_SIZE}[kind]
    return size if len(rest) >= size else None


def flow_match(entry):
    """The match of a flow's entry."""
    return normal_match(entry[FLOW_MATCH_AT : FLOW_MATCH_AT + SIZE])


def reply(kind, xid, body, has_more=False):
    flags = StatsFlag.MORE if has_more else 0
    return message(MessageType.STATS_REPLY, xid, HEAD.pack(kind, flags) + body)


def bodies(entries):
    """The bodies of replies: each has as many whole entries as fit, and there is one at least."""
    whole = [b""]
    for entry in entries:
        if len(whole[-1]) + len(entry) > LARGEST_BODY:
            whole.append(b"")
        whole[-1] += entry
    return whole


def kept(entries):
    """The first entries, as many as are within what is kept of one request."""
    size, front = 0, []
    for entry in entries:
        size += len(entry)
        if size > LARGEST_COLLECTION:
            break
        front.append(entry)
    return front


def entry_replies(kind, xid, entries):
    """Replies of these entries, MORE on all but the last."""
    *others, last = bodies(kept(entries))
    return (*(reply(kind, xid, body, has_more=True) for body in others), reply(kind, xid, last))


def aggregate_reply(xid, entries):
    """The sums over flows: packets, bytes, and how many there are."""
    counters = [FLOW_COUNTERS.unpack_from(entry) for entry in entries]
    packets, sizes = (sum(column) % (1 << 64) for column in zip((0, 0), *counters))
    return reply(StatsType.AGGREGATE, xid, AGGREGATE.pack(packets, sizes, len(counters) % (1 << 32)))


def table_reply(xid, quota, active):
    """The one table that a slice has (this proxy's own rule)."""
    return reply(StatsType.TABLE, xid, TABLE.pack(0, TABLE_NAME, ALL_FIELDS, quota, active, 0, 0))
