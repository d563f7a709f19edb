"""The messages of OpenFlow 1.0.0 that the proxy reads and writes; a reader raises what a slice is answered."""
import struct
from dataclasses import dataclass

from flowvisor_tool.openflow.protocol import HEADER, FlowModCommand, Header, MessageType

from .actions import Action, read_actions, spelled_actions
from .errors import BAD_LENGTH, Refused
from .matches import SIZE, Match, normal_match, spelled_match
from .wire import is_of, message

FLOW_MOD = struct.Struct(f">{SIZE}sQHHHHIHH")
PACKET_OUT = struct.Struct(">IHH")
PACKET_IN = struct.Struct(">IHHBx")
FLOW_REMOVED = struct.Struct(f">{SIZE}sQHBxIIHxxQQ")
PORT_STATUS = struct.Struct(">B7x48s")
FEATURES = struct.Struct(">QIB3xII")
CONFIG = struct.Struct(">HH")
PORT_SIZE, PORT_CONFIG_AT = 48, 24

# The lengths that messages of the switch may have: from one on, in steps, where there are more than one.
SWITCH_LENGTHS = {
    MessageType.ERROR: range(12, 1 << 16),
    MessageType.ECHO_REQUEST: range(8, 1 << 16),
    MessageType.FEATURES_REPLY: range(32, 1 << 16, PORT_SIZE),
    MessageType.PACKET_IN: range(18, 1 << 16),
    MessageType.FLOW_REMOVED: range(88, 89),
    MessageType.PORT_STATUS: range(64, 65),
    MessageType.STATS_REPLY: range(12, 1 << 16),
    MessageType.BARRIER_REPLY: range(8, 9),
    MessageType.QUEUE_GET_CONFIG_REPLY: range(16, 1 << 16),
}


def is_whole(frame, kind):
    """Whether a frame of the switch is a well-formed message of this type, in version 1."""
    return is_of(frame, kind) and len(frame) in SWITCH_LENGTHS[kind]


def body_of(frame):
    return frame[HEADER.size :]


def number_at(data, at, size=2):
    return int.from_bytes(data[at : at + size])


@dataclass(frozen=True, slots=True)
class FlowMod:
    """A FLOW_MOD (section 5.3.3)."""

    xid: int
    match: Match
    cookie: int
    command: int
    idle: int
    hard: int
    priority: int
    buffer: int
    out_port: int
    flags: int
    actions: tuple[Action, ...]

    @classmethod
    def read(cls, frame):
        body = body_of(frame)
        if len(body) < FLOW_MOD.size:
            raise Refused(BAD_LENGTH)
        match, *fields = FLOW_MOD.unpack_from(body)
        return cls(Header.of(frame).xid, normal_match(match), *fields, read_actions(body[FLOW_MOD.size :]))

    def spelled(self):
        fields = (
            spelled_match(self.match), self.cookie, self.command, self.idle, self.hard, self.priority, self.buffer,
            self.out_port, self.flags,
        )
        return message(MessageType.FLOW_MOD, self.xid, FLOW_MOD.pack(*fields) + spelled_actions(self.actions))

    def is_delete(self):
        return self.command in (FlowModCommand.DELETE, FlowModCommand.DELETE_STRICT)


@dataclass(frozen=True, slots=True)
class PacketOut:
    """A PACKET_OUT (section 5.3.6)."""

    xid: int
    buffer: int
    in_port: int
    actions: tuple[Action, ...]
    data: bytes

    @classmethod
    def read(cls, frame):
        body = body_of(frame)
        if len(body) < PACKET_OUT.size:
            raise Refused(BAD_LENGTH)
        buffer, in_port, size = PACKET_OUT.unpack_from(body)
        actions, data = body[PACKET_OUT.size :][:size], body[PACKET_OUT.size + size :]
        if len(actions) < size:
            raise Refused(BAD_LENGTH)
        return cls(Header.of(frame).xid, buffer, in_port, read_actions(actions), data)

    def body(self):
        actions = spelled_actions(self.actions)
        return PACKET_OUT.pack(self.buffer, self.in_port, len(actions)) + actions + self.data

    def spelled(self):
        return message(MessageType.PACKET_OUT, self.xid, self.body())


@dataclass(frozen=True, slots=True)
class PacketIn:
    """A PACKET_IN (section 5.4.1)."""

    buffer: int
    total_len: int
    in_port: int
    reason: int
    data: bytes

    @classmethod
    def read(cls, frame):
        """That of a well-formed message."""
        body = body_of(frame)
        return cls(*PACKET_IN.unpack_from(body), body[PACKET_IN.size :])

    def spelled(self):
        fields = PACKET_IN.pack(self.buffer, self.total_len, self.in_port, self.reason)
        return message(MessageType.PACKET_IN, 0, fields + self.data)


@dataclass(frozen=True, slots=True)
class FlowRemoved:
    """A FLOW_REMOVED (section 5.4.2); `counters` are the fields behind its priority."""

    match: Match
    cookie: int
    priority: int
    counters: tuple[int, ...]

    @classmethod
    def read(cls, frame):
        """That of a well-formed message."""
        match, cookie, priority, *counters = FLOW_REMOVED.unpack(body_of(frame))
        return cls(normal_match(match), cookie, priority, tuple(counters))

    def spelled(self):
        fields = FLOW_REMOVED.pack(spelled_match(self.match), self.cookie, self.priority, *self.counters)
        return message(MessageType.FLOW_REMOVED, 0, fields)


@dataclass(frozen=True, slots=True)
class Port:
    """What the switch tells of a port (section 5.2.1), with all its bytes."""

    raw: bytes

    @property
    def number(self):
        return number_at(self.raw, 0)

    @property
    def config(self):
        return number_at(self.raw, PORT_CONFIG_AT, 4)


@dataclass(frozen=True, slots=True)
class PortStatus:
    """A PORT_STATUS (section 5.4.3)."""

    reason: int
    port: Port

    @classmethod
    def read(cls, frame):
        """That of a well-formed message."""
        reason, raw = PORT_STATUS.unpack(body_of(frame))
        return cls(reason, Port(raw))

    def spelled(self):
        return message(MessageType.PORT_STATUS, 0, PORT_STATUS.pack(self.reason, self.port.raw))


@dataclass(frozen=True, slots=True)
class Features:
    """A FEATURES_REPLY (section 5.3.1)."""

    datapath: int
    buffers: int
    tables: int
    capabilities: int
    actions: int
    ports: tuple[Port, ...]

    @classmethod
    def read(cls, frame):
        """That of a well-formed message."""
        body = body_of(frame)
        raw = body[FEATURES.size :]
        ports = (Port(raw[at : at + PORT_SIZE]) for at in range(0, len(raw), PORT_SIZE))
        return cls(*FEATURES.unpack_from(body), tuple(ports))

    def spelled(self, xid):
        fields = FEATURES.pack(self.datapath, self.buffers, self.tables, self.capabilities, self.actions)
        return message(MessageType.FEATURES_REPLY, xid, fields + b"".join(port.raw for port in self.ports))
