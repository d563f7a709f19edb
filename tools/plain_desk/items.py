"""What a slice sees: the kinds of items of a view."""
import enum
from dataclasses import dataclass
from typing import NamedTuple

from flowvisor_tool.fields import Header
from flowvisor_tool.frame_header import header_of

from .matches import Match
from .messages import Features, FlowRemoved, Port, PortStatus


class Pair(NamedTuple):
    """What tells a flow entry from others (OpenFlow 1.0.0, section 4.6)."""

    match: Match
    priority: int


class Share(enum.Enum):
    """Why a slice sees a packet."""

    PROBE = enum.auto()
    WRITER = enum.auto()
    READER = enum.auto()


@dataclass(frozen=True, slots=True)
class Opened:
    """What the switch said of itself, with the ports of the slice, by ascending number."""

    features: Features
    ports: tuple[Port, ...]


@dataclass(frozen=True, slots=True)
class Up:
    pass


@dataclass(frozen=True, slots=True)
class Down:
    pass


@dataclass(frozen=True, slots=True)
class Message:
    """A message of the slice's own, and when it came: no other item has a timestamp.

    Its port numbers are physical; `sent` has the slice's own.
    """

    frame: bytes
    moment: int
    sent: bytes


@dataclass(frozen=True, slots=True)
class Packet:
    """A packet that the switch handed up. Of its buffer the slice sees only whether there is one, and its writer alone."""

    share: Share
    is_buffered: bool
    in_port: int
    total_len: int
    reason: int
    data: bytes

    def header(self) -> Header:
        return header_of(self.in_port, self.data)


@dataclass(frozen=True, slots=True)
class Lost:
    """The switch uses the number of one of the slice's buffered packets, counted from 0, for another."""

    ordinal: int


@dataclass(frozen=True, slots=True)
class Removed:
    """An entry is gone, of a match that lies in one rule of the slice."""

    message: FlowRemoved

    def pair(self):
        return Pair(self.message.match, self.message.priority)


@dataclass(frozen=True, slots=True)
class Status:
    status: PortStatus


@dataclass(frozen=True, slots=True)
class Fault:
    """An error of the switch for a request of the slice, and the entry of the flow-mod that it carries, if it does.

    Here and below `low` is the low 24 bits of the request's transaction id.
    """

    low: int
    error: tuple[int, int]
    pair: Pair | None


@dataclass(frozen=True, slots=True)
class Barrier:
    low: int


@dataclass(frozen=True, slots=True)
class Queues:
    low: int
    port: int
    body: bytes


@dataclass(frozen=True, slots=True)
class Entry:
    """An entry of statistics that is the slice's."""

    low: int
    kind: int
    data: bytes


@dataclass(frozen=True, slots=True)
class Last:
    """The switch has sent all entries of a type of statistics."""

    low: int
    kind: int


@dataclass(frozen=True, slots=True)
class End:
    pass


Item = (
    Opened | Up | Down | Message | Packet | Lost | Removed | Status | Fault | Barrier | Queues | Entry | Last | End
)
