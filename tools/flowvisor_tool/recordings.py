"""Recordings: what switches and controllers sent, as `flowvisor replay` reads it."""
import enum
import itertools
import struct
from dataclasses import dataclass

from .faults import Fault
from .openflow.framing import Frames
from .openflow.protocol import VERSION, Header, MessageType

MAGIC = bytes.fromhex("4656524543000001")
HEAD = struct.Struct(">BBBBIQ")
SWITCHES, SLOTS = 16, 32
LARGEST_RECORD = 16_777_216
LARGEST_RECORDING = 268_435_456


class Kind(enum.IntEnum):
    """What a record says. Those of a slice are those of a switch, and SLICE_UP more."""

    SWITCH_UP = 0
    SWITCH_BYTES = 1
    SWITCH_DOWN = 2
    SLICE_UP = 3
    SLICE_BYTES = 4
    SLICE_DOWN = 5

    def is_of_switch(self):
        return self < Kind.SLICE_UP

    def has_bytes(self):
        return self in (Kind.SWITCH_BYTES, Kind.SLICE_BYTES)


@dataclass(frozen=True, slots=True)
class Record:
    """A record. The slot is the slice's place in the policy, and 0 where the record is of a switch."""

    kind: Kind
    moment: int
    data: bytes = b""
    slot: int = 0
    switch: int = 0

    def spelled(self):
        """Its bytes."""
        return HEAD.pack(self.kind, self.switch, self.slot, 0, len(self.data), self.moment) + self.data


def records_of(file, name):
    """The records of a recording, one by one; where one can't be, a fault says so as `flowvisor replay` does."""
    magic = file.read(len(MAGIC))
    if magic != MAGIC:
        raise Fault(f"{'torn' if len(magic) < len(MAGIC) else 'bad'} record at 0", name)
    at, connections = len(MAGIC), OpenConnections()
    while head := file.read(HEAD.size):
        if len(head) < HEAD.size:
            raise Fault(f"torn record at {at}", name)
        kind, switch, slot, zero, length, moment = HEAD.unpack(head)
        if not is_head(kind, switch, slot, zero, length):
            raise Fault(f"bad record at {at}", name)
        data = file.read(length)
        if len(data) < length:
            raise Fault(f"torn record at {at}", name)
        record = Record(Kind(kind), moment, data, slot, switch)
        if not connections.take(record):
            raise Fault(f"not open at {at}", name)
        yield record
        at += HEAD.size + length


def is_head(kind, switch, slot, zero, length):
    """Whether these numbers make a head."""
    if kind not in list(Kind) or switch >= SWITCHES or zero:
        return False
    if slot >= (1 if Kind(kind).is_of_switch() else SLOTS):
        return False
    return length <= (LARGEST_RECORD if Kind(kind).has_bytes() else 0)


class OpenConnections:
    """Which switches and slices are up, as the records alone say."""

    def __init__(self):
        self.slots = {}  # of each switch that is up, the slots that are

    def take(self, record):
        """Whether a record fits those before it."""
        slots = self.slots.get(record.switch)
        is_switch_up = slots is not None
        is_slice_up = is_switch_up and record.slot in slots
        match record.kind:
            case Kind.SWITCH_UP:
                self.slots[record.switch] = set()
                return not is_switch_up
            case Kind.SWITCH_DOWN:
                self.slots.pop(record.switch, None)
                return is_switch_up
            case Kind.SLICE_UP if is_switch_up:
                slots.add(record.slot)
                return not is_slice_up
            case Kind.SLICE_DOWN if is_slice_up:
                slots.remove(record.slot)
                return True
        return is_switch_up if record.kind.is_of_switch() else is_slice_up


# Events: what of a recording the proxy answers one by one.


@dataclass(frozen=True, slots=True)
class Event:
    """An event: a connection begins or ends, or a message came, which is None for the former."""

    number: int
    record: Record
    message: bytes | None = None


class SwitchSession:
    """A switch's connection and those of its slices, as far as they tell which bytes make events."""

    def __init__(self):
        self.frames = Frames()
        self.is_open = False  # whether it has sent its features
        self.has_ended = False
        self.slices = {}  # the frames of those that the proxy serves, by slot

    def messages(self, record):
        """The messages that a record finishes, or None where it begins or ends a connection."""
        match record.kind:
            case Kind.SWITCH_BYTES:
                yield from self.switch_messages(record.data)
                return
            case Kind.SLICE_BYTES:
                yield from self.slice_messages(record.data, record.slot)
                return
            case Kind.SWITCH_DOWN:
                self.has_ended = True
            case Kind.SLICE_UP if self.is_open and not self.has_ended:
                self.slices[record.slot] = Frames()
            case Kind.SLICE_DOWN:
                self.slices.pop(record.slot, None)
        yield None

    def switch_messages(self, data):
        """The switch's messages, of which one with a length that can't be ends it."""
        if self.has_ended:
            return
        for message in self.frames.messages(data):
            self.is_open = self.is_open or is_features_reply(message)
            self.has_ended = self.frames.is_over
            yield message

    def slice_messages(self, data, slot):
        """A slice's messages. Its connection is closed at a length that can't be, and at a HELLO of version 0."""
        frames = self.slices.get(slot)
        if frames is None or self.has_ended:
            return
        for message in frames.messages(data):
            header = Header.of(message)
            yield message
            if frames.is_over or (header.type == MessageType.HELLO and header.version == 0):
                del self.slices[slot]
                return


def is_features_reply(message):
    """Whether a message is a FEATURES_REPLY in which a switch tells what it is."""
    header = Header.of(message)
    is_reply = (header.version, header.type) == (VERSION, MessageType.FEATURES_REPLY)
    return is_reply and len(message) >= 32 and (len(message) - 32) % 48 == 0


def events_of(records):
    """The events of a recording, with the numbers that a report has for them."""
    numbers, sessions = itertools.count(), {}
    for record in records:
        if record.kind == Kind.SWITCH_UP:
            sessions[record.switch] = SwitchSession()
        for message in sessions[record.switch].messages(record):
            yield Event(next(numbers), record, message)
