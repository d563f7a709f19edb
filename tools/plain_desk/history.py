"""A history, which is the list of the events of one switch's desk, and what can be looked up in it.

Beside the list stand lists that grow with it, each a filter or a table of it, so that a look-up needn't read all
events again. None of them has anything that the list alone doesn't tell.
"""
import collections
import enum

from flowvisor_tool.openflow.protocol import NO_BUFFER, MessageType

from .events import SliceDown, SliceMessage, SliceUp, SwitchDown, SwitchMessage, SwitchUp, is_end
from .messages import Features, PacketIn, PortStatus, is_whole
from .policy import settings_of
from .ports import changed, is_kept, told_ports
from .wire import is_dismissing


class Verdict(enum.Enum):
    """What is answered to an event: nothing special, that its connection isn't up after it, or that all has ended."""

    GO = enum.auto()
    CLOSE = enum.auto()
    ENDED = enum.auto()


def buffer_in(event):
    """The buffer's number in a well-formed PACKET_IN, or None (OpenFlow 1.0.0, section 5.4.1)."""
    if not isinstance(event, SwitchMessage) or not is_whole(event.frame, MessageType.PACKET_IN):
        return None
    number = PacketIn.read(event.frame).buffer
    return None if number == NO_BUFFER else number


def status_in(event):
    """What a well-formed PORT_STATUS says, or None (section 5.4.3)."""
    if not isinstance(event, SwitchMessage) or not is_whole(event.frame, MessageType.PORT_STATUS):
        return None
    return PortStatus.read(event.frame)


def slot_said_up(event):
    """The slot of which an event says whether it is up, and what it says; or None."""
    match event:
        case SliceUp(slot):
            return slot, True
        case SliceDown(slot):
            return slot, False
        case SliceMessage(slot, frame) if is_dismissing(frame):
            return slot, False
    return None


class History:
    """The events of a desk under a policy, the oldest first, from the first SwitchUp on."""

    def __init__(self, policy):
        self.policy = policy
        self.events = []
        self.features = None  # those of the opening
        self.rules = ()  # those that hold on the switch
        self.settings = []  # of each slot
        self.known = []  # the tables of ports: that of the opening, and one for each status that is kept
        self.says_up = collections.defaultdict(list)  # for each slot what events after the opening say
        self.buffer_places = collections.defaultdict(list)  # for each buffer's number the places of its PACKET_INs

    def append(self, event):
        """Lengthens the list, and what stands beside it."""
        if self.features is None:
            if isinstance(event, SwitchMessage) and is_whole(event.frame, MessageType.FEATURES_REPLY):
                self.open(Features.read(event.frame))
        else:
            self.file(event)
        self.events.append(event)

    def open(self, features):
        """The first well-formed FEATURES_REPLY is the opening (section 4.2)."""
        self.features = features
        self.rules = self.policy.on_switch(features.datapath)
        slots = range(len(self.policy.slices))
        self.settings = [settings_of(self.policy, slot, self.rules, features.datapath) for slot in slots]
        self.known.append(told_ports(features.ports))

    def file(self, event):
        """Puts an event after the opening where it is looked up."""
        if (said := slot_said_up(event)) is not None:
            slot, is_up = said
            self.says_up[slot].append(is_up)
        if (number := buffer_in(event)) is not None:
            self.buffer_places[number].append(len(self.events))
        status = status_in(event)
        if status is not None and is_kept(self.known[-1], status):
            self.known.append(changed(self.known[-1], status))

    def is_opened(self):
        return self.features is not None

    def has_ended(self):
        """Whether the switch's connection has: nothing comes after that."""
        return bool(self.events) and is_end(self.events[-1])

    def is_up(self, slot):
        """Whether the last event after the opening that says so says that a slice is up, and nothing has ended."""
        return bool(self.says_up[slot]) and self.says_up[slot][-1] and not self.has_ended()

    def known_ports(self):
        """The ports that the switch has reported, by number."""
        return self.known[-1]

    def last_with_buffer(self, number):
        """The place of the last PACKET_IN after the opening that has a buffer's number, or None."""
        return self.buffer_places[number][-1] if self.buffer_places[number] else None

    def buffer_at(self, place):
        """The buffer's number of the PACKET_IN at a place."""
        return buffer_in(self.events[place])

    def verdict_on_last(self):
        """What is answered to the last event: whether its own connection is up after it."""
        match self.events[-1]:
            case SwitchDown() | SliceDown() | SwitchUp():
                return Verdict.GO
            case SwitchMessage():
                return Verdict.CLOSE if self.has_ended() else Verdict.GO
            case SliceUp(slot) | SliceMessage(slot):
                return Verdict.GO if self.is_up(slot) else Verdict.CLOSE
