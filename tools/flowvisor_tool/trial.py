"""What the proxy would answer to a message of a slice on a fresh connection.

The answer is that of plain_desk, which is tried against the program.
"""
import functools
from dataclasses import dataclass

from plain_desk.desk import Desk
from plain_desk.events import SliceMessage, SliceUp, SwitchMessage, SwitchUp
from plain_desk.messages import Features, FlowMod, PacketOut, Port
from plain_desk.policy import settings_of
from plain_desk.slice_messages import physical

# What a switch may tell of itself beside its ports, under some transaction id.
XID, BUFFERS, TABLES, CAPABILITIES, ACTIONS = 1, 256, 1, 0, 0xFFF


@dataclass(frozen=True)
class Site:
    """A policy, as it is read here and as plain_desk reads it, and a switch: its datapath id and its ports."""

    policy: object
    plain: object
    datapath: int
    ports: tuple[int, ...]

    def opening(self):
        """What a switch says when it connects."""
        ports = tuple(Port(number.to_bytes(2) + bytes(46)) for number in self.ports)
        features = Features(self.datapath, BUFFERS, TABLES, CAPABILITIES, ACTIONS, ports)
        return [SwitchUp(), SwitchMessage(features.spelled(XID))]

    @functools.cached_property
    def rules(self):
        """The rules of the switch, in their order."""
        return [rule for rule in self.policy.in_order if rule.pattern.holds_on(self.datapath)]


@dataclass(frozen=True)
class Trial:
    """What a slice sends, and what follows: messages for the switch, and an error for the slice, or None."""

    site: Site
    slot: int
    message: FlowMod | PacketOut
    sent: tuple[bytes, ...]
    error: bytes | None

    @functools.cached_property
    def settings(self):
        return settings_of(self.site.plain, self.slot, self.site.plain.on_switch(self.site.datapath), self.site.datapath)

    @functools.cached_property
    def physical(self):
        """The message with the switch's own port numbers."""
        return type(self.message).read(physical(self.settings.swaps, self.message.spelled()))

    @functools.cached_property
    def writes(self):
        """The rules that the slice writes on the switch, in their order."""
        name = self.site.policy.slices[self.slot].name
        return [rule for rule in self.site.rules if rule.writer == name]


def trials(site, slots, message):
    """The trials of a message by slices, none of which has sent anything before."""
    desk = Desk(site.plain)
    for event in site.opening():
        desk.take(event)
    for slot in slots:
        desk.take(SliceUp(slot))
        step = desk.take(SliceMessage(slot, message.spelled(), 0))
        errors = [one for _slot, one in step.sent]
        yield Trial(site, slot, message, step.lane, errors[0] if errors else None)
