"""Slices, rules and swaps of port numbers, as the proxy asks them (this proxy's own rule)."""
import functools
from dataclasses import dataclass, field

from flowvisor_tool.openflow.protocol import Port

from .matches import Match
from .wire import is_port


@dataclass(frozen=True)
class Slice:
    """A controller's share; rate, burst and quota are for one switch."""

    name: str
    controller: str
    rate: int
    burst: int
    quota: int


@dataclass(frozen=True)
class Rule:
    """A rule, with its place in the file. Slices are slots: `writer` one or None, `readers` any."""

    place: int
    switch: int | None
    priority: int
    match: Match
    writer: int | None
    readers: tuple[int, ...]

    def holds_on(self, datapath):
        return self.switch is None or self.switch == datapath

    def shares_a_switch(self, other):
        return None in (self.switch, other.switch) or self.switch == other.switch


@dataclass(frozen=True)
class Swap:
    """Two port numbers that stand for one another for the slice at a slot: the shown one, and the physical one."""

    slot: int
    switch: int | None
    shown: int
    physical: int

    def shares_a_number(self, other):
        """Whether it names a number that another swap of the slice names on a common switch."""
        is_beside = self.slot == other.slot and (None in (self.switch, other.switch) or self.switch == other.switch)
        return is_beside and bool({self.shown, self.physical} & {other.shown, other.physical})


def in_order(rules):
    """Rules by descending priority, and those of one priority as in the file."""
    return tuple(sorted(rules, key=lambda rule: (-rule.priority, rule.place)))


@dataclass(frozen=True)
class Policy:
    """The slices by slot, and the rules and the swaps in the order of the file."""

    slices: tuple[Slice, ...]
    rules: tuple[Rule, ...]
    swaps: tuple[Swap, ...] = ()

    def exchanged(self, slot, datapath):
        """The port numbers that are exchanged for a slice on a switch, each with the other one."""
        held = [swap for swap in self.swaps if swap.slot == slot and swap.switch in (None, datapath)]
        return {swap.shown: swap.physical for swap in held} | {swap.physical: swap.shown for swap in held}

    def on_switch(self, datapath):
        """The rules that hold on a switch, in their order."""
        return tuple(rule for rule in in_order(self.rules) if rule.holds_on(datapath))


def first_rule(rules, header):
    """The first rule that has a header, or None."""
    return next((rule for rule in rules if rule.match.has(header)), None)


@dataclass(frozen=True)
class Settings:
    """All that the answers to a slice depend on beside its view: its slot, its numbers, what it writes, in
    order, and its port numbers."""

    slot: int
    rate: int
    burst: int
    quota: int
    writes: tuple[Match, ...]
    swaps: dict[int, int] = field(default_factory=dict)  # each port number that is exchanged, and the other one

    @functools.cached_property
    def writes_aside(self):
        """What it writes, the port of entry disregarded."""
        return tuple(match.freed("in_port") for match in self.writes)

    def has_port(self, number):
        """Whether a port is the slice's: one that a rule of it names, or that none of its rules keeps away."""
        return is_port(number) and any(match.is_free("in_port") or match.equals("in_port", number) for match in self.writes)

    def owns(self, match):
        """Whether all headers of a match are in one rule."""
        return any(write.includes(match) for write in self.writes)

    def owns_aside(self, match):
        """The same, the port of entry disregarded."""
        return any(write.includes(match) for write in self.writes_aside)

    def writes_header(self, header):
        return any(write.has(header) for write in self.writes)

    def writes_header_aside(self, header):
        return any(write.has(header) for write in self.writes_aside)

    def may_come_from(self, in_port):
        """Whether a packet that the slice sends may say that it came by this port."""
        return self.has_port(in_port) or in_port in (Port.NONE, Port.CONTROLLER)


def settings_of(policy, slot, rules, datapath):
    """A slice's settings on a switch, which has these rules."""
    share = policy.slices[slot]
    writes = tuple(rule.match for rule in rules if rule.writer == slot)
    return Settings(slot, share.rate, share.burst, share.quota, writes, policy.exchanged(slot, datapath))
