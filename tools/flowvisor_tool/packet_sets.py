"""Packets, given by fields, by their bytes or as those of a flow, and which rule decides on them."""
import re
from dataclasses import dataclass

from .faults import Fault
from .fields import EMPTY, constraint_text, set_text, value_of, whole, words_of
from .flow_text import read_flow
from .frame_header import header_of, probe_slot
from .policy import Pattern

FRAME = re.compile(r"(?:in_port=(?P<port>[^,]*),)?(?P<bytes>(?:[0-9A-Fa-f]{2})+)")


@dataclass(frozen=True)
class Packets:
    """A set of packets: those that have some fields, each with a value under a mask. A probe has a slot in its mark."""

    noun: str
    pattern: Pattern
    slot: int | None = None

    def __str__(self):
        if self.noun == "flow":
            return set_text(self.pattern.constraints) or "any packet"
        full = whole(EMPTY)
        shown = {name: one for name, one in self.pattern.constraints.items() if one != full[name]}
        return set_text(shown) or "in_port=0"

    def shown(self, name):
        """What they have in a field."""
        constraint = self.pattern.constraints.get(name)
        return "any" if constraint is None else constraint_text(name, *constraint)


def packet(header, slot=None):
    """The set of one packet."""
    return Packets("packet", Pattern(whole(header._asdict())), slot)


def packets_of(text):
    """The packets that a text says.

    Of fields, those that aren't said are as in an empty packet. Of a flow, which has a priority, counters or actions,
    they are any.
    """
    frame = FRAME.fullmatch(text)
    if frame is None:
        return packets_of_words(text)
    port = value_of("in_port", frame["port"] or "0")
    if port is None:
        raise Fault(f"in_port={frame['port']} is no port")
    data = bytes.fromhex(frame["bytes"])
    return packet(header_of(port, data), probe_slot(data))


def packets_of_words(text):
    """The packets that fields say, or a flow."""
    if not words_of(text):
        raise Fault("the packet is empty: it is given by fields, as in_port=1,tcp,tp_dst=80, or by the bytes of a frame in hex")
    flow = read_flow(text)
    if flow.is_flow():
        return Packets("flow", Pattern(flow.fields))
    return Packets("packet", Pattern(whole(EMPTY) | flow.fields))


def deciding_rule(policy, packets, switch):
    """The rule by which all of some packets go on a switch, or None; a fault where they don't go all by one."""
    some = []
    for rule in policy.in_order:
        if rule.pattern.holds_on(switch) and not rule.pattern.conflicts(packets.pattern):
            some.append(rule)
            if rule.pattern.covers(packets.pattern):
                break
    else:
        if some:
            some.append(None)
    if len(some) > 1:
        raise Fault(f"{packets}: {told_parts(some, switch)}; say more of the {packets.noun}")
    return some[0] if some else None


def told_parts(rules, switch):
    """That each of some rules has packets of a set; None has those that go to nobody."""
    where = "" if switch is None else f"on switch {switch:016x} "
    if rules[-1] is None:
        others = ", ".join(map(str, rules[:-1]))
        return f"{where}some packets go by {others}, and others by no rule"
    return f"{where}packets go by {', '.join(map(str, rules[:-1]))} and by {rules[-1]}"
