"""Whose a packet is, quickly: the rule that governs it, looked up by what the policy's rules ask of it."""
import operator
import struct

from ..fields import BITS
from ..frame_header import header_of
from ..openflow.ethernet import TCP, UDP
from ..openflow.protocol import LARGEST_PHYSICAL_PORT, Port
from ..policy import SHIFTS, SWITCH_SHIFT, Pattern
from .matching import constraints_of

MOST_KEPT = 1 << 15
# A frame of IPv4 without a tag and without options, which is no fragment, with TCP or UDP: its fields behind its port.
PLAIN = struct.Struct(">6s6s3xB7xBxx4s4sHH")
PLAIN_SIZE = PLAIN.size
PLAIN_TYPE = bytes.fromhex("080045")
PLAIN_FIELDS = ("in_port", "dl_dst", "dl_src", "nw_tos", "nw_proto", "nw_src", "nw_dst", "tp_src", "tp_dst")


class Audience:
    """The rules of a policy in their order, each as bits, and what was found for packets that differ only elsewhere."""

    def __init__(self, policy):
        self.policy = policy
        self.rules = policy.in_order
        self.mask = 0
        for rule in self.rules:
            self.mask |= rule.pattern.mask
        self.fields = [
            (place, shift, self.mask >> shift & (1 << BITS[name]) - 1) for place, (name, shift) in enumerate(SHIFTS.items())
        ]
        self.fields = [field for field in self.fields if field[2]]
        self.names_switches = any(rule.pattern.switch is not None for rule in self.rules)
        asked = [place for place, name in enumerate(PLAIN_FIELDS) if self.mask >> SHIFTS[name] & (1 << BITS[name]) - 1]
        self.asked = operator.itemgetter(*asked) if asked else lambda fields: None
        self.found, self.found_plain = {}, {}

    def rule_of(self, in_port, frame, datapath):
        """The rule that governs a packet on a switch, or None."""
        is_plain = len(frame) >= PLAIN_SIZE and frame[12:15] == PLAIN_TYPE and not frame[21] and not frame[20] & 0x3F
        if not is_plain or frame[23] not in (TCP, UDP):
            return self.rule_of_header(header_of(in_port, frame), datapath)
        # Packets that don't differ in what any rule asks of them have one rule.
        key = datapath, self.asked((in_port, *PLAIN.unpack_from(frame)))
        rule = self.found_plain.get(key, key)
        if rule is key:
            rule = self.rule_of_header(header_of(in_port, frame), datapath)
            if len(self.found_plain) >= MOST_KEPT:
                self.found_plain.clear()
            self.found_plain[key] = rule
        return rule

    def rule_of_header(self, header, datapath):
        """The same of a packet's header."""
        bits = (datapath or 0) << SWITCH_SHIFT & self.mask
        for place, shift, mask in self.fields:
            bits |= (header[place] & mask) << shift
        key = bits, datapath is None
        if key not in self.found:
            if len(self.found) >= MOST_KEPT:
                self.found.clear()
            self.found[key] = self.policy.first(header, datapath)
        return self.found[key]

    def rules_meeting(self, match, datapath):
        """The rules, in their order, that have a packet of a match on a switch, and whether each has all of them."""
        pattern = Pattern(constraints_of(match), datapath)
        for rule in self.rules:
            if rule.pattern.holds_on(datapath) and Pattern(rule.pattern.constraints).meets(pattern):
                yield rule, Pattern(rule.pattern.constraints).includes(pattern)

    def ports(self, name, datapath):
        """The ports of a slice, or None where it has all: those from which its rules take packets."""
        ports = set()
        for rule in self.rules:
            if rule.writer == name and rule.pattern.holds_on(datapath):
                if "in_port" not in rule.pattern.constraints:
                    return None
                ports.add(rule.pattern.constraints["in_port"][0])
        return ports

    def may_send_to(self, name, port, datapath):
        """Whether a slice may name a port in an action, as far as its rules say."""
        if port in (Port.IN_PORT, Port.FLOOD, Port.ALL, Port.CONTROLLER, Port.TABLE):
            return True
        if port > LARGEST_PHYSICAL_PORT and port != Port.LOCAL:
            return False
        ports = self.ports(name, datapath)
        return ports is None or port in ports
