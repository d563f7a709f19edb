"""What a refusal says, in words, and the rule of the policy that decides it."""
import struct

from ..openflow.actions import HEAD as ACTION_HEAD
from ..openflow.actions import actions_text
from ..openflow.matches import Match
from ..openflow.messages import refused_text
from ..openflow.protocol import (
    ERROR_CODES, HEADER, NO_BUFFER, ActionType, ErrorType, FlowModCommand, FlowModFlag, Header, Malformed, MessageType,
)
from ..openflow.text import name_of, port_of, standard_name_of
from ..fields import packet_text
from ..frame_header import header_of

# What is refused to a flow-mod stands in these of its bytes, of which an error has the first 64.
FLOW_MOD_START = struct.Struct(">40sQHHHH")
FLOW_MOD_SIZE = HEADER.size + FLOW_MOD_START.size
FLAGS_AT, ACTIONS_AT = 70, 72
PACKET_OUT_START = struct.Struct(">IHH")
MOST_PORTS_NAMED = 4
FREE_IN_PORT = 1  # in a match's wildcards
# How long a message is at least of which more is read than its header.
LEAST = {MessageType.FLOW_MOD: ACTIONS_AT, MessageType.PACKET_OUT: HEADER.size + PACKET_OUT_START.size}
EPERM, FLOW_EPERM, BAD_PORT, TABLES_FULL = (1, 5), (3, 2), (2, 4), (3, 0)
# What the codes mean that this proxy answers by itself, and some that a switch does.
WORDS = {
    (0, 0): "it has no version in common",
    (1, 0): "the version isn't 1.0",
    (1, 1): "a controller sends no messages of this type",
    (1, 2): "there are no such statistics",
    (1, 3): "messages of vendors aren't taken",
    (1, 6): "its length is wrong",
    (1, 7): "the buffer is empty",
    (1, 8): "no packet is held under this buffer's number",
    (2, 0): "there is no such action",
    (2, 1): "an action's length is wrong",
    (2, 2): "actions of vendors aren't taken",
    (2, 5): "an action's value is out of its range",
    (2, 6): "an action would make the packet another slice's, or isn't allowed",
    (2, 7): "its actions are too many",
    (3, 1): "it overlaps an entry of its priority",
    (3, 3): "emergency entries have no timeouts",
    (3, 4): "there is no such command",
}


def code_text(kind, code):
    """The code of an error as the standard names it."""
    name = standard_name_of(ERROR_CODES[kind], code) if kind in ERROR_CODES else str(code)
    return f"{standard_name_of(ErrorType, kind)} {name}"


class Refusals:
    """Tells of refused messages under a policy."""

    def __init__(self, audience):
        self.audience = audience

    def text(self, one, datapath, kind, code, data, message):
        """What was refused to a slice, why, and which rule decides.

        `data` is what the error has of the message, and `message` the whole of it, where it is known.
        """
        message = message if is_long_enough(message) else None
        why = self.reason(one, datapath, (kind, code), data, message)
        return f"{self.refused(data, message)}: {code_text(kind, code)}" + (f": {why}" if why else "")

    def refused(self, data, message):
        """The refused message."""
        if is_flow_mod(data):
            match, _cookie, command, _idle, _hard, priority = FLOW_MOD_START.unpack_from(data, HEADER.size)
            text = f"FLOW_MOD {name_of(FlowModCommand, command)} {Match.of(match)} priority={priority}"
            return text + (f" actions={told_actions(message[ACTIONS_AT:])}" if message else "")
        return refused_text(data)

    def reason(self, one, datapath, error, data, message):
        """Why it was refused, as far as that can be known; empty where it can't."""
        if error == FLOW_EPERM and is_flow_mod(data):
            return self.outside(one, datapath, data, message)
        if error == EPERM:
            return self.not_permitted(one, datapath, data, message)
        if error == TABLES_FULL:
            return f"its quota of {one.quota} entries is used up, or the switch's table is full"
        if error == BAD_PORT:
            return self.bad_port(one, datapath, data, message)
        return WORDS.get(error, "")

    def outside(self, one, datapath, data, message):
        """A flow-mod none of whose packets the slice writes: whose they are."""
        if message and int.from_bytes(message[FLAGS_AT:ACTIONS_AT], "big") & FlowModFlag.EMERG:
            return "emergency entries aren't taken"
        match = self.physical_match(one, datapath, data[HEADER.size : HEADER.size + 40])
        found = list(self.audience.rules_meeting(match, datapath))
        if not found:
            return f"it is outside {one.name}: no rule has any of its packets"
        if any(rule.writer == one.name for rule, _all in found):
            return "the switch refuses it"
        rule, has_all = found[0]
        more = f", and {len(found) - 1} more have others" if len(found) > 1 and not has_all else ""
        return f"it is outside {one.name}: {rule}, {owner(rule)}, has {'all' if has_all else 'some'} of its packets{more}"

    def not_permitted(self, one, datapath, data, message):
        """A message that its rate doesn't let pass, or that isn't the slice's to send."""
        rate = f"its rate of {one.rate} messages a second is used up"
        kind = Header.of(data).type if len(data) >= HEADER.size else None
        if kind in (MessageType.FLOW_MOD, MessageType.BARRIER_REQUEST):
            return rate
        if kind == MessageType.PORT_MOD:
            return "ports are the switch's own"
        if kind == MessageType.SET_CONFIG:
            return "how fragments are handled can't be set"
        if kind == MessageType.PACKET_OUT and message:
            return self.foreign_packet(one, datapath, message) or rate
        return f"{rate}, or it names a port that isn't the slice's"

    def foreign_packet(self, one, datapath, message):
        """Whose the packet of a packet-out is, where it isn't the slice's; empty where it is, or can't be known."""
        buffer, in_port, size = PACKET_OUT_START.unpack_from(message, HEADER.size)
        if buffer != NO_BUFFER:
            return ""
        packet = message[HEADER.size + PACKET_OUT_START.size + size :]
        header = header_of(self.physical(one, datapath, in_port), packet)
        if any(self.writes_aside(rule, one, header, datapath) for rule in self.audience.rules):
            return ""
        rule = self.audience.rule_of_header(header, datapath)
        whose = f"{rule}, {owner(rule)}, has it" if rule else "no rule has it"
        return f"its packet is outside {one.name}: {packet_text(header)}: {whose}"

    def own_ports(self, one, datapath):
        """The ports of a slice as it is shown them, and the rules that name them."""
        named = {}
        for rule in self.audience.rules:
            if rule.writer == one.name and rule.pattern.holds_on(datapath):
                if "in_port" not in rule.pattern.constraints:
                    return f"its ports are all that the switch has, by {rule}"
                named.setdefault(rule.pattern.constraints["in_port"][0], rule)
        if not named:
            return "it has no ports, since it writes no rule on this switch"
        shown = sorted(((self.physical(one, datapath, port), rule) for port, rule in named.items()), key=lambda pair: pair[0])
        return "its ports are " + some_of([f"{port_of(port)} by {rule}" for port, rule in shown])

    def physical(self, one, datapath, port):
        """The switch's own number of a port that a slice names."""
        return self.audience.policy.shown_port(one.name, datapath, port)

    def physical_match(self, one, datapath, match):
        """A match of a slice with the switch's own number, where it names a port of entry."""
        if match[3] & FREE_IN_PORT:
            return match
        port = self.physical(one, datapath, int.from_bytes(match[4:6], "big"))
        return match[:4] + port.to_bytes(2, "big") + match[6:]

    @staticmethod
    def writes_aside(rule, one, header, datapath):
        """Whether a slice writes a packet by this rule, whatever its port of entry."""
        return rule.writer == one.name and rule.pattern.holds_on(datapath) and set(rule.pattern.unmet(header)) <= {"in_port"}

    def bad_port(self, one, datapath, data, message):
        """An action that names a port which the slice may not send to."""
        for port in output_ports(data, message):
            if not self.audience.may_send_to(one.name, self.physical(one, datapath, port), datapath):
                return f"port {port_of(port)} isn't one to which {one.name} may send: {self.own_ports(one, datapath)}"
        return "it names a port that isn't the slice's"


def some_of(texts):
    """The first texts, and how many there are more."""
    more = len(texts) - MOST_PORTS_NAMED
    return ", ".join(texts[:MOST_PORTS_NAMED]) + (f" and {more} more" if more > 0 else "")


def is_long_enough(message):
    """Whether a message has what stands in each of its type before its actions."""
    return bool(message) and len(message) >= HEADER.size and len(message) >= LEAST.get(Header.of(message).type, HEADER.size)


def owner(rule):
    """Whose the packets of a rule are."""
    return "nobody's" if rule.writer is None else f"of {rule.writer}"


def is_flow_mod(data):
    """Whether what an error has of a message is the beginning of a flow-mod, up to its priority."""
    return len(data) >= FLOW_MOD_SIZE and Header.of(data).type == MessageType.FLOW_MOD


def told_actions(data):
    """Actions as ovs-ofctl writes them, or their bytes where they have no form."""
    try:
        return actions_text(data)
    except Malformed:
        return data[:64].hex()


def output_ports(data, message):
    """The ports to which a refused message's actions send, in their order, as far as they are known."""
    if not message:
        return
    kind = Header.of(message).type
    at, end = ACTIONS_AT, len(message)
    if kind == MessageType.PACKET_OUT:
        at = HEADER.size + PACKET_OUT_START.size
        end = min(end, at + PACKET_OUT_START.unpack_from(message, HEADER.size)[2])
    while end - at >= 8:
        action, size = ACTION_HEAD.unpack_from(message, at)
        if size < 8:
            return
        if action in (ActionType.OUTPUT, ActionType.ENQUEUE):
            yield int.from_bytes(message[at + 4 : at + 6], "big")
        at += size
