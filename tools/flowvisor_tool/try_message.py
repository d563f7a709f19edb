"""Says what becomes of a flow-mod or a packet-out of a slice: what the switch is sent, or the error, and why."""
import argparse
import re

from plain_desk.messages import FlowMod
from plain_desk.policy_file import read_policy
from plain_desk.ports import MOST_PORTS
from plain_desk.wire import is_port

from .explain import datapath, switches_of
from .faults import Fault
from .fields import value_of
from .files import named
from .flow_text import flow_mod_text
from .frame_header import probe_slot
from .message_words import COMMANDS, read_message
from .openflow.actions import actions_text
from .openflow.messages import ERROR, PACKET_OUT, split
from .openflow.protocol import HEADER, ActionType, FlowModCommand, Port
from .openflow.text import port_of
from .policy_text import accepted_policy
from .refusals import error_text, piece_rules, reasons
from .trial import Site, trials

NAME = "try"
SUMMARY = "say what becomes of a flow-mod or a packet-out"
USAGE = "%(prog)s [OPTION]... POLICY PACKET [ACTIONS]"
EPILOG = """\
PACKET is a flow as ovs-ofctl add-flow has it (priority=10,tcp,tp_dst=80), and a flow-mod is tried; or a frame in hex,
perhaps with its port before it (in_port=1,HEX), and a packet-out is. ACTIONS (output:2) may stand behind actions= there. The slice's connection is new, so that its rate, entries and buffers are unused.
"""

PORTS = re.compile(r"(?P<first>\w+)(?:-(?P<last>\d+))?")
FLOODS = (Port.FLOOD, Port.ALL)


def add_arguments(parser):
    parser.usage = USAGE
    parser.epilog = EPILOG
    add = parser.add_argument
    add("--slice", metavar="NAME", help="whose controller sends it; without this each is tried")
    add("--switch", metavar="ID", type=datapath, help="the switch's datapath id, in 16 hex digits")
    add("--ports", metavar="PORTS", type=ports, default=None, help="the switch's ports, as 1,2,5-8: for flood and all")
    add("--command", metavar="WORD", choices=COMMANDS, help="that of a flow-mod: add, or as modify_strict")
    add("--packet-out", action="store_true", help="the fields are those of a packet that is sent out")
    add("policy", metavar="POLICY", help="the policy's file")
    add("packet", metavar="PACKET", help="the flow, or the bytes of a packet in hex")
    add("actions", metavar="ACTIONS", nargs="?", help="what is done with the packets")


def ports(text):
    """The numbers of a switch's ports."""
    numbers = set()
    for word in text.split(","):
        found = PORTS.fullmatch(word)
        first = value_of("in_port", found["first"]) if found else None
        last = value_of("in_port", found["last"] or found["first"]) if found else None
        if first is None or last is None or not all(map(is_port, (first, last))):
            raise argparse.ArgumentTypeError(f"{text!r} isn't ports of a switch, as 1,2,5-8")
        numbers.update(range(first, last + 1))
    if len(numbers) > MOST_PORTS:
        raise argparse.ArgumentTypeError(f"a switch has at most {MOST_PORTS} ports that the proxy knows")
    return tuple(sorted(numbers))


def run(arguments):
    policy = accepted_policy(arguments.policy)
    with open(arguments.policy, "rb") as file, named(arguments.policy):
        plain = read_policy(file.read())
    actions = arguments.actions and arguments.actions.removeprefix("actions=")
    message = read_message(arguments.packet, actions, arguments.command, arguments.packet_out)
    if arguments.ports is None and any(action.kind == ActionType.OUTPUT and action.value in FLOODS for action in message.actions):
        raise Fault("flood and all stand for ports that the switch has: --ports says which")
    slots = slots_of(policy, arguments.slice)
    print(message_text(message))
    for switch, heading in switches_of(policy, arguments.switch):
        site = Site(policy, plain, unnamed_switch(policy) if switch is None else switch, arguments.ports or ())
        for trial in trials(site, slots, message):
            for line in told(trial):
                print(f"{heading}{policy.slices[trial.slot].name}: {line}")
    return 0


def slots_of(policy, name):
    """The slots of the slices of which something is to be said."""
    if name is None:
        return range(len(policy.slices))
    slots = [one.slot for one in policy.slices if one.name == name]
    if not slots:
        raise Fault(f"the policy has no slice {name}: {', '.join(one.name for one in policy.slices)}")
    return slots


def unnamed_switch(policy):
    """The datapath id of a switch that no rule and no port table names."""
    named_ones = {one.switch for one in (*(rule.pattern for rule in policy.rules), *policy.swaps)}
    return next(number for number in range(1, len(named_ones) + 2) if number not in named_ones)


def message_text(message):
    """The message that is tried, in one line."""
    if isinstance(message, FlowMod):
        return f"flow-mod, {FlowModCommand(message.command).name.lower()}: {flow_mod_text(message.spelled())}"
    return f"packet-out: {packet_out_text(message.spelled())}"


def packet_out_text(frame):
    """A PACKET_OUT as `ovs-ofctl packet-out` has it."""
    _buffer, in_port, size, rest = split(PACKET_OUT, frame[HEADER.size :])
    return f"in_port={port_of(in_port)},packet={rest[size:].hex()},actions={actions_text(rest[:size])}"


def told(trial):
    """The lines that tell what became of a message."""
    if trial.error is not None:
        family, code, _data = split(ERROR, trial.error[HEADER.size :])
        yield f"refused: {error_text(family, code)}"
        yield from reasons(trial)
    elif not trial.sent:
        yield "nothing is sent"
        yield from reasons(trial)
    elif isinstance(trial.message, FlowMod):
        for frame, (_part, rule) in zip(trial.sent, piece_rules(trial), strict=True):
            yield f"sent by {rule}: {flow_mod_text(frame)}"
    else:
        probe = " as a probe" if probe_slot(packet_in(trial.sent[0])) is not None else ""
        yield f"sent{probe}: {packet_out_text(trial.sent[0])}"


def packet_in(frame):
    """The packet that a PACKET_OUT has."""
    _buffer, _in_port, size, rest = split(PACKET_OUT, frame[HEADER.size :])
    return rest[size:]
