"""Says who gets a packet under a policy, and by which rule."""
import argparse
import re

from .divisions import accepted_flat_policy
from .packet_sets import deciding_rule, packets_of
from .policy_text import accepted_policy

NAME = "explain"
SUMMARY = "say who gets a packet, and by which rule"
EPILOG = """\
PACKET is given by its fields, as ovs-ofctl writes them (in_port=1,tcp,nw_dst=10.0.0.1,tp_dst=80), or as the bytes of
an Ethernet frame in hex, perhaps with its port before it (in_port=1,HEX). What isn't said is 0, and a packet without
dl_vlan has no tag. Or it is a flow, as a line of ovs-ofctl dump-flows: there, what isn't said is any. All packets must
go by one rule. Without --switch the answer is for all switches that the policy names, and any other. With --under the
slice NAME of OUTER is divided by POLICY, and the rules are those of the flat policy, as flowvisor flatten prints it.
"""

DATAPATH = re.compile(r"[0-9A-Fa-f]{16}")


def datapath(text):
    """A datapath id, which is 16 hex digits."""
    if not DATAPATH.fullmatch(text):
        raise argparse.ArgumentTypeError(f"{text} is no datapath id of 16 hex digits")
    return int(text, 16)


def add_under(parser):
    told = "the policy divides the slice NAME of the policy OUTER"
    parser.add_argument("--under", metavar=("OUTER", "NAME"), nargs=2, help=told)


def add_arguments(parser):
    parser.epilog = EPILOG
    parser.add_argument("--switch", metavar="ID", type=datapath, help="the switch's datapath id, in 16 hex digits")
    add_under(parser)
    parser.add_argument("policy", metavar="POLICY", help="the policy's file")
    parser.add_argument("packet", metavar="PACKET", help="the packet, by its fields or in hex, or a flow")


def run(arguments):
    policy = accepted_flat_policy(*arguments.under, arguments.policy) if arguments.under else accepted_policy(arguments.policy)
    # Where nothing can be said of one of several switches, nothing is printed.
    for line in list(told(policy, arguments.packet, arguments.switch)):
        print(line)
    return 0


def told(policy, text, switch):
    """The lines that say who gets a packet, on one switch or on all that differ."""
    packets = packets_of(text)
    yield f"{packets.noun}: {packets}"
    if packets.slot is not None and packets.slot < len(policy.slices):
        yield f"it is a probe of {policy.slices[packets.slot].name}, and goes to it alone, whatever the rules say"
        return
    for one, heading in switches_of(policy, switch):
        for line in explanation(policy, packets, one):
            yield heading + line


def switches_of(policy, switch):
    """The switches to tell of, each with what its lines begin with: the one that is asked for, or all that differ."""
    named = sorted({one.switch for one in (*(rule.pattern for rule in policy.rules), *policy.swaps)} - {None})
    if switch is not None or not named:
        return [(switch, "")]
    return [(one, f"switch {one:016x}: ") for one in named] + [(None, "any other switch: ")]


def explanation(policy, packets, switch):
    """The lines that say who gets packets on a switch."""
    rule = deciding_rule(policy, packets, switch)
    if rule is None:
        yield "no rule has it: it goes to nobody"
        yield from nearest_miss(policy.in_order, packets, switch)
        return
    yield f"{rule} has it, of priority {rule.priority}"
    yield from rule.told_origin()
    yield f"written by {rule.writer or 'nobody'}"
    yield f"read by {', '.join(rule.readers) or 'nobody else'}"
    yield from shown_ports(policy, rule, packets, switch)
    yield from deciding_fields(rule, packets)
    if not rule.texts:
        before = policy.in_order[: policy.in_order.index(rule)]
        yield from nearest_miss(before, packets, switch, "nearest before it")


def shown_ports(policy, rule, packets, switch):
    """The slices that are shown the packets' port under another number."""
    number, mask = packets.pattern.constraints.get("in_port", (0, 0))
    for name in (rule.writer, *rule.readers) if mask else ():
        shown = policy.shown_port(name, switch, number)
        if shown != number:
            yield f"{name} is shown port {number} as {shown}"


def deciding_fields(rule, packets):
    """The fields of a rule, each with what the packets have."""
    if rule.pattern.switch is not None:
        yield f'by switch = "{rule.pattern.switch:016x}"'
    elif not rule.texts:
        yield "by no field: it has every packet"
    for name, text in rule.texts.items():
        yield f"by {name} = {text}: the {packets.noun} has {packets.shown(name)}"


def nearest_miss(rules, packets, switch, what="nearest"):
    """The rule of some that the packets miss by the fewest fields, the first of several."""
    rules = [rule for rule in rules if rule.pattern.holds_on(switch)]
    if rules:
        rule = min(rules, key=lambda rule: len(rule.pattern.conflicts(packets.pattern)))
        yield f"{what} is {rule}"
        for name in rule.pattern.conflicts(packets.pattern):
            yield f"not by {name} = {rule.texts[name]}: the {packets.noun} has {packets.shown(name)}"
