"""Prints all that is wrong with a policy, each with its line and column, and what looks like a mistake."""
from .controllers import controller_warnings, unresolved_names
from .divisions import divided, read_pair
from .explain import add_under
from .fields import packet_text
from .policy import Finding, hidden_pairs, packet_in_both, partly_read_pairs
from .policy_forms import read_network

NAME = "lint"
SUMMARY = "print all that is wrong with a policy"
EPILOG = """\
A fault is what flowvisor check refuses the policy for; it says the first one alone. A warning is what it accepts, but
hardly was meant: a rule that never applies, bits of an address that don't count, a reader of some overlapping rules of
a slice alone, a controller that can never be dialled, two slices with one controller. The status is 1 where there is a
fault, and with --strict where there is a warning too. With --under what flowvisor flatten refuses is a fault too, and a
rule that shares no packet with those of NAME is warned of.
"""


def add_arguments(parser):
    parser.epilog = EPILOG
    parser.add_argument("--strict", action="store_true", help="end with status 1 where there are warnings")
    parser.add_argument("--resolve", action="store_true", help="look up the hosts of controllers, and warn of those not found")
    add_under(parser)
    parser.add_argument("policy", metavar="POLICY", help="the policy's file")


def run(arguments):
    read = read_pair(arguments.policy)
    faults, warnings = read.reading.faults, warnings_of(read.reading)
    counts = len(read.policy.slices), len(read.policy.rules)
    if arguments.resolve:
        warnings += unresolved_names(read.policy.slices)
    if arguments.under:
        division = divided(*arguments.under, read)
        # A policy that is none divides nothing.
        if not faults:
            faults, counts = list(division.faults()), (len(division.slices), len(division.pairs))
            warnings += division.warnings()
    told = [(finding, "fault") for finding in faults] + [(finding, "warning") for finding in warnings]
    for finding, kind in sorted(told):
        place = finding.position
        print(f"{arguments.policy}:{place.line}:{place.column}: {kind}: {on_one_line(finding.text)}")
    print(verdict(len(faults), counts, len(warnings)))
    return 1 if faults or arguments.strict and warnings else 0


def on_one_line(text):
    """A text with escapes in the place of what would break its line."""
    return "".join(one if one.isprintable() else repr(one)[1:-1] for one in text)


def verdict(faults, counts, warnings):
    """The last line: whether the policy, or the flat one, is accepted, with its slices and rules."""
    also = f", {counted(warnings, 'warning')}" if warnings else ""
    if faults:
        return f"refused: {counted(faults, 'fault')}{also}"
    slices, rules = counts
    return f"accepted: {counted(slices, 'slice')}, {counted(rules, 'rule')}{also}"


def counted(count, noun):
    return f"{count} {noun}" if count == 1 else f"{count} {noun}s"


def warnings_of(reading):
    """What a policy may have and be accepted, but hardly on purpose."""
    rules = reading.policy.in_order
    hidden = list(hidden_pairs(rules))
    never = {later.index for _earlier, later in hidden}
    return [
        *hidden_rules(hidden), *partial_readers([rule for rule in rules if rule.index not in never]), *disregarded_bits(reading),
        *controller_warnings(reading.policy.slices), *idle_swaps(reading.policy.swaps),
    ]


def idle_swaps(swaps):
    """Port tables that exchange a number with itself."""
    for swap in swaps:
        if swap.shown is not None and swap.shown == swap.physical:
            yield Finding(swap.position, f"{swap} exchanges nothing: shown and physical are both {swap.shown}")


def hidden_rules(pairs):
    """Rules all of whose packets are another's; where these two overlap, that is a fault."""
    for earlier, later in pairs:
        if later.writer is None or later.writer == earlier.writer:
            yield Finding(later.position, f"{later} never applies: {earlier} comes before it and has all of its packets")


def partial_readers(rules):
    """Readers of one rule of a slice and not of another that has packets in common with it, of rules that apply."""
    for earlier, later, reader in partly_read_pairs(rules):
        packet = packet_text(packet_in_both(earlier.pattern, later.pattern))
        if reader in later.readers:
            told = f"{reader} reads {later}, but not {earlier}, which comes before it and has some of its packets, as {packet}"
            yield Finding(later.position, told)
        else:
            told = f"{reader} reads {earlier}, but not {later}, which comes behind it and has packets in common with it, as {packet}"
            yield Finding(earlier.position, told)


def disregarded_bits(reading):
    """Addresses with bits set behind the length of their prefix."""
    rules = reading.document.root.content.get("rule")
    tables = rules.content if rules and isinstance(rules.content, list) else []
    for index, table in enumerate(tables):
        for name in ("nw_src", "nw_dst"):
            node = table.content.get(name) if isinstance(table.content, dict) else None
            network = read_network(node.content) if node else None
            if network and network[0] & ~network[1]:
                yield Finding(reading.document.position(node.start), disregarded_text(index, name, node.content, network))


def disregarded_text(index, name, source, network):
    address, mask = network
    prefix = ".".join(map(str, (address & mask).to_bytes(4)))
    length = source.partition("/")[2]
    return f'rule {index}: {name} is "{source}", whose bits behind the first {length} don\'t count: it is "{prefix}/{length}"'
