"""What keeps well-formed tables from being a policy: their number, what is named twice, and overlaps."""
import collections

from .fields import packet_text
from .policy import Finding, packet_in_both, refused_pairs, rules_in_order

MOST_SLICES, MOST_RULES, MOST_WRITE_RULES, MOST_PORTS = 32, 2048, 256, 1024


def acceptance_faults(slices, rules, swaps=()):
    """All faults of these, in which names and patterns that have a fault of their own may be missing."""
    yield from duplicate_names(slices)
    yield from too_many(slices, MOST_SLICES, "slices")
    yield from too_many(rules, MOST_RULES, "rules")
    names = {one.name for one in slices} - {None}
    yield from too_many_write_rules(rules, names)
    if len(rules) <= MOST_RULES:
        yield from overlaps(rules, names)
    yield from too_many(swaps, MOST_PORTS, "ports")
    yield from ports_twice(swaps)


def duplicate_names(slices):
    first = {}
    for one in slices:
        earlier = first.setdefault(one.name, one)
        if one.name is not None and earlier is not one:
            told = f"slice {one.slot}: the name {one.name} is that of slice {earlier.slot} (line {earlier.position.line})"
            yield Finding(one.name_position, told)


def too_many(tables, most, noun):
    """A limit, reported at the first table that passes it."""
    if len(tables) > most:
        yield Finding(tables[most].position, f"there are {len(tables)} {noun}, but at most {most} may be")


def too_many_write_rules(rules, names):
    written = collections.defaultdict(list)
    for rule in rules:
        written[rule.writer].append(rule)
    for name in sorted(names & written.keys()):
        if len(written[name]) > MOST_WRITE_RULES:
            told = f"{name} stands under write in {len(written[name])} rules, but may in at most {MOST_WRITE_RULES}"
            yield Finding(written[name][MOST_WRITE_RULES].position, told)


def overlaps(rules, names):
    """Packets that a rule would take from one before it, which another slice or nobody writes."""
    sound = [rule for rule in rules if rule.pattern is not None and (rule.writer is None or rule.writer in names)]
    for earlier, later in refused_pairs(rules_in_order(sound)):
        packet = packet_text(packet_in_both(earlier.pattern, later.pattern))
        switch = later.pattern.switch if later.pattern.switch is not None else earlier.pattern.switch
        where = f" on switch {switch:016x}" if switch is not None else ""
        told = f"{later}, {owner(later)}, overlaps {earlier}, {owner(earlier)}: {packet}{where} is in both"
        yield Finding(later.position, told)


def ports_twice(swaps):
    """Numbers that an earlier table of the slice names on a common switch, each with the first such table."""
    by_slice = collections.defaultdict(list)
    for swap in swaps:
        for earlier in by_slice[swap.slice_name]:
            both = earlier.numbers & swap.numbers
            if both and swap.slice_name is not None and earlier.shares_a_switch(swap):
                told = f"{swap} names {min(both)} for {swap.slice_name}, but {earlier} names it too, on a common switch"
                yield Finding(swap.position, told)
                break
        by_slice[swap.slice_name].append(swap)


def owner(rule):
    """Whose the packets of a rule are."""
    return "nobody's" if rule.writer is None else f"of {rule.writer}"
