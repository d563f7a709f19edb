"""A policy in which the holder of a slice has divided it by a policy of its own, as one flat policy.

All of this is this proxy's own rule.
"""
from dataclasses import dataclass

from .policy import Policy, Rule, in_order
from .policy_file import refuse_unaccepted


class DivisionRefused(Exception):
    """A slice that can't be divided so: its text says why."""


@dataclass(frozen=True)
class Part:
    """A flat rule and what it came from: an outer rule, and an inner one where the holder writes the outer one."""

    rule: Rule
    outer: Rule
    inner: Rule | None


def flat_slices(outer, holder, inner):
    """The outer slices without the holder, and then the inner ones."""
    return (*outer.slices[:holder], *outer.slices[holder + 1 :], *inner.slices)


def outer_slot(slot, holder):
    """Where another outer slice stands among the flat ones."""
    return slot - 1 if slot > holder else slot


def pairs(outer, holder, inner):
    """The rules that flat ones come from, in order: an outer rule alone, or one of the holder and an inner rule it meets."""
    for rule in in_order(outer.rules):
        if rule.writer != holder:
            yield rule, None
            continue
        for other in in_order(inner.rules):
            if rule.shares_a_switch(other) and rule.match.meets(other.match):
                yield rule, other


def flat_rule(outer_rule, inner_rule, holder, others, place, priority):
    """The flat rule of an outer rule and perhaps an inner one, where so many other outer slices there are."""
    readers = {outer_slot(slot, holder) for slot in outer_rule.readers if slot != holder}
    if inner_rule is None:
        writer = None if outer_rule.writer is None else outer_slot(outer_rule.writer, holder)
        return Rule(place, outer_rule.switch, priority, outer_rule.match, writer, tuple(sorted(readers)))
    readers |= {others + slot for slot in inner_rule.readers}
    switch = inner_rule.switch if outer_rule.switch is None else outer_rule.switch
    match = outer_rule.match.meet(inner_rule.match)
    return Rule(place, switch, priority, match, others + inner_rule.writer, tuple(sorted(readers)))


def parts(outer, holder, inner):
    """The flat rules in their order, each with what it came from; each inner rule is written."""
    found, others = list(pairs(outer, holder, inner)), len(outer.slices) - 1
    return [
        Part(flat_rule(*pair, holder, others, place, len(found) - 1 - place), *pair) for place, pair in enumerate(found)
    ]


def refuse_division(outer, holder, inner):
    """Tells of port numbers that are exchanged, else of an inner rule that nobody writes, by its place in the file, else
    of what is more than the holder's."""
    if outer.swaps or inner.swaps:
        raise DivisionRefused("ports")
    for rule in inner.rules:
        if rule.writer is None:
            raise DivisionRefused(f"rule {rule.place} has no writer")
    for name in ("rate", "burst", "quota"):
        total = sum(getattr(one, name) for one in inner.slices)
        if total > getattr(outer.slices[holder], name):
            raise DivisionRefused(f"{name} {total}")


def flattened(outer, holder, inner):
    """The flat policy; what keeps it from being one is reported as of any policy."""
    refuse_division(outer, holder, inner)
    rules = tuple(part.rule for part in parts(outer, holder, inner))
    policy = Policy(flat_slices(outer, holder, inner), rules)
    refuse_unaccepted(policy)
    return policy
