"""A slice that its holder divides by a policy of its own: what of that is refused or idle, and what comes of it.

Which flat rules come of two policies says plain_desk, which is tried against the program.
"""
import functools
from dataclasses import dataclass

from plain_desk.division import flat_slices, pairs, parts
from plain_desk.policy import Policy as PlainPolicy
from plain_desk.policy_file import read_policy as read_plain_policy

from .acceptance import MOST_RULES, MOST_SLICES, MOST_WRITE_RULES
from .faults import Fault
from .fields import BITS
from .files import named
from .policy import Finding, Pattern, Policy, Rule
from .policy_text import PolicyReading, read_policy
from .toml_reader import Position

# What slices have of a switch, each in words.
SHARES = {"rate": "messages a second", "burst": "messages at once", "quota": "flow entries"}


@dataclass(frozen=True)
class FlatRule(Rule):
    """A rule of a flat policy, with the rules that it comes from; it stands in no file."""

    origin: str = ""

    def __str__(self):
        return f"flat rule {self.index}"

    def told_origin(self):
        return (f"it comes from {self.origin}",)


@dataclass(frozen=True)
class PolicyPair:
    """A policy as it is read here, and as plain_desk reads it."""

    path: str
    data: bytes
    reading: PolicyReading

    @property
    def policy(self):
        return self.reading.policy

    @functools.cached_property
    def plain(self) -> PlainPolicy:
        """The accepted policy, as plain_desk has it."""
        return read_plain_policy(self.data)

    def told(self, place):
        """A rule, with its file."""
        return f"{self.policy.rules[place]} of {self.path}"


def read_pair(path):
    with open(path, "rb") as file, named(path):
        data = file.read()
    return PolicyPair(path, data, read_policy(data))


@dataclass(frozen=True)
class Division:
    """An accepted outer policy, the slot of one of its slices, and an accepted inner policy."""

    outer: PolicyPair
    slot: int
    inner: PolicyPair

    @property
    def holder(self):
        return self.outer.plain.slices[self.slot]

    @functools.cached_property
    def pairs(self):
        """The outer and perhaps inner rules that flat ones come from, in order."""
        return list(pairs(self.outer.plain, self.slot, self.inner.plain))

    @property
    def slices(self):
        return flat_slices(self.outer.plain, self.slot, self.inner.plain)

    def faults(self):
        """All that a division is refused for, each with its place in the inner policy."""
        yield from self.ports()
        yield from self.unwritten()
        yield from self.shares()
        yield from self.names()
        yield from self.limits()

    def ports(self):
        """Port numbers of slices' own, which neither policy may have."""
        told = "has tables [[port]], but a slice can be divided only where no port numbers are exchanged"
        if self.outer.policy.swaps:
            first = self.outer.policy.swaps[0]
            yield Finding(Position(1, 1), f"{self.outer.path} {told}: {first} is its first")
        if self.inner.policy.swaps:
            yield Finding(self.inner.policy.swaps[0].position, f"{self.inner.path} {told}")

    def unwritten(self):
        for rule in self.inner.policy.rules:
            if rule.writer is None:
                yield Finding(rule.position, f"{rule} has no writer, but each rule by which a slice is divided must have one")

    def shares(self):
        for name, words in SHARES.items():
            total, most = sum(getattr(one, name) for one in self.inner.plain.slices), getattr(self.holder, name)
            if total > most:
                told = f"the slices have {name} {total} together, but {self.holder.name} has {most} {words}"
                yield Finding(self.inner.policy.slices[0].position, told)

    def names(self):
        others = {one.name: one for one in self.outer.policy.slices if one.slot != self.slot}
        for one in self.inner.policy.slices:
            if (other := others.get(one.name)) is not None:
                told = f"slice {one.slot}: the name {one.name} is that of slice {other.slot} (line {other.position.line}) of {self.outer.path}"
                yield Finding(one.name_position, told)

    def limits(self):
        count = len(self.slices)
        if count > MOST_SLICES:
            first = self.inner.policy.slices[max(0, len(self.inner.policy.slices) - (count - MOST_SLICES))]
            yield Finding(first.position, f"there are {count} slices in all, but at most {MOST_SLICES} may be")
        if len(self.pairs) > MOST_RULES:
            yield Finding(Position(1, 1), f"it makes {len(self.pairs)} rules in all, but at most {MOST_RULES} may be")
        for one in self.inner.policy.slices:
            written = sum(inner is not None and inner.writer == one.slot for _outer, inner in self.pairs)
            if written > MOST_WRITE_RULES:
                told = f"{one.name} would write {written} rules, but may write at most {MOST_WRITE_RULES}"
                yield Finding(one.position, told)

    def warnings(self):
        """Inner rules that share no packet with a rule of the holder."""
        met = {inner.place for _outer, inner in self.pairs if inner is not None}
        for rule in self.inner.policy.rules:
            if rule.writer is not None and rule.index not in met:
                yield Finding(rule.position, f"{rule} gives nothing: no rule of {self.holder.name} in {self.outer.path} has any of its packets")

    def flat_policy(self):
        """The flat policy, whose rules say which ones they come from."""
        names = [one.name for one in self.slices]
        rules = [self.flat_rule(part, names) for part in parts(self.outer.plain, self.slot, self.inner.plain)]
        others = [one for one in self.outer.policy.slices if one.slot != self.slot]
        return Policy((*others, *self.inner.policy.slices), tuple(rules))

    def flat_rule(self, part, names):
        origin, texts = self.outer.told(part.outer.place), dict(self.outer.policy.rules[part.outer.place].texts)
        if part.inner is not None:
            origin += f" and {self.inner.told(part.inner.place)}"
            texts |= self.narrower_texts(part)
            texts = {name: texts[name] for name in BITS if name in texts}
        writer = None if part.rule.writer is None else names[part.rule.writer]
        readers = tuple(names[slot] for slot in part.rule.readers)
        pattern = Pattern(self.constraints(part.rule.match, texts), part.rule.switch)
        return FlatRule(part.rule.place, Position(1, 1), part.rule.priority, pattern, writer, readers, texts, origin)

    def narrower_texts(self, part):
        """The texts of an inner rule's fields, but for those of which the outer rule says more."""
        texts = self.inner.policy.rules[part.inner.place].texts
        return {name: text for name, text in texts.items() if part.rule.match.constraint(name) == part.inner.match.constraint(name)}

    @staticmethod
    def constraints(match, texts):
        return {name: match.constraint(name) for name in texts}


def divided(outer_path, name, inner):
    """The division of the slice of a name by an inner policy that is accepted."""
    outer = read_pair(outer_path)
    if outer.reading.faults:
        raise Fault("it isn't accepted: flowvisor-tool lint prints why", outer_path)
    slots = [one.slot for one in outer.policy.slices if one.name == name]
    if not slots:
        raise Fault(f"no slice of it is called {name}", outer_path)
    return Division(outer, slots[0], inner)


def accepted_flat_policy(outer_path, name, inner_path):
    """The flat policy of a division that isn't refused."""
    inner = read_pair(inner_path)
    if inner.reading.faults:
        raise Fault("it isn't accepted: flowvisor-tool lint prints why", inner_path)
    division = divided(outer_path, name, inner)
    if any(division.faults()):
        raise Fault(f"{name} can't be divided by it: flowvisor-tool lint --under prints why", inner_path)
    return division.flat_policy()
