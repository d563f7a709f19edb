"""Slices and rules, the order of rules, and which rules have packets in common."""
import collections
import functools
import itertools
from collections.abc import Iterator
from dataclasses import dataclass

from .fields import BITS, Header
from .toml_reader import Position

# What a rule can say of a packet: the switch, and the fields of the header. Each has a place in one long number.
SWITCH_BITS = 64
SHIFTS = {name: sum(list(BITS.values())[:place]) for place, name in enumerate(BITS)}
SWITCH_SHIFT = sum(BITS.values())


@dataclass(frozen=True)
class Pattern:
    """A set of packets on switches: those whose bits under the mask are those of the value.

    `constraints` has the value and the mask of each field that isn't free, and `switch` the only switch, where there
    is one.
    """

    constraints: dict[str, tuple[int, int]]
    switch: int | None = None

    def __post_init__(self):
        value = mask = 0
        for name, (bits, bits_mask) in self.constraints.items():
            value |= (bits & bits_mask) << SHIFTS[name]
            mask |= bits_mask << SHIFTS[name]
        if self.switch is not None:
            value |= self.switch << SWITCH_SHIFT
            mask |= ((1 << SWITCH_BITS) - 1) << SWITCH_SHIFT
        object.__setattr__(self, "value", value)
        object.__setattr__(self, "mask", mask)

    def meets(self, other):
        """Whether a packet is in both."""
        return not (self.value ^ other.value) & self.mask & other.mask

    def includes(self, other):
        """Whether all packets of the other are in this."""
        return not (self.mask & ~other.mask or (self.value ^ other.value) & self.mask)

    def unmet(self, header):
        """The fields that keep a packet out, its switch aside."""
        return [
            name for name, (value, mask) in self.constraints.items() if (value ^ getattr(header, name)) & mask
        ]

    def conflicts(self, other):
        """The fields that keep all packets of another pattern out, the switches aside."""
        return [
            name for name, (value, mask) in self.constraints.items()
            if name in other.constraints and (value ^ other.constraints[name][0]) & mask & other.constraints[name][1]
        ]

    def covers(self, other):
        """Whether all packets of the other are in this, the switches aside."""
        return all(
            name in other.constraints and not mask & ~other.constraints[name][1] and not (value ^ other.constraints[name][0]) & mask
            for name, (value, mask) in self.constraints.items()
        )

    def holds_on(self, switch):
        """Whether the rule counts on a switch; None is one that no rule names."""
        return self.switch is None or self.switch == switch


def packet_in_both(one, other):
    """A packet that is in two patterns that meet; what both leave free is as in an empty packet."""
    fields = {}
    for pattern in (one, other):
        for name, (value, mask) in pattern.constraints.items():
            fields[name] = fields.get(name, 0) | (value & mask)
    return Header(**fields)


@dataclass(frozen=True, order=True)
class Finding:
    """Something to be said of a policy, and where in its file."""

    position: Position
    text: str


@dataclass(frozen=True)
class Slice:
    """A controller's share, with the places of its table, its name and its controller in the file."""

    slot: int
    name: str | None
    controller: str | None
    position: Position
    name_position: Position | None
    controller_position: Position | None


@dataclass(frozen=True)
class Rule:
    """A rule, with its place among the rules and the place of its header in the file.

    `writer` and `readers` are names. `texts` has the fields as they stand in the file. One of which something isn't
    well formed has no pattern.
    """

    index: int
    position: Position
    priority: int
    pattern: Pattern | None
    writer: str | None
    readers: tuple[str, ...]
    texts: dict[str, str]

    def __str__(self):
        return f"rule {self.index} (line {self.position.line})"

    def told_origin(self):
        """Lines that say where the rule comes from; it stands in a file as it is."""
        return ()


@dataclass(frozen=True)
class Swap:
    """A port table: for a slice, named or of no known name, two port numbers stand for one another.

    One of which something isn't well formed has no number under `shown` or `physical`.
    """

    index: int
    position: Position
    slice_name: str | None
    switch: int | None
    shown: int | None
    physical: int | None

    def __str__(self):
        return f"port {self.index} (line {self.position.line})"

    @property
    def numbers(self):
        return {self.shown, self.physical} - {None}

    def holds_on(self, switch):
        """Whether it counts on a switch; None is one that no table names."""
        return self.switch is None or self.switch == switch

    def shares_a_switch(self, other):
        return None in (self.switch, other.switch) or self.switch == other.switch


def rules_in_order(rules):
    """Rules by falling priority, and those of one priority as in the file."""
    return sorted(rules, key=lambda rule: -rule.priority)


@dataclass(frozen=True)
class Policy:
    """The slices, the rules and the port tables, in the order of the file."""

    slices: tuple[Slice, ...]
    rules: tuple[Rule, ...]
    swaps: tuple[Swap, ...] = ()

    @functools.cached_property
    def in_order(self):
        """The rules in the order in which they are asked."""
        return rules_in_order(self.rules)

    def shown_port(self, name, switch, number):
        """The number under which a slice is shown a port of a switch."""
        for swap in self.swaps:
            if swap.slice_name == name and swap.holds_on(switch) and number in swap.numbers:
                return swap.shown if number == swap.physical else swap.physical
        return number

    def first(self, header, switch):
        """The rule that governs a packet on a switch, or None; a switch of None is one that no rule names."""
        for rule in self.in_order:
            if rule.pattern.holds_on(switch) and not rule.pattern.unmet(header):
                return rule
        return None


def refused_pairs(rules) -> Iterator[tuple[Rule, Rule]]:
    """The pairs of rules, given in their order, of which the later would take packets of the earlier for its slice."""
    for place, later in enumerate(rules):
        if later.writer is None:
            continue
        for earlier in rules[:place]:
            if earlier.writer != later.writer and earlier.pattern.meets(later.pattern):
                yield earlier, later


def partly_read_pairs(rules) -> Iterator[tuple[Rule, Rule, str]]:
    """Pairs of rules of one slice, given in their order, that have packets in common, and a reader of one of them alone.

    Each reader of a rule is reported with one other rule.
    """
    written = collections.defaultdict(list)
    for rule in rules:
        if rule.writer is not None:
            written[rule.writer].append(rule)
    seen = set()
    for earlier, later in itertools.chain.from_iterable(itertools.combinations(group, 2) for group in written.values()):
        if earlier.readers == later.readers or not earlier.pattern.meets(later.pattern):
            continue
        for rule, other in ((later, earlier), (earlier, later)):
            for reader in rule.readers:
                if reader not in other.readers and (rule.index, reader) not in seen:
                    seen.add((rule.index, reader))
                    yield earlier, later, reader


def hidden_pairs(rules) -> Iterator[tuple[Rule, Rule]]:
    """For each rule, given in their order, that never applies, the first one before it that has all of its packets."""
    for place, later in enumerate(rules):
        for earlier in rules[:place]:
            if earlier.pattern.includes(later.pattern):
                yield earlier, later
                break
