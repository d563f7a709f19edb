"""Matches, and the headers that they have (OpenFlow 1.0.0, sections 3.4 and 5.2.3).

The normal form, in which each set of headers that a match can say has one spelling, is this proxy's own rule.
"""
import functools
import struct
from typing import NamedTuple

from flowvisor_tool.fields import BITS
from flowvisor_tool.openflow.ethernet import ARP, ICMP, IPV4, TCP, UDP
from flowvisor_tool.openflow.protocol import UNTAGGED

LAYOUT = struct.Struct(">IH6s6sHBxHBBxxIIHH")
SIZE = LAYOUT.size
FULL = {name: (1 << bits) - 1 for name, bits in BITS.items()}
# Where a field stands in the long numbers of a match.
PLACES = dict(zip(BITS, (sum(list(BITS.values())[:place]) for place in range(len(BITS)))))
# The bits of the wildcards that leave fields free, and where the numbers of free bits of addresses stand.
WILDCARDS = {
    "in_port": 1 << 0, "dl_vlan": 1 << 1, "dl_src": 1 << 2, "dl_dst": 1 << 3, "dl_type": 1 << 4, "nw_proto": 1 << 5,
    "tp_src": 1 << 6, "tp_dst": 1 << 7, "dl_vlan_pcp": 1 << 20, "nw_tos": 1 << 21,
}
FREE_BITS = {"nw_src": 8, "nw_dst": 14}
ALL_WILDCARDS = 0x3FFFFF
ADDRESS_BITS = 32
# What a field keeps of its bits.
KEPT_BITS = FULL | {"dl_vlan_pcp": 7, "nw_tos": 0xFC}


def is_ipv4(constraints):
    return constraints.get("dl_type") == (IPV4, FULL["dl_type"])


def is_ipv4_or_arp(constraints):
    return is_ipv4(constraints) or constraints.get("dl_type") == (ARP, FULL["dl_type"])


def is_tagged(constraints):
    return "dl_vlan" in constraints and constraints["dl_vlan"][0] != UNTAGGED


def has_ports(constraints):
    protocol, mask = constraints.get("nw_proto", (0, 0))
    return is_ipv4(constraints) and mask and protocol in (ICMP, TCP, UDP)


# What must be said of others where a field is to be bound.
NEEDS = {
    "dl_vlan_pcp": is_tagged, "nw_tos": is_ipv4, "nw_proto": is_ipv4_or_arp, "nw_src": is_ipv4_or_arp, "nw_dst": is_ipv4_or_arp,
    "tp_src": has_ports, "tp_dst": has_ports,
}


class Match(NamedTuple):
    """A set of headers: those whose bits under the mask are those of the value; each field has a place of its own."""

    value: int
    mask: int

    @classmethod
    def of(cls, constraints):
        """The match that binds these fields, each to a value under a mask; it is one of a normal form."""
        value = mask = 0
        for name, (bits, bits_mask) in constraints.items():
            value |= (bits & bits_mask) << PLACES[name]
            mask |= bits_mask << PLACES[name]
        return cls(value, mask)

    def constraint(self, name):
        """The value of a field and its mask, which is 0 where the field is free."""
        return self.value >> PLACES[name] & FULL[name], self.mask >> PLACES[name] & FULL[name]

    def equals(self, name, value):
        """Whether a field must have this value."""
        return self.constraint(name) == (value, FULL[name])

    def is_free(self, name):
        return self.constraint(name)[1] == 0

    def bound(self, name, value):
        """The match with a field that must have this value, whatever it was before."""
        full = FULL[name] << PLACES[name]
        return Match(self.value & ~full | value << PLACES[name], self.mask | full)

    def freed(self, name):
        """The match with a field left free."""
        full = FULL[name] << PLACES[name]
        return Match(self.value & ~full, self.mask & ~full)

    def is_exact(self):
        """Whether no field is free, and no bit of an address: such an entry goes before all others (section 3.4)."""
        return all(self.constraint(name)[1] == full for name, full in FULL.items())

    def has(self, header):
        return not (self.value ^ packed(header)) & self.mask

    def includes(self, other):
        return not (self.mask & ~other.mask or (self.value ^ other.value) & self.mask)

    def meets(self, other):
        """Whether a header is in both."""
        return not (self.value ^ other.value) & self.mask & other.mask

    def meet(self, other):
        """The headers in both, or None."""
        return Match(self.value | other.value, self.mask | other.mask) if self.meets(other) else None


ANY = Match(0, 0)


@functools.lru_cache(4096)
def packed(header):
    """A header as one long number."""
    return sum(value << place for value, place in zip(header, PLACES.values()))


def mask_of(wildcards, name):
    """The bits of a field that the wildcards bind."""
    if name in FREE_BITS:
        free = min(ADDRESS_BITS, wildcards >> FREE_BITS[name] & 0x3F)
        return FULL[name] << free & FULL[name]
    return 0 if wildcards & WILDCARDS[name] else FULL[name]


@functools.lru_cache(4096)
def normal_match(spelled):
    """The normal form of a match's 40 bytes.

    A field without what it needs is zero in an exact match and free in any other; the tests are made field by field, on
    what is normal so far.
    """
    wildcards, *fields = LAYOUT.unpack(spelled)
    is_exact = not wildcards & ALL_WILDCARDS
    constraints = {}
    for name, value in zip(BITS, fields):
        value = int.from_bytes(value) if isinstance(value, bytes) else value
        mask = mask_of(wildcards, name)
        has_needs = name not in NEEDS or NEEDS[name](constraints)
        if mask and has_needs:
            constraints[name] = value & KEPT_BITS[name] & mask, mask
        elif is_exact:
            constraints[name] = 0, mask
    return Match.of(constraints)


@functools.lru_cache(4096)
def spelled_match(match):
    """The 40 bytes of a match, with zeros for all that is free."""
    wildcards, fields = 0, []
    for name in BITS:
        value, mask = match.constraint(name)
        if name in FREE_BITS:
            wildcards |= ADDRESS_BITS - mask.bit_count() << FREE_BITS[name]
        elif not mask:
            wildcards |= WILDCARDS[name]
        fields.append(value.to_bytes(6) if name in ("dl_src", "dl_dst") else value)
    return LAYOUT.pack(wildcards, *fields)
