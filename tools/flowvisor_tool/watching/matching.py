"""Matches of flow-mods: what they ask of packets, and the one way in which the proxy spells them."""
import struct

from ..openflow.ethernet import ARP, ICMP, IPV4, TCP, UDP
from ..openflow.header_fields import WRITTEN
from ..openflow.matches import ADDRESS_BITS, SHIFTS, Match, Wildcard
from ..openflow.protocol import UNTAGGED

MATCH_SIZE = 40
WORD = struct.Struct(">I")
# Of the wildcards: a bit for each field, and where the numbers of free bits of addresses stand.
FIELD_BITS = 0x3000FF
NETWORK = ("nw_src", "nw_dst")
# Where each field stands in the 40 bytes, and how long it is.
PLACES = {
    "in_port": (4, 2), "dl_src": (6, 6), "dl_dst": (12, 6), "dl_vlan": (18, 2), "dl_vlan_pcp": (20, 1), "dl_type": (22, 2),
    "nw_tos": (24, 1), "nw_proto": (25, 1), "nw_src": (28, 4), "nw_dst": (32, 4), "tp_src": (36, 2), "tp_dst": (38, 2),
}
# The bits of a field that are looked at, where these aren't all.
CUT = {"dl_vlan_pcp": 0x07, "nw_tos": 0xFC}


def bound_fields(data):
    """The fields that a match of 40 bytes binds and that mean something there, each with its value and how many bits of it."""
    match = Match.of(data)
    bound = {}
    for name in WRITTEN:
        if match.is_bound(name):
            length = match.length(name) if name in NETWORK else None
            bound[name] = match.number(name) & CUT.get(name, -1), length
    return {name: value for name, value in bound.items() if means_something(name, bound)}


def means_something(name, bound):
    """Whether a match binds what a field needs beside it (own rule, after section 3.4)."""
    kind = bound.get("dl_type", (None, None))[0]
    match name:
        case "dl_vlan_pcp":
            return bound.get("dl_vlan", (UNTAGGED, None))[0] != UNTAGGED
        case "nw_tos":
            return kind == IPV4
        case "nw_proto" | "nw_src" | "nw_dst":
            return kind in (IPV4, ARP)
        case "tp_src" | "tp_dst":
            return kind == IPV4 and bound.get("nw_proto", (None, None))[0] in (ICMP, TCP, UDP)
    return True


def constraints_of(data):
    """What a match asks of packets, as a rule of a policy says it."""
    constraints = {}
    for name, (value, length) in bound_fields(data).items():
        bits = 8 * PLACES[name][1]
        mask = (1 << bits) - 1
        if length is not None:
            mask ^= (1 << ADDRESS_BITS - length) - 1
        constraints[name] = value & mask, mask
    return constraints


def spelled_anew(data):
    """A match of 40 bytes as the proxy spells it: what is free, or disregarded, is zero."""
    match = Match.of(data)
    bound = bound_fields(data)
    word = FIELD_BITS | ADDRESS_BITS << SHIFTS["nw_src"] | ADDRESS_BITS << SHIFTS["nw_dst"]
    spelled = bytearray(MATCH_SIZE)
    for name, (value, length) in bound.items():
        if length is None:
            word &= ~Wildcard[name.upper()].value
        else:
            word &= ~(0x3F << SHIFTS[name])
            word |= ADDRESS_BITS - length << SHIFTS[name]
            value &= ~((1 << ADDRESS_BITS - length) - 1)
        at, size = PLACES[name]
        spelled[at : at + size] = value.to_bytes(size, "big")
    if not match.wildcards & FIELD_BITS and all(match.length(name) == ADDRESS_BITS for name in NETWORK):
        # An exact match stays one: a field that means nothing there is zero in it.
        word = 0
    WORD.pack_into(spelled, 0, word)
    return bytes(spelled)
