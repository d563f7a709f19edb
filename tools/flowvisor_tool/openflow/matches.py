"""Matches (section 5.2.3), as ovs-ofctl writes them."""
import enum
import struct
from typing import NamedTuple

from .header_fields import WRITTEN, fields_text, value_text


class Wildcard(enum.IntFlag):
    """The fields that a match leaves free, but the addresses: these have the number of their free bits."""

    IN_PORT = 1 << 0
    DL_VLAN = 1 << 1
    DL_SRC = 1 << 2
    DL_DST = 1 << 3
    DL_TYPE = 1 << 4
    NW_PROTO = 1 << 5
    TP_SRC = 1 << 6
    TP_DST = 1 << 7
    DL_VLAN_PCP = 1 << 20
    NW_TOS = 1 << 21


# Where the numbers of the free bits of addresses stand.
SHIFTS = {"nw_src": 8, "nw_dst": 14}
FREE_BITS, ADDRESS_BITS = 0x3F, 32


class Match(NamedTuple):
    """The twelve fields, and which of them are free."""

    LAYOUT = struct.Struct(">IH6s6sHBxHBBxxIIHH")

    wildcards: int
    in_port: int
    dl_src: bytes
    dl_dst: bytes
    dl_vlan: int
    dl_vlan_pcp: int
    dl_type: int
    nw_tos: int
    nw_proto: int
    nw_src: int
    nw_dst: int
    tp_src: int
    tp_dst: int

    @classmethod
    def of(cls, data):
        """The match of 40 bytes."""
        return cls(*cls.LAYOUT.unpack(data))

    def length(self, name):
        """How many bits of an address are bound."""
        return ADDRESS_BITS - min(ADDRESS_BITS, self.wildcards >> SHIFTS[name] & FREE_BITS)

    def is_bound(self, name):
        """Whether a field isn't free, or an address not wholly."""
        return self.length(name) > 0 if name in SHIFTS else not self.wildcards & Wildcard[name.upper()]

    def number(self, name):
        """The value of a field as a number."""
        value = getattr(self, name)
        return int.from_bytes(value) if isinstance(value, bytes) else value

    def value_text(self, name, value):
        """The value of a field, with the length of a network."""
        is_network = name in SHIFTS and self.length(name) < ADDRESS_BITS
        return f"{value_text(name, value)}/{self.length(name)}" if is_network else value_text(name, value)

    def __str__(self):
        bound = {name: self.number(name) for name in WRITTEN if self.is_bound(name)}
        return fields_text(bound, self.value_text) or "any"
