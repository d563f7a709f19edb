"""The twelve fields of a packet's header, read from words as `ovs-ofctl` writes them.

The names, the sizes and the order are those of a match (OpenFlow 1.0.0, sections 3.1 and 5.2.3).
"""
import ipaddress
import re
from collections.abc import Container
from typing import NamedTuple

from .faults import Fault
from .openflow.ethernet import ARP, ICMP, IPV4, TCP, UDP
from .openflow.header_fields import KEYWORDS, NAMES_BEHIND, fields_text, value_text
from .openflow.protocol import UNTAGGED, Port

LARGEST_VLAN = 4095
TAG_IS_THERE = 0x1000

BITS = {
    "in_port": 16,
    "dl_src": 48,
    "dl_dst": 48,
    "dl_vlan": 16,
    "dl_vlan_pcp": 8,
    "dl_type": 16,
    "nw_tos": 8,
    "nw_proto": 8,
    "nw_src": 32,
    "nw_dst": 32,
    "tp_src": 16,
    "tp_dst": 16,
}
HARDWARE_FIELDS = ("dl_src", "dl_dst")
NETWORK_FIELDS = ("nw_src", "nw_dst")

OTHER_NAMES = {other: name for names in NAMES_BEHIND.values() for name, other in names.items()}

HARDWARE = re.compile(r"[0-9A-Fa-f]{2}(?::[0-9A-Fa-f]{2}){5}")
NUMBER = re.compile(r"0[xX][0-9A-Fa-f]+|[0-9]+")
# The tag of packets without one, as newer versions of `ovs-ofctl` write it with its mask.
NO_TAG = "0x0000/0x1fff"


class Header(NamedTuple):
    """The header of a packet. Untagged is the VLAN 65535; a field that a packet doesn't have is 0."""

    in_port: int = 0
    dl_src: int = 0
    dl_dst: int = 0
    dl_vlan: int = UNTAGGED
    dl_vlan_pcp: int = 0
    dl_type: int = 0
    nw_tos: int = 0
    nw_proto: int = 0
    nw_src: int = 0
    nw_dst: int = 0
    tp_src: int = 0
    tp_dst: int = 0


EMPTY = Header._field_defaults


class Need(NamedTuple):
    """What a field needs beside it: another field, the values of it that will do, and these in words."""

    name: str
    values: Container[int]
    text: str


IPV4_ALONE = Need("dl_type", (IPV4,), "0x0800")
IPV4_OR_ARP = Need("dl_type", (IPV4, ARP), "0x0800 or 0x0806")
HAS_PORTS = Need("nw_proto", (ICMP, TCP, UDP), "1, 6 or 17")
NEEDS = {
    "dl_vlan_pcp": (Need("dl_vlan", range(LARGEST_VLAN + 1), "0 to 4095"),),
    "nw_tos": (IPV4_ALONE,),
    "nw_proto": (IPV4_OR_ARP,),
    "nw_src": (IPV4_OR_ARP,),
    "nw_dst": (IPV4_OR_ARP,),
    "tp_src": (IPV4_ALONE, HAS_PORTS),
    "tp_dst": (IPV4_ALONE, HAS_PORTS),
}


def packet_text(header):
    """A packet as `ovs-ofctl` writes it; fields that are as in an empty one are left out."""
    return set_text({name: one for name, one in whole(header._asdict()).items() if one[0] != EMPTY[name]}) or "in_port=0"


def set_text(constraints):
    """What some fields with their masks have, as `ovs-ofctl` writes it."""
    values = {name: value for name, (value, _mask) in constraints.items()}
    return fields_text(values, lambda name, value: constraint_text(name, value, constraints[name][1]))


def number_of(text, greatest):
    """The number that a text is, in decimal or hex, or None."""
    if not NUMBER.fullmatch(text):
        return None
    value = int(text, 16 if text[:2] in ("0x", "0X") else 10)
    return value if value <= greatest else None


def value_of(name, text):
    """The value of a field that a text says, or None."""
    if name in HARDWARE_FIELDS:
        return int(text.replace(":", ""), 16) if HARDWARE.fullmatch(text) else None
    if name in NETWORK_FIELDS:
        try:
            return int(ipaddress.IPv4Address(text))
        except ipaddress.AddressValueError:
            return None
    if name == "in_port" and text.upper() in Port.__members__:
        return Port[text.upper()].value
    value = number_of(text, (1 << BITS[name]) - 1)
    if value is None or not is_value(name, value):
        return None
    return value


def is_value(name, value):
    """Whether a packet can have this number."""
    match name:
        case "dl_vlan":
            return value <= LARGEST_VLAN or value == UNTAGGED
        case "dl_vlan_pcp":
            return value <= 7
        case "nw_tos":
            return value % 4 == 0
    return True


def network_of(text):
    """The address and the mask of a network, as 10.0.0.0/8 or 10.0.0.0/255.0.0.0, or None; bits behind the mask are 0."""
    try:
        network = ipaddress.IPv4Network(text, strict=False)
    except ValueError:
        return None
    return int(network.network_address), int(network.netmask)


def constraint_of(name, text):
    """The value of a field that a text says, and its mask; or None."""
    if name in NETWORK_FIELDS and "/" in text:
        return network_of(text)
    value = value_of(name, text)
    return None if value is None else (value, (1 << BITS[name]) - 1)


def whole(fields):
    """Fields, given by name with their numbers, with masks of all their bits."""
    return {name: (value, (1 << BITS[name]) - 1) for name, value in fields.items()}


def fields_of(word):
    """The fields that one word says, each with its value and its mask."""
    if word in KEYWORDS:
        return whole(KEYWORDS[word])
    name, equals, text = word.partition("=")
    name = OTHER_NAMES.get(name, name)
    if not equals or name not in (*BITS, "vlan_tci"):
        raise Fault(f"{word} is no field of a packet: {', '.join(BITS)}, {', '.join(KEYWORDS)}")
    fields = tag_of(text) if name == "vlan_tci" else {name: constraint_of(name, text)}
    if fields is None or None in fields.values():
        raise Fault(f"{word}: {text or 'nothing'} is no value of {name}")
    return fields


def tag_of(text):
    """The fields that a VLAN tag says, with the bit that newer versions of `ovs-ofctl` set where there is one, or None."""
    tag = 0 if text == NO_TAG else number_of(text, 0xFFFF)
    if tag == 0:
        return whole({"dl_vlan": UNTAGGED})
    if tag is None or not tag & TAG_IS_THERE:
        return None
    return whole({"dl_vlan": tag & LARGEST_VLAN, "dl_vlan_pcp": tag >> 13})


def words_of(text):
    """The words of a text, between which commas and blanks stand."""
    return [word for word in re.split(r"[,\s]+", text) if word]


def constraints_of(words):
    """The fields that words say, as `in_port=1`, `tcp`, `nw_dst=10.0.0.0/8`: each with its value and its mask."""
    given = {}
    for word in words:
        for name, constraint in fields_of(word).items():
            if given.setdefault(name, constraint) != constraint:
                raise Fault(f"{word}: {name} is {constraint_text(name, *given[name])} already")
    for name in given:
        for need in NEEDS.get(name, ()):
            if given.get(need.name, (None,))[0] not in need.values:
                raise Fault(f"{name} needs {need.name} {need.text} beside it")
    return given


def constraint_text(name, value, mask):
    """The value of a field, with the length of its mask where that is one of a network."""
    is_network = name in NETWORK_FIELDS and mask != (1 << BITS[name]) - 1
    return f"{value_text(name, value)}/{mask.bit_count()}" if is_network else value_text(name, value)
