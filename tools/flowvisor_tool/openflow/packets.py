"""A packet in one line: its addresses, its type, and its ports."""
import ipaddress
import struct

from .ethernet import ARP, FRAGMENT_OFFSET, ICMP, IPV4, IPV6, LEAST_TYPE, LLDP, RARP, SNAP, TCP, UDP, VLAN_TAG
from .text import mac_of

NAMES = {IPV4: "ip", ARP: "arp", RARP: "rarp", IPV6: "ipv6", LLDP: "lldp"}
PROTOCOLS = {ICMP: "icmp", TCP: "tcp", UDP: "udp"}
ARP_OPERATIONS = {1: "request", 2: "reply"}

ETHERNET = struct.Struct(">6s6sH")
TAG = struct.Struct(">HH")
PORTS = struct.Struct(">HH")
ICMP_TYPE = struct.Struct(">BB")
TYPE = struct.Struct(">H")
IPV4_HEADER = struct.Struct(">B5xHxB2x4s4s")
ARP_BODY = struct.Struct(">6xH6x4s6x4s")
IPV6_ADDRESSES = struct.Struct(">8x16s16s")


class CutOff(ValueError):
    """The packet ends before what it says stands there."""


def take(layout, data, at=0):
    """The fields of a layout at a place, where all of it is there."""
    if len(data) < at + layout.size:
        raise CutOff
    return layout.unpack_from(data, at)


def summary(data):
    """The packet in one line, as far as its bytes are there."""
    parts = []
    try:
        for part in ethernet_parts(data):
            parts.append(part)
    except CutOff:
        parts.append("cut off")
    return ", ".join(parts)


def ethernet_parts(data):
    """The addresses, the tags, the type and what it carries."""
    destination, source, kind = take(ETHERNET, data)
    yield f"{mac_of(source)} > {mac_of(destination)}"
    at = ETHERNET.size
    while kind == VLAN_TAG:
        tag, kind = take(TAG, data, at)
        yield f"vlan {tag & 0xFFF} pcp {tag >> 13}"
        at += TAG.size
    if kind < LEAST_TYPE:
        if not data.startswith(SNAP, at):
            yield "without a type"
            return
        (kind,) = take(TYPE, data, at + len(SNAP))
        at += len(SNAP) + TYPE.size
    yield from payload_parts(kind, data[at:])


def payload_parts(kind, payload):
    """The type, and what a packet of it says. Where it is IP, its protocol stands in the place of the type."""
    if kind == IPV4 and len(payload) >= IPV4_HEADER.size:
        yield from ipv4_parts(payload)
        return
    yield NAMES.get(kind, f"type 0x{kind:04x}")
    if kind == IPV4:
        raise CutOff
    if kind == ARP:
        operation, sender, target = take(ARP_BODY, payload)
        name = ARP_OPERATIONS.get(operation, f"operation {operation}")
        yield f"{name} {ipaddress.IPv4Address(sender)} > {ipaddress.IPv4Address(target)}"
    elif kind == IPV6:
        source, destination = take(IPV6_ADDRESSES, payload)
        yield f"{ipaddress.IPv6Address(source)} > {ipaddress.IPv6Address(destination)}"


def ipv4_parts(payload):
    """The protocol, and the addresses with the ports."""
    first, fragment, protocol, source, destination = take(IPV4_HEADER, payload)
    source, destination = ipaddress.IPv4Address(source), ipaddress.IPv4Address(destination)
    yield PROTOCOLS.get(protocol, f"ip protocol {protocol}")
    transport = payload[(first & 15) * 4 :]
    if fragment & FRAGMENT_OFFSET:
        yield f"{source} > {destination}, a later fragment"
    elif protocol in (TCP, UDP):
        source_port, destination_port = take(PORTS, transport)
        yield f"{source}:{source_port} > {destination}:{destination_port}"
    elif protocol == ICMP:
        kind, code = take(ICMP_TYPE, transport)
        yield f"{source} > {destination}, type {kind} code {code}"
    else:
        yield f"{source} > {destination}"
