"""Packets: the TCP segment in one."""
import struct
from dataclasses import dataclass

from .captures import Problem
from .openflow.ethernet import FRAGMENT_OFFSET, IPV4, IPV6, MORE_FRAGMENTS, TCP, VLAN_TAG

VLAN_TAGS = (VLAN_TAG, 0x88A8, 0x9100)
IP_TYPES = (IPV4, IPV6)
# AF_INET, and AF_INET6 on Linux, NetBSD and OpenBSD, FreeBSD, and macOS.
IP_FAMILIES = (2, 10, 24, 28, 30)
HOP_BY_HOP, ROUTING, FRAGMENT, AUTHENTICATION, DESTINATION = 0, 43, 44, 51, 60
FIN, SYN, RST, PUSH, ACK = 1, 2, 4, 8, 16


@dataclass(slots=True)
class Datagram:
    """Where in a packet a TCP segment stands, and between which ports, each with its address, it goes.

    A later fragment has no ports: they are None.
    """

    source: tuple
    destination: tuple
    start: int
    end: int
    fragmented: bool


@dataclass(slots=True)
class Segment:
    """A TCP segment. Its payload had `size` bytes on the wire; `payload` is what the capture has of it."""

    number: int
    source: tuple
    destination: tuple
    sequence: int
    acknowledgement: int
    flags: int
    payload: bytes
    size: int


def has(packet, end):
    """Whether a packet has its bytes up to this place. It is named where they were cut off."""
    if end <= len(packet.data):
        return True
    if len(packet.data) < packet.full:
        raise Problem(packet.number, "the capture has cut it off before it is clear whose it is")
    return False


def number_at(packet, at):
    """The number in the two bytes at a place."""
    return int.from_bytes(packet.data[at : at + 2], "big")


def behind_type(packet, type_at, start):
    """Where the IP packet behind a type begins, or behind the tags that stand there. None without one."""
    if not has(packet, type_at + 2):
        return None
    kind = number_at(packet, type_at)
    while kind in VLAN_TAGS:
        if not has(packet, start + 4):
            return None
        kind = number_at(packet, start + 2)
        start += 4
    return start if kind in IP_TYPES else None


def behind_family(packet):
    """Where the IP packet behind an address family begins, in whichever byte order. None without one."""
    if not has(packet, 4):
        return None
    family = min(int.from_bytes(packet.data[:4], order) for order in ("little", "big"))
    return 4 if family in IP_FAMILIES else None


# For each kind of link, where the IP packet begins.
LINKS = {
    0: behind_family,
    1: lambda packet: behind_type(packet, 12, 14),
    101: lambda packet: 0,
    108: behind_family,
    113: lambda packet: behind_type(packet, 14, 16),
    228: lambda packet: 0,
    229: lambda packet: 0,
    276: lambda packet: behind_type(packet, 0, 20),
}


def datagram_of(packet):
    """Where the TCP segment of a packet stands, or a later fragment of one. None where it has none."""
    if packet.link not in LINKS:
        raise Problem(packet.number, f"links of kind {packet.link} can't be read")
    start = LINKS[packet.link](packet)
    if start is None or not has(packet, start + 1):
        return None
    version = packet.data[start] >> 4
    if version == 4:
        return ipv4_datagram(packet, start)
    return ipv6_datagram(packet, start) if version == 6 else None


def ipv4_datagram(packet, start):
    """The TCP segment of an IPv4 packet."""
    if not has(packet, start + 20):
        return None
    header = (packet.data[start] & 15) * 4
    fragment = number_at(packet, start + 6)
    if packet.data[start + 9] != TCP or header < 20:
        return None
    # A length of 0 is one of 65,536 and more, which a host shows that has its network card cut packets.
    end = start + number_at(packet, start + 2) if number_at(packet, start + 2) else packet.full
    addresses = packet.data[start + 12 : start + 16], packet.data[start + 16 : start + 20]
    if fragment & FRAGMENT_OFFSET:
        return later_fragment(addresses)
    return between_ports(packet, addresses, start + header, end, bool(fragment & MORE_FRAGMENTS))


def ipv6_datagram(packet, start):
    """The TCP segment of an IPv6 packet, behind the headers that may stand before it."""
    if not has(packet, start + 40):
        return None
    size = number_at(packet, start + 4)
    end = start + 40 + size if size else packet.full
    addresses = packet.data[start + 8 : start + 24], packet.data[start + 24 : start + 40]
    kind, at, fragmented = packet.data[start + 6], start + 40, False
    while kind in (HOP_BY_HOP, ROUTING, DESTINATION, FRAGMENT, AUTHENTICATION):
        if not has(packet, at + 8):
            return None
        length = (packet.data[at + 1] + 1) * 8
        if kind == FRAGMENT:
            length = 8
            if number_at(packet, at + 2) & 0xFFF8:
                return later_fragment(addresses) if packet.data[at] == TCP else None
            fragmented = bool(number_at(packet, at + 2) & 1)
        elif kind == AUTHENTICATION:
            length = (packet.data[at + 1] + 2) * 4
        kind, at = packet.data[at], at + length
    return between_ports(packet, addresses, at, end, fragmented) if kind == TCP else None


def later_fragment(addresses):
    """A fragment behind the first one, which has the ports."""
    return Datagram((addresses[0], None), (addresses[1], None), 0, 0, True)


def between_ports(packet, addresses, start, end, fragmented):
    """The segment that stands there, with the ports that it begins with."""
    if end < start + 4 or not has(packet, start + 4):
        return None
    source = addresses[0], number_at(packet, start)
    destination = addresses[1], number_at(packet, start + 2)
    return Datagram(source, destination, start, end, fragmented)


def segment_of(packet, datagram):
    """Reads the segment of a connection that is recorded."""
    if datagram.fragmented:
        raise Problem(packet.number, "it is an IP fragment")
    start = datagram.start
    head = packet.data[start : min(start + 20, datagram.end)]
    if len(head) < 20:
        raise Problem(packet.number, "its TCP header is cut off")
    sequence, acknowledgement, offset, flags = struct.unpack(">4xIIBB6x", head)
    body = start + (offset >> 4) * 4
    if body < start + 20 or body > datagram.end:
        raise Problem(packet.number, "its TCP header has a wrong length")
    if datagram.end > max(packet.full, len(packet.data)):
        raise Problem(packet.number, "its IP header tells of more bytes than the packet has")
    payload = packet.data[body : datagram.end]
    ends = datagram.source, datagram.destination
    return Segment(packet.number, *ends, sequence, acknowledgement, flags, payload, datagram.end - body)
