"""Frames that have a header which is given by its fields."""
import struct

from .faults import Fault
from .frame_header import header_of
from .openflow.ethernet import ARP, ICMP, IPV4, LEAST_TYPE, VLAN_TAG
from .openflow.protocol import UNTAGGED

IPV4_HEADER = struct.Struct(">BBHHHBBHII")
PORTS, ICMP_TYPE = struct.Struct(">HH"), struct.Struct(">BB2x")
ARP_BODY = struct.Struct(">HHBBH6sI6sI")
VERSION_AND_WORDS, TIME_TO_LIVE = 0x45, 64
ETHERNET = 1


def frame_of(header):
    """The bytes of an Ethernet frame with a header. Checksums are 0, and what no field says is."""
    addresses = header.dl_dst.to_bytes(6) + header.dl_src.to_bytes(6)
    tag = b"" if header.dl_vlan == UNTAGGED else struct.pack(">HH", VLAN_TAG, header.dl_vlan_pcp << 13 | header.dl_vlan)
    frame = addresses + tag + type_and_payload(header)
    if header_of(header.in_port, frame) != header:
        where = " behind a tag" if tag else ""
        raise Fault(f"no frame has dl_type 0x{header.dl_type:04x}{where}: a type is 0x{LEAST_TYPE:04x} or more")
    return frame


def type_and_payload(header):
    """The type, and the packet behind it. A frame whose type would be 0 ends before it."""
    if header.dl_type == 0:
        return b""
    kind = header.dl_type.to_bytes(2)
    if header.dl_type == IPV4:
        return kind + ipv4_packet(header)
    return kind + (arp_packet(header) if header.dl_type == ARP else b"")


def ipv4_packet(header):
    """An IPv4 packet, with the front of a TCP or UDP header, or the type and the code of ICMP."""
    layout = ICMP_TYPE if header.nw_proto == ICMP else PORTS
    try:
        transport = layout.pack(header.tp_src, header.tp_dst)
    except struct.error:
        raise Fault("the type and the code of ICMP are at most 255") from None
    size = IPV4_HEADER.size + len(transport)
    numbers = VERSION_AND_WORDS, header.nw_tos, size, 0, 0, TIME_TO_LIVE, header.nw_proto, 0, header.nw_src, header.nw_dst
    return IPV4_HEADER.pack(*numbers) + transport


def arp_packet(header):
    """A packet of ARP for IPv4 over Ethernet, whose operation is the protocol."""
    senders, targets = header.dl_src.to_bytes(6), bytes(6)
    return ARP_BODY.pack(ETHERNET, IPV4, 6, 4, header.nw_proto, senders, header.nw_src, targets, header.nw_dst)
