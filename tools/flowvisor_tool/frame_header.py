"""The header of an Ethernet frame, and the mark of a probe (OpenFlow 1.0.0, section 3.4; probes are this proxy's own)."""
import struct

from .fields import Header
from .openflow.ethernet import (
    ARP, FRAGMENT_OFFSET, ICMP, IPV4, LEAST_TYPE, LLDP, MORE_FRAGMENTS, SNAP, TCP, UDP, VLAN_TAG,
)
from .openflow.protocol import UNTAGGED

# What an IEEE 802.3 frame without SNAP has as its type.
NO_TYPE = 0x05FF
PROBE_MARK = b"FVSL"
PROBE_TRAILER = struct.Struct(">4sB3x")


def header_of(in_port, frame):
    """The header of a frame that comes in at a port; a field whose bytes aren't all there is 0."""
    dl_dst, dl_src = (int.from_bytes(frame[at : at + 6]) if len(frame) >= at + 6 else 0 for at in (0, 6))
    dl_vlan, pcp, dl_type, payload = tag_and_type(frame)
    network = network_fields(dl_type, payload)
    return Header(in_port, dl_src, dl_dst, dl_vlan, pcp, dl_type, **network)


def tag_and_type(frame):
    """The VLAN, its priority, the Ethernet type, and what follows it."""
    dl_vlan, pcp, at = UNTAGGED, 0, 12
    if number_at(frame, 12) == VLAN_TAG:
        tag = number_at(frame, 14)
        if number_at(frame, 16) is None:
            return UNTAGGED, 0, 0, b""
        dl_vlan, pcp, at = tag & 0x0FFF, tag >> 13, 16
    dl_type = number_at(frame, at)
    if dl_type is None:
        return dl_vlan, pcp, 0, b""
    if dl_type >= LEAST_TYPE:
        return dl_vlan, pcp, dl_type, frame[at + 2 :]
    if frame[at + 2 : at + 8] == SNAP and number_at(frame, at + 8) is not None:
        return dl_vlan, pcp, number_at(frame, at + 8), frame[at + 10 :]
    return dl_vlan, pcp, NO_TYPE, b""


def number_at(data, at):
    """The two bytes at a place as a number, or None where they aren't all there."""
    return int.from_bytes(data[at : at + 2]) if len(data) >= at + 2 else None


def network_fields(dl_type, payload):
    """The fields of IPv4 or ARP."""
    if dl_type == IPV4 and len(payload) >= 20 and (payload[0] & 0x0F) >= 5:
        nw_src, nw_dst = struct.unpack_from(">II", payload, 12)
        fields = {"nw_tos": payload[1] & 0xFC, "nw_proto": payload[9], "nw_src": nw_src, "nw_dst": nw_dst}
        return fields | transport_fields(payload)
    if dl_type == ARP and len(payload) >= 28:
        nw_src, nw_dst = struct.unpack_from(">I6xI", payload, 14)
        return {"nw_proto": payload[7], "nw_src": nw_src, "nw_dst": nw_dst}
    return {}


def transport_fields(packet):
    """The ports of TCP and UDP, or the type and code of ICMP; a fragment has none."""
    protocol = packet[9]
    if number_at(packet, 6) & (MORE_FRAGMENTS | FRAGMENT_OFFSET):
        return {}
    segment = packet[4 * (packet[0] & 0x0F) :]
    form = {TCP: ">HH", UDP: ">HH", ICMP: ">BB"}.get(protocol)
    if form is None or len(segment) < struct.calcsize(form):
        return {}
    return dict(zip(("tp_src", "tp_dst"), struct.unpack_from(form, segment)))


def probe_slot(frame):
    """The slot in the mark of a probe, or None where the frame isn't one."""
    if header_of(0, frame).dl_type != LLDP or len(frame) < PROBE_TRAILER.size:
        return None
    trailer = frame[-PROBE_TRAILER.size :]
    mark, slot = PROBE_TRAILER.unpack(trailer)
    return slot if trailer == PROBE_TRAILER.pack(mark, slot) and mark == PROBE_MARK else None
