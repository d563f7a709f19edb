"""What actions make of a header, and of all headers of a match (OpenFlow 1.0.0, sections 3.3 and 5.2.4).

Where a header lacks the field that is set, nothing changes; this is this proxy's own rule.
"""
from flowvisor_tool.openflow.ethernet import IPV4, TCP, UDP
from flowvisor_tool.openflow.protocol import UNTAGGED, ActionType

VLAN_BITS, PCP_BITS, TOS_BITS = 0x0FFF, 7, 0xFC
# The fields that actions set, in packets of IPv4 and, for ports, of TCP or UDP.
NETWORK_FIELDS = {ActionType.SET_NW_SRC: "nw_src", ActionType.SET_NW_DST: "nw_dst", ActionType.SET_NW_TOS: "nw_tos"}
PORT_FIELDS = {ActionType.SET_TP_SRC: "tp_src", ActionType.SET_TP_DST: "tp_dst"}
HARDWARE_FIELDS = {ActionType.SET_DL_SRC: "dl_src", ActionType.SET_DL_DST: "dl_dst"}


def value_set(action):
    """The value that an action sets a field to."""
    return action.value & TOS_BITS if action.kind == ActionType.SET_NW_TOS else action.value


def rewritten_header(header, action):
    """A header after an action."""
    kind, value = action.kind, value_set(action)
    is_tagged, is_ipv4 = header.dl_vlan != UNTAGGED, header.dl_type == IPV4
    if kind in HARDWARE_FIELDS:
        return header._replace(**{HARDWARE_FIELDS[kind]: value})
    if kind == ActionType.SET_VLAN_VID:
        return header._replace(dl_vlan=value & VLAN_BITS, dl_vlan_pcp=header.dl_vlan_pcp if is_tagged else 0)
    if kind == ActionType.SET_VLAN_PCP:
        return header._replace(dl_vlan=header.dl_vlan if is_tagged else 0, dl_vlan_pcp=value & PCP_BITS)
    if kind == ActionType.STRIP_VLAN:
        return header._replace(dl_vlan=UNTAGGED, dl_vlan_pcp=0)
    if kind in NETWORK_FIELDS and is_ipv4:
        return header._replace(**{NETWORK_FIELDS[kind]: value})
    if kind in PORT_FIELDS and is_ipv4 and header.nw_proto in (TCP, UDP):
        return header._replace(**{PORT_FIELDS[kind]: value})
    return header


def rewritten_match(match, action):
    """A match that has all headers of another after an action."""
    kind, value = action.kind, value_set(action)
    is_ipv4 = match.equals("dl_type", IPV4)
    if kind in HARDWARE_FIELDS:
        return match.bound(HARDWARE_FIELDS[kind], value)
    if kind == ActionType.SET_VLAN_VID:
        tagged = match.bound("dl_vlan_pcp", 0) if match.equals("dl_vlan", UNTAGGED) else match
        return tagged.bound("dl_vlan", value & VLAN_BITS)
    if kind == ActionType.SET_VLAN_PCP:
        return with_priority(match, value & PCP_BITS)
    if kind == ActionType.STRIP_VLAN:
        untagged = match.bound("dl_vlan", UNTAGGED)
        return untagged.bound("dl_vlan_pcp", 0) if match.is_exact() else untagged.freed("dl_vlan_pcp")
    if kind in NETWORK_FIELDS and is_ipv4:
        return match.bound(NETWORK_FIELDS[kind], value)
    if kind in PORT_FIELDS and is_ipv4 and (match.equals("nw_proto", TCP) or match.equals("nw_proto", UDP)):
        return match.bound(PORT_FIELDS[kind], value)
    return match


def with_priority(match, value):
    """A match after SET_VLAN_PCP: nothing is known of the priority where packets with a tag and without are in it."""
    if match.is_free("dl_vlan"):
        return match
    tagged = match.bound("dl_vlan", 0) if match.equals("dl_vlan", UNTAGGED) else match
    return tagged.bound("dl_vlan_pcp", value)
