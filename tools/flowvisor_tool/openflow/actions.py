"""Actions (section 5.2.4), as ovs-ofctl writes them."""
import struct

from .protocol import LARGEST_PHYSICAL_PORT, ActionType, Malformed, Port
from .text import ipv4_of, mac_of, port_of

HEAD = struct.Struct(">HH")


def output(port, max_length):
    """An output to the controller has a limit of its own; to other ports it has none."""
    if port == Port.CONTROLLER:
        return f"CONTROLLER:{max_length}"
    return f"output:{port}" if port <= LARGEST_PHYSICAL_PORT else port_of(port)


# For each type the layout of what is behind its head, and how it is written.
ACTIONS = {
    ActionType.OUTPUT: (struct.Struct(">HH"), output),
    ActionType.SET_VLAN_VID: (struct.Struct(">Hxx"), "mod_vlan_vid:{}".format),
    ActionType.SET_VLAN_PCP: (struct.Struct(">Bxxx"), "mod_vlan_pcp:{}".format),
    ActionType.STRIP_VLAN: (struct.Struct(">xxxx"), "strip_vlan".format),
    ActionType.SET_DL_SRC: (struct.Struct(">6s6x"), lambda address: f"mod_dl_src:{mac_of(address)}"),
    ActionType.SET_DL_DST: (struct.Struct(">6s6x"), lambda address: f"mod_dl_dst:{mac_of(address)}"),
    ActionType.SET_NW_SRC: (struct.Struct(">I"), lambda address: f"mod_nw_src:{ipv4_of(address)}"),
    ActionType.SET_NW_DST: (struct.Struct(">I"), lambda address: f"mod_nw_dst:{ipv4_of(address)}"),
    ActionType.SET_NW_TOS: (struct.Struct(">Bxxx"), "mod_nw_tos:{}".format),
    ActionType.SET_TP_SRC: (struct.Struct(">Hxx"), "mod_tp_src:{}".format),
    ActionType.SET_TP_DST: (struct.Struct(">Hxx"), "mod_tp_dst:{}".format),
    ActionType.ENQUEUE: (struct.Struct(">H6xI"), lambda port, queue: f"enqueue:{port_of(port)}:{queue}"),
}


def action_text(kind, body):
    """One action, of what is behind its type and length."""
    if kind == ActionType.VENDOR:
        return f"vendor:0x{body[:4].hex()}:{body[4:].hex()}"
    if kind not in ACTIONS:
        raise Malformed(f"an action of type {kind}")
    layout, write = ACTIONS[kind]
    if len(body) != layout.size:
        raise Malformed(f"{ActionType(kind).name} of length {HEAD.size + len(body)}, not {HEAD.size + layout.size}")
    return write(*layout.unpack(body))


def action_texts(data):
    """Each action of a list. Where one has no form, Malformed says so."""
    at = 0
    while at < len(data):
        if len(data) - at < HEAD.size:
            raise Malformed(f"an action without a head, with {len(data) - at} left")
        kind, length = HEAD.unpack_from(data, at)
        if length < 8 or length % 8 or length > len(data) - at:
            raise Malformed(f"an action of length {length}, with {len(data) - at} left")
        yield action_text(kind, data[at + HEAD.size : at + length])
        at += length


def actions_text(data):
    """A list of actions; one without any drops the packet."""
    return ",".join(action_texts(data)) or "drop"
