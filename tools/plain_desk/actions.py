"""Lists of actions, read and spelled (OpenFlow 1.0.0, section 5.2.4)."""
import struct
from typing import NamedTuple

from flowvisor_tool.openflow.protocol import ActionType

from .errors import ACTION_LENGTH, ACTION_TYPE, ACTION_VENDOR, Refused

HEAD = struct.Struct(">HH")
LEAST_SIZE = 8
# What follows the head of each type.
BODIES = {
    ActionType.OUTPUT: struct.Struct(">HH"),
    ActionType.SET_VLAN_VID: struct.Struct(">H2x"),
    ActionType.SET_VLAN_PCP: struct.Struct(">B3x"),
    ActionType.STRIP_VLAN: struct.Struct(">4x"),
    ActionType.SET_DL_SRC: struct.Struct(">6s6x"),
    ActionType.SET_DL_DST: struct.Struct(">6s6x"),
    ActionType.SET_NW_SRC: struct.Struct(">I"),
    ActionType.SET_NW_DST: struct.Struct(">I"),
    ActionType.SET_NW_TOS: struct.Struct(">B3x"),
    ActionType.SET_TP_SRC: struct.Struct(">H2x"),
    ActionType.SET_TP_DST: struct.Struct(">H2x"),
    ActionType.ENQUEUE: struct.Struct(">H6xI"),
}


class Action(NamedTuple):
    """An action: the port or the value that it names, and the max_len of an OUTPUT or the queue of an ENQUEUE."""

    kind: ActionType
    value: int = 0
    more: int = 0

    def spelled(self):
        layout = BODIES[self.kind]
        head = HEAD.pack(self.kind, HEAD.size + layout.size)
        match self.kind:
            case ActionType.STRIP_VLAN:
                return head + layout.pack()
            case ActionType.OUTPUT | ActionType.ENQUEUE:
                return head + layout.pack(self.value, self.more)
            case ActionType.SET_DL_SRC | ActionType.SET_DL_DST:
                return head + layout.pack(self.value.to_bytes(6))
        return head + layout.pack(self.value)


def head_at(data):
    """The type and the length of the first of some actions; which fault comes first is this proxy's own rule."""
    if len(data) < LEAST_SIZE:
        raise Refused(ACTION_LENGTH)
    kind, length = HEAD.unpack_from(data)
    if length < LEAST_SIZE or length % LEAST_SIZE or length > len(data):
        raise Refused(ACTION_LENGTH)
    if kind == ActionType.VENDOR:
        raise Refused(ACTION_VENDOR)
    if kind not in BODIES:
        raise Refused(ACTION_TYPE)
    if length != HEAD.size + BODIES[kind].size:
        raise Refused(ACTION_LENGTH)
    return ActionType(kind), length


def read_actions(data):
    """The actions that bytes are."""
    actions, at = [], 0
    while at < len(data):
        kind, length = head_at(data[at:])
        values = BODIES[kind].unpack_from(data, at + HEAD.size)
        numbers = (int.from_bytes(value) if isinstance(value, bytes) else value for value in values)
        actions.append(Action(kind, *numbers))
        at += length
    return tuple(actions)


def spelled_actions(actions):
    return b"".join(action.spelled() for action in actions)
