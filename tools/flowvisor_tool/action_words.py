"""Actions, read as `ovs-ofctl` writes them (OpenFlow 1.0.0, section 5.2.4)."""
import re

from plain_desk.actions import Action

from .faults import Fault
from .fields import number_of, value_of
from .openflow.protocol import ActionType, Port

LARGEST_NUMBER = 0xFFFF
LARGEST_QUEUE = 0xFFFFFFFF
WHOLE_PACKET = 0xFFFF
# Each word stands between commas; those within brackets are of the word before the bracket.
WORD = re.compile(r"(?:[^,\s(]|\([^)]*\))+")
CONTROLLER = re.compile(r"controller(?::(?P<length>\w+)|\((?:max_len=(?P<named>\w+))?\))?", re.IGNORECASE)
ENQUEUE = re.compile(r"enqueue(?::(?P<port>\w+):(?P<queue>\w+)|\((?P<port_>\w+),\s*(?P<queue_>\w+)\))")
# What sets a field, with the greatest number that the action has room for, or the field whose values it takes.
SETTERS = {
    "mod_vlan_vid": (ActionType.SET_VLAN_VID, LARGEST_NUMBER), "mod_vlan_pcp": (ActionType.SET_VLAN_PCP, 0xFF),
    "mod_dl_src": (ActionType.SET_DL_SRC, "dl_src"), "mod_dl_dst": (ActionType.SET_DL_DST, "dl_dst"),
    "mod_nw_src": (ActionType.SET_NW_SRC, "nw_src"), "mod_nw_dst": (ActionType.SET_NW_DST, "nw_dst"),
    "mod_nw_tos": (ActionType.SET_NW_TOS, 0xFF),
    "mod_tp_src": (ActionType.SET_TP_SRC, LARGEST_NUMBER), "mod_tp_dst": (ActionType.SET_TP_DST, LARGEST_NUMBER),
}
FORMS = "output:PORT, PORT, flood, all, in_port, controller, local, enqueue:PORT:QUEUE, strip_vlan, drop, " + ", ".join(SETTERS)


def read_actions(text):
    """The actions that a text says; `drop` stands for none, and alone."""
    words = WORD.findall(text)
    if words == ["drop"]:
        return ()
    if not words:
        raise Fault("there are no actions: drop says so")
    return tuple(map(action_of, words))


def action_of(word):
    """The action that a word says."""
    name, _colon, value = word.partition(":")
    if word == "strip_vlan":
        return Action(ActionType.STRIP_VLAN)
    if name in SETTERS:
        return setter_of(word, *SETTERS[name], value)
    if found := CONTROLLER.fullmatch(word):
        length = number_in(word, found["length"] or found["named"] or str(WHOLE_PACKET), LARGEST_NUMBER)
        return Action(ActionType.OUTPUT, Port.CONTROLLER, length)
    if found := ENQUEUE.fullmatch(word):
        port = port_in(word, found["port"] or found["port_"])
        return Action(ActionType.ENQUEUE, port, number_in(word, found["queue"] or found["queue_"], LARGEST_QUEUE))
    port = value_of("in_port", value if name == "output" else word)
    if port is None:
        raise Fault(f"{word} is no action of OpenFlow 1.0: {FORMS}")
    return Action(ActionType.OUTPUT, port, WHOLE_PACKET if port == Port.CONTROLLER else 0)


def setter_of(word, kind, limit, text):
    """The action that sets a field."""
    value = value_of(limit, text) if isinstance(limit, str) else number_of(text, limit)
    if value is None:
        raise Fault(f"{word}: {text or 'nothing'} is no value of it")
    return Action(kind, value)


def number_in(word, text, greatest):
    """The number that stands in a word."""
    number = number_of(text, greatest)
    if number is None:
        raise Fault(f"{word}: {text} is no number up to {greatest}")
    return number


def port_in(word, text):
    """The port that stands in a word."""
    port = value_of("in_port", text)
    if port is None:
        raise Fault(f"{word}: {text} is no port")
    return port
