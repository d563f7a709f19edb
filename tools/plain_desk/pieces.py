"""What a flow-mod becomes: a message for each part of its match that the slice writes (this proxy's own rule)."""
import dataclasses

from flowvisor_tool.openflow.protocol import NO_BUFFER, FlowModFlag

from .errors import TOO_MANY_ACTIONS, Refused
from .wire import LARGEST_MESSAGE

LARGEST_EXPANSION = 262_144


def pieces(settings, match):
    """The meets of a match with what the slice writes, in order, without those that are empty or stand before."""
    meets = (write.meet(match) for write in settings.writes)
    return tuple(dict.fromkeys(meet for meet in meets if meet is not None))


def piece_messages(flow_mod, xid, parts, lists):
    """The messages, one for each piece, each with its list of actions, and none with a buffer."""
    flags = 0 if flow_mod.is_delete() else FlowModFlag.SEND_FLOW_REM
    return tuple(
        dataclasses.replace(flow_mod, xid=xid, match=part, buffer=NO_BUFFER, flags=flags, actions=actions)
        for part, actions in zip(parts, lists, strict=True)
    )


def refuse_large_messages(messages):
    sizes = [len(one.spelled()) for one in messages]
    if sum(sizes) > LARGEST_EXPANSION or any(size > LARGEST_MESSAGE for size in sizes):
        raise Refused(TOO_MANY_ACTIONS)
