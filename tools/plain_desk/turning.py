"""Port numbers of a slice's own, exchanged in messages where they stand; all other bytes stay (this proxy's own rule)."""
from flowvisor_tool.openflow.protocol import HEADER, ActionType, Header, MessageType, StatsType

from .actions import LEAST_SIZE, read_actions
from .errors import Refused
from .messages import PORT_SIZE, Features, is_whole, number_at
from .statistics import HEAD as STATS_HEAD
from .statistics import StatsReply

FIRST_ENTRY = HEADER.size + STATS_HEAD.size
FREE_IN_PORT = 1  # in a match's wildcards


def turned(swaps, data, at):
    """Bytes with the port number at a place exchanged."""
    number = number_at(data, at)
    return data[:at] + swaps.get(number, number).to_bytes(2) + data[at + 2 :]


def turned_match(swaps, data, at):
    """The same of a match's port of entry, where the match doesn't leave it free (section 5.2.3)."""
    return data if number_at(data, at, 4) & FREE_IN_PORT else turned(swaps, data, at + 4)


def turned_actions(swaps, data, at, end):
    """The same of the ports of OUTPUT and ENQUEUE in a list of actions (section 5.2.4)."""
    while at < end:
        if number_at(data, at) in (ActionType.OUTPUT, ActionType.ENQUEUE):
            data = turned(swaps, data, at + 4)
        at += max(number_at(data, at + 2), LEAST_SIZE)
    return data


def turned_entry(swaps, kind, entry):
    """An entry of a reply of statistics (section 5.3.5)."""
    if kind != StatsType.FLOW:
        return turned(swaps, entry, 0)
    entry = turned_match(swaps, entry, 4)
    try:
        read_actions(entry[88:])
    except Refused:
        return entry
    return turned_actions(swaps, entry, 88, len(entry))


def turned_request(swaps, frame):
    """A request of statistics (section 5.3.5)."""
    match number_at(frame, 8):
        case StatsType.FLOW | StatsType.AGGREGATE:
            return turned(swaps, turned_match(swaps, frame, 12), 54)
        case StatsType.PORT | StatsType.QUEUE:
            return turned(swaps, frame, 12)
    return frame


def turn_in(swaps, frame):
    """A well-formed message of the slice, with physical numbers."""
    match Header.of(frame).type:
        case MessageType.FLOW_MOD:
            frame = turned(swaps, turned_match(swaps, frame, 8), 68)
            return turned_actions(swaps, frame, 72, len(frame))
        case MessageType.PACKET_OUT:
            return turned_actions(swaps, turned(swaps, frame, 12), 16, 16 + number_at(frame, 14))
        case MessageType.STATS_REQUEST:
            return turned_request(swaps, frame)
        case MessageType.QUEUE_GET_CONFIG_REQUEST:
            return turned(swaps, frame, 8)
    return frame


def turned_ports(swaps, frame):
    """The ports of a FEATURES_REPLY under their shown numbers, in ascending order of these (section 5.3.1)."""
    ports = Features.read(frame).ports
    shown = sorted((turned(swaps, port.raw, 0) for port in ports), key=lambda raw: number_at(raw, 0))
    return frame[: len(frame) - PORT_SIZE * len(ports)] + b"".join(shown)


def turned_reply(swaps, frame):
    """The entries of a reply of statistics, up to the first that isn't well formed (section 5.3.5)."""
    reply = StatsReply.read(frame)
    if reply.kind not in (StatsType.FLOW, StatsType.PORT, StatsType.QUEUE):
        return frame
    entries = list(reply.entries())
    shown = b"".join(turned_entry(swaps, reply.kind, entry) for entry in entries)
    return frame[:FIRST_ENTRY] + shown + frame[FIRST_ENTRY + len(shown) :]


def turn_out(swaps, frame):
    """A message for the slice, with the numbers that it is shown."""
    kind = Header.of(frame).type
    if kind not in TURNS_OUT or not is_whole(frame, kind):
        return frame
    return TURNS_OUT[kind](swaps, frame)


TURNS_OUT = {
    MessageType.PACKET_IN: lambda swaps, frame: turned(swaps, frame, 14),
    MessageType.FLOW_REMOVED: lambda swaps, frame: turned_match(swaps, frame, 8),
    MessageType.PORT_STATUS: lambda swaps, frame: turned(swaps, frame, 16),
    MessageType.FEATURES_REPLY: turned_ports,
    MessageType.QUEUE_GET_CONFIG_REPLY: lambda swaps, frame: turned(swaps, frame, 8),
    MessageType.STATS_REPLY: turned_reply,
}
