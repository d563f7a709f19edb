"""Which items an event makes for a slice: the filter that a view is of a history."""
import functools

from flowvisor_tool.frame_header import header_of, probe_slot
from flowvisor_tool.openflow.protocol import NO_BUFFER, VERSION, Header, MessageType, StatsType

from .events import SliceDown, SliceMessage, SliceUp, SwitchMessage, is_end
from .history import buffer_in, status_in
from .items import (
    Barrier, Down, End, Entry, Fault, Last, Lost, Message, Opened, Packet, Pair, Queues, Removed, Share, Status, Up,
)
from .matches import SIZE, normal_match
from .messages import FlowRemoved, PacketIn, body_of, is_whole, number_at
from .policy import first_rule
from .ports import ascending, is_kept
from .slice_messages import physical
from .statistics import StatsReply, flow_match
from .wire import LARGEST_CAUSE

# Where in a flow-mod its match and its priority stand.
MATCH_AT, PRIORITY_AT = 8, 62


def opened_item(history, slot):
    """What the opening shows a slice: the switch, and the ports that are the slice's."""
    settings = history.settings[slot]
    ports = (port for port in ascending(history.known_ports()) if settings.has_port(port.number))
    return Opened(history.features, tuple(ports))


def items_of(history, view, event):
    """What an event after a history, which is opened, shows the slice of a view, in order."""
    slot = view.slot
    match event:
        case SliceUp(other) if other == slot:
            return [Up()]
        case SliceDown(other) if other == slot:
            return [Down()]
        case SliceMessage(other, frame, moment) if other == slot and history.is_up(slot):
            return [Message(physical(history.settings[slot].swaps, frame), moment, frame)]
        case SwitchMessage(frame) if not is_end(event):
            return switch_items(history, view, event, frame)
    return [End()] if is_end(event) else []


def switch_items(history, view, event, frame):
    """What a message of the switch shows a slice; only well-formed ones of version 1 show anything."""
    head, slot = Header.of(frame), view.slot
    if head.version != VERSION or head.type not in READERS or not is_whole(frame, head.type):
        return []
    is_own = head.xid >> 24 == slot
    if head.type in ANSWERS and not is_own:
        return []
    return list(READERS[head.type](history, view, event))


def low_of(event):
    """The low 24 bits of the transaction id, which number the requests of a slice."""
    return Header.of(event.frame).xid & 0xFFFFFF


def packet_items(history, view, event):
    """Of a PACKET_IN: the buffer that is lost by it, and the packet (OpenFlow 1.0.0, section 5.4.1)."""
    number = buffer_in(event)
    if number is not None:
        place = history.last_with_buffer(number)
        if place in view.ordinals:
            yield Lost(view.ordinals[place])
    share = share_of(history, view.slot, event)
    if share is not None and history.is_up(view.slot):
        packet = PacketIn.read(event.frame)
        is_buffered = share is Share.WRITER and packet.buffer != NO_BUFFER
        yield Packet(share, is_buffered, packet.in_port, packet.total_len, packet.reason, packet.data)


def share_of(history, slot, event):
    """Why a slice would see a packet, or None: a probe goes by its mark, any other by the first rule that has it."""
    packet = PacketIn.read(event.frame)
    marked = probe_slot(packet.data)
    if marked is not None and marked < len(history.policy.slices):
        return Share.PROBE if marked == slot else None
    rule = rule_of(history.rules, packet.in_port, packet.data)
    if rule is None:
        return None
    if rule.writer == slot:
        return Share.WRITER
    return Share.READER if slot in rule.readers else None


@functools.lru_cache(64)
def rule_of(rules, in_port, data):
    """The first rule for a packet; all slices of a switch ask for the same one."""
    return first_rule(rules, header_of(in_port, data))


def removed_items(history, view, event):
    """Of a FLOW_REMOVED, where its match lies in one rule of the slice (section 5.4.2)."""
    removed = FlowRemoved.read(event.frame)
    if history.settings[view.slot].owns(removed.match):
        yield Removed(removed)


def status_items(history, view, event):
    """Of a PORT_STATUS that is kept, of a port of the slice (section 5.4.3)."""
    status = status_in(event)
    if is_kept(history.known_ports(), status) and history.settings[view.slot].has_port(status.port.number):
        yield Status(status)


def fault_items(history, view, event):
    """Of an ERROR for a request of the slice (section 5.4.4)."""
    body = body_of(event.frame)
    error = number_at(body, 0), number_at(body, 2)
    yield Fault(low_of(event), error, failed_pair(body[4:], Header.of(event.frame).xid))


def failed_pair(cause, xid):
    """The entry of a flow-mod under this transaction id, of which enough is there; or None. Its length isn't looked at."""
    if len(cause) < LARGEST_CAUSE:
        return None
    head = Header.of(cause)
    if (head.version, head.type, head.xid) != (VERSION, MessageType.FLOW_MOD, xid):
        return None
    return Pair(normal_match(cause[MATCH_AT : MATCH_AT + SIZE]), number_at(cause, PRIORITY_AT))


def barrier_items(history, view, event):
    """Of a BARRIER_REPLY (section 5.3.7)."""
    yield Barrier(low_of(event))


def queues_items(history, view, event):
    """Of a QUEUE_GET_CONFIG_REPLY, for a port of the slice (section 5.3.4)."""
    body = body_of(event.frame)
    port = number_at(body, 0)
    if history.settings[view.slot].has_port(port):
        yield Queues(low_of(event), port, body)


def statistics_items(history, view, event):
    """Of a STATS_REPLY: the entries of the slice, and that there are no more (section 5.3.5)."""
    reply = StatsReply.read(event.frame)
    if not reply.is_of_entries():
        return
    low, settings = low_of(event), history.settings[view.slot]
    for entry in reply.entries():
        if is_own_entry(settings, reply.kind, entry):
            yield Entry(low, reply.kind, entry)
    if not reply.has_more:
        yield Last(low, reply.kind)


def is_own_entry(settings, kind, entry):
    """Whether an entry is the slice's: a flow whose match lies in one rule, a port or queue of its ports, a description."""
    match kind:
        case StatsType.DESC:
            return True
        case StatsType.FLOW:
            return settings.owns(flow_match(entry))
    return settings.has_port(number_at(entry, 0))


READERS = {
    MessageType.PACKET_IN: packet_items, MessageType.FLOW_REMOVED: removed_items, MessageType.PORT_STATUS: status_items,
    MessageType.ERROR: fault_items, MessageType.BARRIER_REPLY: barrier_items,
    MessageType.QUEUE_GET_CONFIG_REPLY: queues_items, MessageType.STATS_REPLY: statistics_items,
}
# Those that go to the slice whose request they answer, which the top byte of the transaction id tells.
ANSWERS = (
    MessageType.ERROR, MessageType.BARRIER_REPLY, MessageType.QUEUE_GET_CONFIG_REPLY, MessageType.STATS_REPLY,
)
