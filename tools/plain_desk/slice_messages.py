"""What a slice's message is answered: the first line that applies decides (this proxy's own rule)."""
import dataclasses

from flowvisor_tool.frame_header import PROBE_MARK, PROBE_TRAILER, header_of
from flowvisor_tool.openflow.ethernet import LLDP
from flowvisor_tool.openflow.protocol import NO_BUFFER, FlowModCommand, FlowModFlag, Header, MessageType, StatsType

from .answer import NOTHING, Answer, Draft, error_told, told
from .book import newcomers, overlaps
from .errors import (
    BAD_COMMAND, BAD_LENGTH, BAD_TYPE, BAD_VENDOR, BAD_VERSION, BUFFER_UNKNOWN, FLOW_NOT_PERMITTED, HELLO_FAILED,
    NOT_PERMITTED, OVERLAP, TABLES_FULL, TOO_MANY_ACTIONS, Refused,
)
from .items import Pair
from .messages import CONFIG, FlowMod, PacketOut, body_of, number_at
from .permitted import PacketOrigin, PieceOrigin, ProbeOrigin, permitted, refuse_long_list
from .pieces import piece_messages, pieces, refuse_large_messages
from .ports import ascending, flooded_ports
from .rate import conforms
from .statistics import StatsRequest, table_reply
from .turning import turn_in
from .view import MOST_COLLECTIONS, ROUND
from .wire import LARGEST_MESSAGE, error_message, has_bad_length, is_dismissing, message

# The types that a controller sends (OpenFlow 1.0.0, section 5.1), and the lengths of those without further forms.
KNOWN_TYPES = {*range(6), 7, 9, *range(13, 17), 18, 20}
LENGTHS = {
    MessageType.FEATURES_REQUEST: 8, MessageType.GET_CONFIG_REQUEST: 8, MessageType.SET_CONFIG: 12,
    MessageType.BARRIER_REQUEST: 8, MessageType.QUEUE_GET_CONFIG_REQUEST: 12,
}
MOST_BUFFERS_TOLD, TABLES_TOLD = 256, 1
LEAST_PROBE = 52


def message_answer(settings, view, item):
    """The answer to a message of a slice that is up."""
    frame, head = item.frame, Header.of(item.frame)
    if not has_bad_length(frame) and head.type == MessageType.HELLO:
        return told(error_message(head.xid, HELLO_FAILED, b"")) if is_dismissing(frame) else NOTHING
    try:
        refuse_head(frame)
        if head.type in (MessageType.ERROR, MessageType.ECHO_REPLY):
            return NOTHING
        request = read_request(frame)
        if head.type in LOCAL:
            return LOCAL[head.type](view, frame)
    except Refused as refusal:
        return error_told(item.sent, head.xid, refusal.error)
    return counted_answer(settings, view, item, request)


def refuse_head(frame):
    """The lines that look at the header alone."""
    head = Header.of(frame)
    if has_bad_length(frame):
        raise Refused(BAD_LENGTH)
    if head.version != 1:
        raise Refused(BAD_VERSION)
    if head.type not in KNOWN_TYPES:
        raise Refused(BAD_TYPE)
    if head.type == MessageType.VENDOR:
        raise Refused(BAD_VENDOR)
    if head.type == MessageType.PORT_MOD:
        raise Refused(NOT_PERMITTED)


def read_request(frame):
    """What a message says, or its bytes where these are all that is read of it; one that isn't well formed is refused."""
    kind = Header.of(frame).type
    if kind in LENGTHS and len(frame) != LENGTHS[kind]:
        raise Refused(BAD_LENGTH)
    return {
        MessageType.FLOW_MOD: FlowMod.read, MessageType.PACKET_OUT: PacketOut.read, MessageType.STATS_REQUEST: StatsRequest.read,
    }.get(kind, bytes)(frame)


def physical(swaps, frame):
    """A message of the slice with physical port numbers; one that isn't well formed stays."""
    try:
        refuse_head(frame)
        read_request(frame)
    except Refused:
        return frame
    return turn_in(swaps, frame) if swaps else frame


# Messages that the proxy answers by itself.


def echo_answer(view, frame):
    """The same body under the same transaction id (section 5.5.2)."""
    return told(message(MessageType.ECHO_REPLY, Header.of(frame).xid, body_of(frame)))


def features_answer(view, frame):
    """The switch, with fewer buffers, one table, and the ports of the slice (section 5.3.1)."""
    features = view.features()
    buffers = min(features.buffers, MOST_BUFFERS_TOLD)
    ports = ascending(view.known_ports())
    shown = dataclasses.replace(features, buffers=buffers, tables=TABLES_TOLD, ports=ports)
    return told(shown.spelled(Header.of(frame).xid))


def get_config_answer(view, frame):
    """No flags, and the length that the slice has set (section 5.3.2)."""
    return told(message(MessageType.GET_CONFIG_REPLY, Header.of(frame).xid, CONFIG.pack(0, view.miss_send_len())))


def set_config_answer(view, frame):
    """A length is taken; another handling of fragments isn't."""
    flags, _ = CONFIG.unpack(body_of(frame))
    if flags:
        raise Refused(NOT_PERMITTED)
    return Answer(is_config=True)


LOCAL = {
    MessageType.ECHO_REQUEST: echo_answer, MessageType.FEATURES_REQUEST: features_answer,
    MessageType.GET_CONFIG_REQUEST: get_config_answer, MessageType.SET_CONFIG: set_config_answer,
}


# Messages that the rate counts.


def counted_answer(settings, view, item, request):
    """The answer to a well-formed message that may be sent on; one that the rate lets pass has used its share."""
    frame, xid = item.frame, Header.of(item.frame).xid
    if not conforms(settings, view.accepted, view.moment(item)):
        return error_told(item.sent, xid, NOT_PERMITTED)
    try:
        answer = ANSWERS[Header.of(frame).type](settings, view, frame, request)
    except Refused as refusal:
        answer = error_told(item.sent, xid, refusal.error)
    return dataclasses.replace(answer, is_counted=True)


def next_xid(settings, view):
    """The transaction id of the slice's next request."""
    return (settings.slot << 24) + len(view.requests) % ROUND


def sent_lists(settings, view, origins, actions):
    """The lists of actions that are sent, one for each origin; a forbidden action comes before a list that is too long."""
    flood, every = flooded_ports(view.known_ports())
    lists = [permitted(settings, origin, actions, flood, every) for origin in origins]
    for one in lists:
        refuse_long_list(one)
    return lists


def held_buffer(view, number):
    """The ordinal of the packet that a message names by its buffer, or None where it names none."""
    if number == NO_BUFFER:
        return None
    ordinal = view.held(number)
    if ordinal is None:
        raise Refused(BUFFER_UNKNOWN)
    return ordinal


def flow_mod_answer(settings, view, frame, flow_mod):
    """A flow-mod goes out in pieces (section 5.3.3)."""
    if flow_mod.command not in list(FlowModCommand):
        raise Refused(BAD_COMMAND)
    if flow_mod.flags & FlowModFlag.EMERG:
        raise Refused(FLOW_NOT_PERMITTED)
    if flow_mod.is_delete():
        return delete_answer(settings, view, flow_mod)
    ordinal = held_buffer(view, flow_mod.buffer)
    if ordinal is not None and not flow_mod.match.has(view.packet(ordinal).header()):
        raise Refused(BUFFER_UNKNOWN)
    parts = pieces(settings, flow_mod.match)
    if not parts:
        raise Refused(FLOW_NOT_PERMITTED)
    lists = sent_lists(settings, view, map(PieceOrigin, parts), flow_mod.actions)
    messages = piece_messages(flow_mod, next_xid(settings, view), parts, lists)
    refuse_large_messages(messages)
    pairs = [Pair(part, flow_mod.priority) for part in parts]
    books = booked_pairs(settings, view, flow_mod, pairs)
    return Answer(
        to_switch=with_buffer(view, messages, ordinal), books=books,
        asks=bool(flow_mod.flags & FlowModFlag.SEND_FLOW_REM),
        uses=frozenset() if ordinal is None else frozenset([ordinal]),
    )


def delete_answer(settings, view, flow_mod):
    """A delete has no actions and no buffer; where the slice writes nothing of its match there is nothing to delete."""
    parts = pieces(settings, flow_mod.match)
    messages = piece_messages(flow_mod, next_xid(settings, view), parts, [()] * len(parts))
    refuse_large_messages(messages)
    return Answer(to_switch=tuple(map(Draft, messages)))


def booked_pairs(settings, view, flow_mod, pairs):
    """The pairs that a flow-mod books, where it overlaps none that it mustn't and the quota suffices (section 4.6)."""
    if flow_mod.command == FlowModCommand.ADD and flow_mod.flags & FlowModFlag.CHECK_OVERLAP:
        if overlaps(view, pairs):
            raise Refused(OVERLAP)
    new = newcomers(view, flow_mod.command, pairs)
    if len(view.booked()) + len(new) > settings.quota:
        raise Refused(TABLES_FULL)
    return tuple(pairs) if flow_mod.command == FlowModCommand.ADD else new


def with_buffer(view, messages, ordinal):
    """The messages for the switch, of which the first that has the buffered packet's header names its buffer."""
    if ordinal is None:
        return tuple(map(Draft, messages))
    header = view.packet(ordinal).header()
    place = next(place for place, one in enumerate(messages) if one.match.has(header))
    return tuple(Draft(one, ordinal if at == place else None) for at, one in enumerate(messages))


def packet_out_answer(settings, view, frame, packet_out):
    """A packet-out goes out as one message (section 5.3.6)."""
    ordinal = held_buffer(view, packet_out.buffer)
    if ordinal is not None:
        header = view.packet(ordinal).header()
        origin, in_port, data = PacketOrigin(header), header.in_port, b""
    else:
        origin, in_port, data = own_packet(settings, packet_out)
    (actions,) = sent_lists(settings, view, [origin], packet_out.actions)
    sent = PacketOut(next_xid(settings, view), NO_BUFFER, in_port, actions, data)
    if len(sent.body()) > LARGEST_MESSAGE - 8:
        raise Refused(TOO_MANY_ACTIONS)
    return Answer(to_switch=(Draft(sent, ordinal),), uses=frozenset() if ordinal is None else frozenset([ordinal]))


def own_packet(settings, packet_out):
    """Of a packet-out with a packet of its own: where it comes from, the port of entry, and the packet that is sent."""
    in_port, data = packet_out.in_port, packet_out.data
    if not settings.may_come_from(in_port):
        raise Refused(NOT_PERMITTED)
    header = header_of(in_port, data)
    if header.dl_type == LLDP:
        marked = data.ljust(LEAST_PROBE, b"\0") + PROBE_TRAILER.pack(PROBE_MARK, settings.slot)
        return ProbeOrigin(in_port), in_port, marked
    if not settings.writes_header_aside(header):
        raise Refused(NOT_PERMITTED)
    return PacketOrigin(header), in_port, data


def barrier_answer(settings, view, frame, request):
    """Sent on as it is (section 5.3.7)."""
    return sent_on(message(MessageType.BARRIER_REQUEST, next_xid(settings, view)))


def queues_answer(settings, view, frame, request):
    """Sent on as it is where the port is the slice's (section 5.3.4)."""
    body = body_of(frame)
    if not settings.has_port(number_at(body, 0)):
        raise Refused(NOT_PERMITTED)
    return sent_on(message(MessageType.QUEUE_GET_CONFIG_REQUEST, next_xid(settings, view), body))


def sent_on(sent):
    return Answer(to_switch=(Draft(sent),))


def statistics_answer(settings, view, frame, request):
    """The table is sent at once; all other statistics are asked for and collected (section 5.3.5)."""
    port = request.port()
    if port is not None and not settings.has_port(port):
        raise Refused(NOT_PERMITTED)
    if request.kind == StatsType.TABLE:
        return told(table_reply(Header.of(frame).xid, settings.quota, len(view.booked())))
    collecting = view.collecting()
    oldest = collecting[:1] if len(collecting) >= MOST_COLLECTIONS else []
    return dataclasses.replace(sent_on(request.spelled(next_xid(settings, view))), gives_up=frozenset(oldest))


ANSWERS = {
    MessageType.FLOW_MOD: flow_mod_answer, MessageType.PACKET_OUT: packet_out_answer,
    MessageType.BARRIER_REQUEST: barrier_answer, MessageType.QUEUE_GET_CONFIG_REQUEST: queues_answer,
    MessageType.STATS_REQUEST: statistics_answer,
}
