"""Messages in one line each: the type, the transaction id, and the fields by name."""
import struct

from . import packets, statistics
from .actions import actions_text
from .matches import Match
from .protocol import (
    ERROR_CODES, HEADER, VERSION, ActionType, Capability, ErrorType, FlowModCommand, FlowModFlag, FlowRemovedReason,
    FragmentHandling, Header, Malformed, MessageType, PacketInReason, PortConfig, PortFeature, PortReason, PortState,
    QueueProperty, StatsFlag, StatsType,
)
from .text import (
    buffer_of, datapath_of, fields_of, flags_of, hexadecimal, mac_of, name_of, port_of, quoted, seconds_of,
    standard_name_of, xid_of,
)

# What stands behind the header, up to what has no fixed length.
ERROR = struct.Struct(">HH")
FEATURES = struct.Struct(">QIB3xII")
PHYSICAL_PORT = struct.Struct(">H6s16s6I")
CONFIG = struct.Struct(">HH")
PACKET_IN = struct.Struct(">IHHBx")
FLOW_REMOVED = struct.Struct(">40sQHBxIIHxxQQ")
PORT_STATUS = struct.Struct(">B7x48s")
PACKET_OUT = struct.Struct(">IHH")
FLOW_MOD = struct.Struct(">40sQHHHHIHH")
PORT_MOD = struct.Struct(">H6sIII4x")
STATS = struct.Struct(">HH")
VENDOR = struct.Struct(">I")
QUEUE_REQUEST = struct.Struct(">Hxx")
QUEUE_REPLY = struct.Struct(">H6x")
QUEUE = struct.Struct(">IHxx")
QUEUE_PROPERTY = struct.Struct(">HH4x")
SHOWN_BYTES = 64


def split(layout, body):
    """The fields of a layout that a body begins with, and what is behind them."""
    if len(body) < layout.size:
        raise Malformed(f"length {HEADER.size + len(body)}, less than {HEADER.size + layout.size}")
    return *layout.unpack_from(body), body[layout.size :]


def exactly(layout, body):
    """The fields of a layout that is all of a body."""
    if len(body) != layout.size:
        raise Malformed(f"length {HEADER.size + len(body)}, not {HEADER.size + layout.size}")
    return layout.unpack(body)


def bytes_text(data):
    """Bytes in hex, as far as a line has room for them."""
    more = f"..({len(data)} bytes)" if len(data) > SHOWN_BYTES else ""
    return data[:SHOWN_BYTES].hex() + more


def packet_text(data):
    return f"{len(data)} bytes: {packets.summary(data)}" if data else "none"


def entries_text(entries):
    """Each of some entries in brackets."""
    return " ".join(f"[{entry}]" for entry in entries)


def no_body(body):
    if body:
        raise Malformed(f"length {HEADER.size + len(body)}, not {HEADER.size}")
    return ""


def any_body(body):
    return fields_of(data=bytes_text(body)) if body else ""


def error(body):
    kind, code, data = split(ERROR, body)
    name = standard_name_of(ERROR_CODES[kind], code) if kind in ERROR_CODES else str(code)
    text = quoted(data) if kind == ErrorType.OFPET_HELLO_FAILED and data else refused_text(data)
    return fields_of(type=standard_name_of(ErrorType, kind), code=name, data=text)


def refused_text(data):
    """What an error says of the message that it refuses, with which its data begins."""
    if len(data) < HEADER.size:
        return data.hex() or "none"
    header = Header.of(data)
    return f"[{standard_name_of(MessageType, header.type)} xid={xid_of(header.xid)} length={header.length}]"


def vendor(body):
    number, data = split(VENDOR, body)
    return fields_of(vendor=hexadecimal(number), data=bytes_text(data))


def physical_port(data):
    number, address, name, config, state, current, advertised, supported, peer = PHYSICAL_PORT.unpack(data)
    return fields_of(
        port=port_of(number), hw_addr=mac_of(address), name=quoted(name), config=flags_of(PortConfig, config),
        state=state_text(state), curr=flags_of(PortFeature, current), advertised=flags_of(PortFeature, advertised),
        supported=flags_of(PortFeature, supported), peer=flags_of(PortFeature, peer),
    )


def state_text(state):
    """A port's state, in which the spanning tree's is a number of two bits."""
    tree = state & PortState.STP_BLOCK
    rest = flags_of((PortState.LINK_DOWN,), state & ~PortState.STP_BLOCK)
    if not tree:
        return rest
    name = PortState(tree).name.lower()
    return name if rest == "0" else f"{rest}+{name}"


def action_types_text(bits):
    """The actions that a switch has, one bit for each type."""
    names = [kind.name.lower() for kind in ActionType if kind < 32 and bits >> kind & 1]
    left = bits & ~sum(1 << kind for kind in ActionType if kind < 32)
    return "+".join(names + [hexadecimal(left)] * bool(left)) or "0"


def features_reply(body):
    datapath, buffers, tables, capabilities, actions, ports = split(FEATURES, body)
    if len(ports) % PHYSICAL_PORT.size:
        raise Malformed(f"ports of length {len(ports)}, no multiple of {PHYSICAL_PORT.size}")
    starts = range(0, len(ports), PHYSICAL_PORT.size)
    entries = (physical_port(ports[at : at + PHYSICAL_PORT.size]) for at in starts)
    fields = fields_of(
        datapath_id=datapath_of(datapath), n_buffers=buffers, n_tables=tables,
        capabilities=flags_of(Capability, capabilities), actions=action_types_text(actions),
    )
    return " ".join([fields, *(f"[{entry}]" for entry in entries)])


def config(body):
    flags, length = exactly(CONFIG, body)
    return fields_of(flags=name_of(FragmentHandling, flags), miss_send_len=length)


def packet_in(body):
    buffer, total, port, reason, data = split(PACKET_IN, body)
    return fields_of(
        buffer_id=buffer_of(buffer), total_len=total, in_port=port_of(port), reason=name_of(PacketInReason, reason),
        packet=packet_text(data),
    )


def flow_removed(body):
    (match, cookie, priority, reason, seconds, nanoseconds, idle, packet_count, octets) = exactly(FLOW_REMOVED, body)
    return fields_of(
        match=Match.of(match), cookie=hexadecimal(cookie), priority=priority, reason=name_of(FlowRemovedReason, reason),
        duration=seconds_of(seconds, nanoseconds), idle_timeout=idle, packets=packet_count, bytes=octets,
    )


def port_status(body):
    reason, port = exactly(PORT_STATUS, body)
    return f"{fields_of(reason=name_of(PortReason, reason))} [{physical_port(port)}]"


def packet_out(body):
    buffer, port, length, rest = split(PACKET_OUT, body)
    if length > len(rest):
        raise Malformed(f"actions of length {length}, with {len(rest)} left")
    return fields_of(
        buffer_id=buffer_of(buffer), in_port=port_of(port), actions=actions_text(rest[:length]),
        packet=packet_text(rest[length:]),
    )


def flow_mod(body):
    match, cookie, command, idle, hard, priority, buffer, out_port, flags, actions = split(FLOW_MOD, body)
    fields = fields_of(
        command=name_of(FlowModCommand, command), match=Match.of(match), priority=priority, cookie=hexadecimal(cookie),
        idle_timeout=idle, hard_timeout=hard, buffer_id=buffer_of(buffer), out_port=port_of(out_port),
        flags=flags_of(FlowModFlag, flags),
    )
    is_delete = command in (FlowModCommand.DELETE, FlowModCommand.DELETE_STRICT)
    return fields if is_delete and not actions else f"{fields} actions={actions_text(actions)}"


def port_mod(body):
    port, address, bits, mask, advertise = exactly(PORT_MOD, body)
    return fields_of(
        port=port_of(port), hw_addr=mac_of(address), config=flags_of(PortConfig, bits), mask=flags_of(PortConfig, mask),
        advertise=flags_of(PortFeature, advertise),
    )


def stats_request(body):
    kind, flags, rest = split(STATS, body)
    fields = fields_of(type=name_of(StatsType, kind), flags=hexadecimal(flags))
    if kind == StatsType.VENDOR:
        return f"{fields} {vendor(rest)}"
    if kind not in statistics.REQUESTS:
        raise Malformed(f"statistics of type {kind}")
    return f"{fields} {statistics.REQUESTS[kind](rest)}".rstrip()


def stats_reply(body):
    kind, flags, rest = split(STATS, body)
    fields = fields_of(type=name_of(StatsType, kind), flags=flags_of(StatsFlag, flags))
    if kind == StatsType.VENDOR:
        return f"{fields} {vendor(rest)}"
    if kind in statistics.REPLIES:
        return f"{fields} {statistics.REPLIES[kind](rest)}"
    if kind not in statistics.ENTRIES:
        raise Malformed(f"statistics of type {kind}")
    return f"{fields} {entries_text(statistics.ENTRIES[kind](rest))}".rstrip()


def queue_request(body):
    (port,) = exactly(QUEUE_REQUEST, body)
    return fields_of(port=port_of(port))


def queue_reply(body):
    port, queues = split(QUEUE_REPLY, body)
    return f"{fields_of(port=port_of(port))} {entries_text(queue_texts(queues))}".rstrip()


def queue_texts(data):
    """Each queue of a reply, with its properties."""
    for queue, rest in parts_of(data, QUEUE, "a queue"):
        properties = (property_text(*part) for part in parts_of(rest, QUEUE_PROPERTY, "a property"))
        yield " ".join([fields_of(queue=queue), *properties])


def property_text(kind, value):
    if kind == QueueProperty.MIN_RATE and len(value) == 8:
        return fields_of(min_rate=int.from_bytes(value[:2], "big"))
    return fields_of(property=name_of(QueueProperty, kind))


def parts_of(data, layout, name):
    """The parts of a list: of each its number, and what is behind its head, which has the number and the length."""
    at = 0
    while at < len(data):
        left = len(data) - at
        number, length = layout.unpack_from(data, at) if left >= layout.size else (None, 0)
        if not layout.size <= length <= left:
            raise Malformed(f"{name} that doesn't fit, with {left} left")
        yield number, data[at + layout.size : at + length]
        at += length


READERS = {
    MessageType.HELLO: any_body,
    MessageType.ERROR: error,
    MessageType.ECHO_REQUEST: any_body,
    MessageType.ECHO_REPLY: any_body,
    MessageType.VENDOR: vendor,
    MessageType.FEATURES_REQUEST: no_body,
    MessageType.FEATURES_REPLY: features_reply,
    MessageType.GET_CONFIG_REQUEST: no_body,
    MessageType.GET_CONFIG_REPLY: config,
    MessageType.SET_CONFIG: config,
    MessageType.PACKET_IN: packet_in,
    MessageType.FLOW_REMOVED: flow_removed,
    MessageType.PORT_STATUS: port_status,
    MessageType.PACKET_OUT: packet_out,
    MessageType.FLOW_MOD: flow_mod,
    MessageType.PORT_MOD: port_mod,
    MessageType.STATS_REQUEST: stats_request,
    MessageType.STATS_REPLY: stats_reply,
    MessageType.BARRIER_REQUEST: no_body,
    MessageType.BARRIER_REPLY: no_body,
    MessageType.QUEUE_GET_CONFIG_REQUEST: queue_request,
    MessageType.QUEUE_GET_CONFIG_REPLY: queue_reply,
}


def malformed_text(text, message):
    return f"malformed ({text}): {bytes_text(message)}"


def message_text(message):
    """A message in one line. One that isn't well formed is reported so, with its bytes."""
    if len(message) < HEADER.size:
        return malformed_text(f"length {len(message)}, less than {HEADER.size}", message)
    header = Header.of(message)
    name = standard_name_of(MessageType, header.type)
    start = f"{name} xid={xid_of(header.xid)}"
    if header.length != len(message):
        return f"{start} {malformed_text(f'its length says {header.length}, not {len(message)}', message)}"
    body = message[HEADER.size :]
    if header.version != VERSION:
        return f"{start} version={header.version} {any_body(body)}".rstrip()
    if header.type not in READERS:
        return f"type {start} {malformed_text('no such type', message)}"
    try:
        return f"{start} {READERS[header.type](body)}".rstrip()
    except Malformed as problem:
        return f"{start} {malformed_text(problem, message)}"
