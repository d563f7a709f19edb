"""The bodies of statistics requests and replies (section 5.3.5)."""
import struct

from .actions import actions_text
from .matches import Match
from .protocol import Malformed, StatsType
from .text import fields_of, hexadecimal, port_of, quoted, seconds_of

FLOW_REQUEST = struct.Struct(">40sBxH")
PORT_REQUEST = struct.Struct(">H6x")
QUEUE_REQUEST = struct.Struct(">HxxI")

DESCRIPTION = struct.Struct(">256s256s256s32s256s")
FLOW = struct.Struct(">HBx40sIIHHH6xQQQ")
AGGREGATE = struct.Struct(">QQI4x")
TABLE = struct.Struct(">B3x32sIIIQQ")
PORT = struct.Struct(">H6x12Q")
QUEUE = struct.Struct(">HxxIQQQ")

ALL_TABLES, EMERGENCY_TABLE = 0xFF, 0xFE
ALL_QUEUES = 0xFFFFFFFF
PORT_COUNTERS = (
    "rx_packets", "tx_packets", "rx_bytes", "tx_bytes", "rx_dropped", "tx_dropped", "rx_errors", "tx_errors",
    "rx_frame_err", "rx_over_err", "rx_crc_err", "collisions",
)
UNKNOWN_COUNTER = (1 << 64) - 1


def table_of(number):
    return {ALL_TABLES: "all", EMERGENCY_TABLE: "emergency"}.get(number, str(number))


def queue_of(number):
    return "all" if number == ALL_QUEUES else str(number)


def counter_of(number):
    """A counter; a switch that doesn't count something says so by all bits set."""
    return "unknown" if number == UNKNOWN_COUNTER else str(number)


def whole(layout, data):
    """The fields of a body that is exactly one layout."""
    if len(data) != layout.size:
        raise Malformed(f"a body of length {len(data)}, not {layout.size}")
    return layout.unpack(data)


def flow_request(body):
    match, table, out_port = whole(FLOW_REQUEST, body)
    return fields_of(match=Match.of(match), table=table_of(table), out_port=port_of(out_port))


def port_request(body):
    (port,) = whole(PORT_REQUEST, body)
    return fields_of(port=port_of(port))


def queue_request(body):
    port, queue = whole(QUEUE_REQUEST, body)
    return fields_of(port=port_of(port), queue=queue_of(queue))


def empty_request(body):
    if body:
        raise Malformed(f"a body of length {len(body)}, not 0")
    return ""


def description_reply(body):
    names = "manufacturer", "hardware", "software", "serial_number", "datapath"
    return fields_of(**dict(zip(names, map(quoted, whole(DESCRIPTION, body)))))


def aggregate_reply(body):
    packets, octets, flows = whole(AGGREGATE, body)
    return fields_of(packets=packets, bytes=octets, flows=flows)


def flow_entry(data):
    """A flow, whose length tells where its actions end."""
    _length, table, match, seconds, nanoseconds, priority, idle, hard, cookie, packets, octets = FLOW.unpack_from(data)
    return fields_of(
        match=Match.of(match), table=table, duration=seconds_of(seconds, nanoseconds), priority=priority,
        idle_timeout=idle, hard_timeout=hard, cookie=hexadecimal(cookie), packets=packets, bytes=octets,
        actions=actions_text(data[FLOW.size :]),
    )


def table_entry(data):
    table, name, wildcards, most, active, lookups, matched = TABLE.unpack(data)
    return fields_of(
        table=table_of(table), name=quoted(name), wildcards=hexadecimal(wildcards), max=most, active=active,
        lookups=lookups, matched=matched,
    )


def port_entry(data):
    port, *counters = PORT.unpack(data)
    return fields_of(port=port_of(port), **dict(zip(PORT_COUNTERS, map(counter_of, counters))))


def queue_entry(data):
    port, queue, octets, packets, errors = QUEUE.unpack(data)
    return fields_of(port=port_of(port), queue=queue_of(queue), tx_bytes=octets, tx_packets=packets, tx_errors=errors)


def flows_of(body):
    """Each flow of a reply."""
    at = 0
    while at < len(body):
        length = int.from_bytes(body[at : at + 2], "big")
        if length < FLOW.size or length > len(body) - at:
            raise Malformed(f"a flow of length {length}, with {len(body) - at} left")
        yield flow_entry(body[at : at + length])
        at += length


def entries_of(layout, write):
    """Reads the entries of one size of a reply."""

    def read(body):
        if len(body) % layout.size:
            raise Malformed(f"a body of length {len(body)}, no multiple of {layout.size}")
        return (write(body[at : at + layout.size]) for at in range(0, len(body), layout.size))

    return read


REQUESTS = {
    StatsType.DESC: empty_request,
    StatsType.FLOW: flow_request,
    StatsType.AGGREGATE: flow_request,
    StatsType.TABLE: empty_request,
    StatsType.PORT: port_request,
    StatsType.QUEUE: queue_request,
}
ENTRIES = {
    StatsType.FLOW: flows_of,
    StatsType.TABLE: entries_of(TABLE, table_entry),
    StatsType.PORT: entries_of(PORT, port_entry),
    StatsType.QUEUE: entries_of(QUEUE, queue_entry),
}
REPLIES = {StatsType.DESC: description_reply, StatsType.AGGREGATE: aggregate_reply}
