"""The worst messages of a slice: those that make the proxy, or the connection to the switch, work most."""

import dataclasses
import struct

from devices.messages import Command, Kind, any_match, flow_mod, output, packet_out, port_match
from sunworsted import message, tcp_packet

# The slice's TCP ports: as many as a slice may have rules, so that a flow-mod of everything falls into 256 pieces.
HEAVY_PORTS = range(2_000, 2_256)
# As many ports as a switch can tell of.
SWITCH_PORTS = range(1, 1_365)

# The port of entry of rules that name one.
ONE_PORT = 1

LARGEST = 65_535
READ = 65_536
ALL_PORTS = 0xFFFC
SET_TP_SRC, SET_TP_DST = 9, 10
CHECK_OVERLAP = 2
FLAGS = 70
# A full book has 4,096 entries: 256 of each of 16 priorities.
PRIORITY, PRIORITIES = 100, 16
FLOW_ENTRY = 88


@dataclasses.dataclass
class Load:
    """What is sent in a round, and whether each message of it is refused."""

    name: str
    data: bytes
    is_refused: bool = False


def everything(actions, command=Command.ADD, priority=PRIORITY, flags=0):
    """A flow-mod of everything that the slice has."""
    whole = bytearray(flow_mod(any_match(), actions, command, priority=priority))
    struct.pack_into(">H", whole, FLAGS, flags)
    return bytes(whole)


def full_book():
    """The flow-mods that book as many entries as there can be."""
    return [everything(output(2), priority=PRIORITY + k) for k in range(PRIORITIES)]


def rewrite(action, port):
    """An action: SET_TP_SRC or SET_TP_DST."""
    return struct.pack(">HHHxx", action, 8, port)


def rewritten_outputs(count):
    """So many outputs, before each of which the packet is rewritten anew."""
    return rewrite(SET_TP_DST, HEAVY_PORTS[-1]) + b"".join(rewrite(SET_TP_SRC, k) + output(2) for k in range(count))


def turning_outputs(count):
    """So many outputs, of packets that the last rule of the slice and the one before it have in turn."""
    return b"".join(rewrite(SET_TP_DST, HEAVY_PORTS[-1 - k % 2]) + output(2) for k in range(count))


def own_packet_out(actions, size):
    """A packet-out of the slice's own, of so many bytes in all."""
    packet = tcp_packet(HEAVY_PORTS[0])
    return packet_out(packet.ljust(size - 16 - len(actions), b"\0"), actions)


def flows_request():
    """A question for all flows (section 5.3.5)."""
    return message(Kind.STATS_REQUEST, 8, struct.pack(">HH", 1, 0) + any_match() + struct.pack(">BxH", 0xFF, 0xFFFF))


def flow_entry(port):
    """A flow of the slice, as a switch tells of it."""
    return struct.pack(">HBx", FLOW_ENTRY, 0) + port_match(port) + struct.pack(">IIHHH6xQQQ", 5, 0, 10, 0, 0, 0, 1, 60)


def flows_told():
    """The body of a reply with as many flows as there is room for."""
    count = (LARGEST - 12) // FLOW_ENTRY
    return struct.pack(">HH", 1, 0) + b"".join(flow_entry(HEAVY_PORTS[k % 256]) for k in range(count))


def loads():
    overlap = everything(output(2), flags=CHECK_OVERLAP)
    return [
        Load("flow-mod in 256 pieces of 1,024 bytes", everything(output(2) * 119)),
        Load("flow-mod of 8,182 outputs in 256 pieces", everything(output(2) * 8_182), is_refused=True),
        Load("flow-mod of 4,090 rewritten outputs in 256 pieces", everything(rewritten_outputs(4_090)), is_refused=True),
        Load("flow-mod of 59 rewritten outputs in 256 pieces", everything(rewritten_outputs(59))),
        Load("flow-mod of 4,090 outputs that two rules have in turn", everything(turning_outputs(4_090)), is_refused=True),
        Load("flow-mod to 1,364 ports, 8,182 times", everything(output(ALL_PORTS) * 8_182), is_refused=True),
        Load("flow-mod to 1,364 ports, five times", everything(output(ALL_PORTS) * 5), is_refused=True),
        Load("MODIFY in 256 pieces over a full book", everything(output(2), Command.MODIFY, PRIORITY - 1)),
        Load("CHECK_OVERLAP in 256 pieces over a full book", overlap, is_refused=True),
        Load("800 of these at once", overlap * 800, is_refused=True),
        Load("packet-out of 65,535 bytes", own_packet_out(output(2), LARGEST)),
        Load("packet-out of 4,000 rewritten outputs", own_packet_out(rewritten_outputs(4_000), 64_100)),
        Load("packet-out to 1,364 ports, five times", own_packet_out(output(ALL_PORTS) * 5, 200)),
        Load("question for all flows, with 744 in the answer", flows_request()),
        Load("64 KiB of echoes at once", message(Kind.ECHO_REQUEST, 7, b"") * (READ // 8)),
        Load("echo of 65,535 bytes", message(Kind.ECHO_REQUEST, 7, bytes(LARGEST - 8))),
    ]


def loads_of_one_port():
    """Those of a slice whose rules name one port of entry, to which alone it may send."""
    outputs = everything(output(ONE_PORT) * 8_182)
    return [Load("flow-mod of 8,182 outputs in 256 pieces, by rules that name their port", outputs, is_refused=True)]
