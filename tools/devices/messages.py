"""The messages that the peers send, and where their numbers stand (OpenFlow 1.0.0, section 5)."""

import struct

from flowvisor_tool.openflow.protocol import FlowModCommand as Command, MessageType as Kind
from sunworsted import message, packet_in, tcp_packet

HEAD = 8
XID = 4
NO_BUFFER = 0xFFFFFFFF
NO_PORT = 0xFFFF
FIRST_PORT = 1_000

# Of a match: any value of each field, and the fields by which the packets of one TCP port are known.
ANY, TCP_TO_PORT = 0x003FFFFF, 0x0038204F

# What the cookies of numbered flow-mods begin with.
COOKIE_MARK = 0x5357

# Where a message has its number: in the TCP sequence number of a packet-in's packet, and in a flow-mod's cookie.
PACKET_NUMBER, COOKIE = 56, 48


def port_of(slot):
    """The TCP port whose packets are the slice's at this slot."""
    return FIRST_PORT + slot


def output(port):
    """An action: OUTPUT."""
    return struct.pack(">HHHH", 0, 8, port, 0)


def any_match():
    return struct.pack(">I36x", ANY)


def port_match(port):
    """The match of TCP packets to a port."""
    return struct.pack(">I18xHxB12xH", TCP_TO_PORT, 0x0800, 6, port)[:38] + struct.pack(">H", port)


def flow_mod(match, actions, command=Command.ADD, cookie=0, priority=10, xid=7):
    fields = struct.pack(">QHHHHIHH", cookie, command, 0, 0, priority, NO_BUFFER, NO_PORT, 0)
    return message(Kind.FLOW_MOD, xid, match + fields + actions)


def packet_out(packet, actions, in_port=NO_PORT):
    """A PACKET_OUT of a packet of its own, which comes by no port where nothing else is said."""
    fields = struct.pack(">IHH", NO_BUFFER, in_port, len(actions))
    return message(Kind.PACKET_OUT, 7, fields + actions + packet)


def echo_request(number):
    return message(Kind.ECHO_REQUEST, 7, struct.pack(">I", number))


def numbered_packet_in(slot, number):
    """A packet-in for the slice at this slot."""
    packet = bytearray(tcp_packet(port_of(slot)))
    struct.pack_into(">I", packet, PACKET_NUMBER - 18, number)
    return packet_in(0, 1, bytes(packet))


def numbered_flow_mod(slot, number):
    """A flow-mod of the slice at this slot, the same but for its number."""
    cookie = COOKIE_MARK << 48 | slot << 32 | number
    return flow_mod(port_match(port_of(slot)), output(2), cookie=cookie)


def number_of_packet_in(frame):
    return struct.unpack_from(">I", frame, PACKET_NUMBER)[0]


def number_of_echo(frame):
    return struct.unpack_from(">I", frame, HEAD)[0]


def xid_of(data, at):
    """The transaction id of the message that begins there."""
    return struct.unpack_from(">I", data, at + XID)[0]


def slot_and_number(data, at=0):
    """The slot and the number of a numbered flow-mod that begins there; None of another."""
    mark, slot, number = struct.unpack_from(">HHI", data, at + COOKIE)
    return (slot, number) if mark == COOKIE_MARK else None
