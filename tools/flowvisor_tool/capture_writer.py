"""Writes captures (pcap, in nanoseconds) of TCP connections whose packets are made up."""
import enum
import ipaddress
import struct

from .openflow.ethernet import TCP
from .segments import ACK, FIN, PUSH, SYN
from .streams import SEQUENCES

MAGIC = 0xA1B23C4D
FILE_HEAD = struct.Struct(">IHHiIII")
PACKET_HEAD = struct.Struct(">IIII")
VERSION, RAW_IP, LONGEST_PACKET = (2, 4), 101, 65_535
IPV4_HEADER = struct.Struct(">BBHHHBBH4s4s")
TCP_HEADER = struct.Struct(">HHIIBBHHH")
PSEUDO_HEADER = struct.Struct(">4s4sxBH")
TIME_TO_LIVE, DO_NOT_FRAGMENT, WINDOW = 64, 0x4000, 65_535
# What a segment carries on Ethernet.
LARGEST_SEGMENT = 1460


def checksum(data):
    """The Internet's checksum of some bytes."""
    data += bytes(len(data) % 2)
    total = sum(struct.unpack(f">{len(data) // 2}H", data))
    while total >> 16:
        total = (total & 0xFFFF) + (total >> 16)
    return ~total & 0xFFFF


def segment(source, destination, sequence, acknowledgement, flags, data):
    """A TCP segment between two ends, each an address and a port, with its checksum."""

    def spelled(check):
        ports, numbers, words = (source[1], destination[1]), (sequence, acknowledgement), TCP_HEADER.size // 4
        return TCP_HEADER.pack(*ports, *numbers, words << 4, flags, WINDOW, check, 0) + data

    pseudo = PSEUDO_HEADER.pack(source[0].packed, destination[0].packed, TCP, TCP_HEADER.size + len(data))
    return spelled(checksum(pseudo + spelled(0)))


def packet(source, destination, payload):
    """An IPv4 packet of a TCP segment between two ends."""

    def header(check):
        size = IPV4_HEADER.size + len(payload)
        ends = source[0].packed, destination[0].packed
        return IPV4_HEADER.pack(0x45, 0, size, 0, DO_NOT_FRAGMENT, TIME_TO_LIVE, TCP, check, *ends)

    return header(checksum(header(0))) + payload


class Capture:
    """A capture that is written packet by packet. Times are whole milliseconds from the start of 1970."""

    LATEST = 0xFFFFFFFF * 1000

    def __init__(self, file):
        self.file = file
        self.count = 0
        file.write(FILE_HEAD.pack(MAGIC, *VERSION, 0, 0, LONGEST_PACKET, RAW_IP))

    def add(self, moment, data):
        """Writes one packet."""
        seconds, milliseconds = divmod(moment, 1000)
        self.file.write(PACKET_HEAD.pack(seconds, milliseconds * 10**6, len(data), len(data)) + data)
        self.count += 1


class Side(enum.Enum):
    """The two sides of a connection: the one that calls, and the one that is called."""

    CLIENT = enum.auto()
    SERVER = enum.auto()

    def other(self):
        return Side.SERVER if self is Side.CLIENT else Side.CLIENT


class MadeConnection:
    """A connection of a capture, from its handshake on. The ends are pairs of an IPv4 address and a port."""

    def __init__(self, capture, moment, client, server):
        self.capture = capture
        self.ends = {Side.CLIENT: client, Side.SERVER: server}
        self.next = {Side.CLIENT: 0, Side.SERVER: 0}  # the number of the next byte of each side
        self.packet = capture.count + 1  # the number of its first packet
        self.put(moment, Side.CLIENT, SYN)
        self.put(moment, Side.SERVER, SYN | ACK)
        self.put(moment, Side.CLIENT, ACK)

    def put(self, moment, side, flags, data=b""):
        """Adds a segment of one side. A SYN and a FIN have a number of their own."""
        other = side.other()
        acknowledgement = self.next[other] if flags & ACK else 0
        ends = self.ends[side], self.ends[other]
        self.capture.add(moment, packet(*ends, segment(*ends, self.next[side], acknowledgement, flags, data)))
        used = len(data) + bool(flags & (SYN | FIN))
        self.next[side] = (self.next[side] + used) & SEQUENCES

    def send(self, moment, side, data):
        """One side sends bytes, in as many segments as they take."""
        for at in range(0, len(data), LARGEST_SEGMENT):
            piece = data[at : at + LARGEST_SEGMENT]
            is_last = at + LARGEST_SEGMENT >= len(data)
            self.put(moment, side, ACK | PUSH if is_last else ACK, piece)

    def end(self, moment, side):
        """One side ends the connection, and the other one follows."""
        self.put(moment, side, FIN | ACK)
        self.put(moment, side.other(), FIN | ACK)
        self.put(moment, side, ACK)


def end_of(address, port):
    """An end of a connection."""
    return ipaddress.IPv4Address(address), port
