"""Captures, pcap 2.4 and pcapng 1: the packets of a file."""
import math
import struct
from dataclasses import dataclass
from fractions import Fraction

# The magics give the byte order of a file and how many ticks its clock has in a second.
PCAP_MAGICS = {
    bytes.fromhex("a1b2c3d4"): (">", 10**6),
    bytes.fromhex("d4c3b2a1"): ("<", 10**6),
    bytes.fromhex("a1b23c4d"): (">", 10**9),
    bytes.fromhex("4d3cb2a1"): ("<", 10**9),
}
SECTION_MAGICS = {bytes.fromhex("1a2b3c4d"): ">", bytes.fromhex("4d3c2b1a"): "<"}
SECTION_HEADER = bytes.fromhex("0a0d0d0a")
INTERFACE, OBSOLETE_PACKET, SIMPLE_PACKET, ENHANCED_PACKET = 1, 2, 3, 6
TIME_RESOLUTION, TIME_OFFSET = 9, 14
LARGEST_BLOCK = 1 << 27


class Problem(Exception):
    """What can't be read of a capture, with the number of its packet where it has one."""

    def __init__(self, number, text):
        super().__init__(text if number is None else f"packet {number}: {text}")
        self.number = number


@dataclass(slots=True)
class Packet:
    """A packet as it was captured. Its time is in seconds, and `full` its size on the wire."""

    number: int
    time: Fraction | None
    link: int
    data: bytes
    full: int


@dataclass(slots=True)
class Interface:
    """An interface of a pcapng section: ticks a second, and seconds to be added to its times."""

    link: int
    limit: int
    rate: int = 10**6
    offset: int = 0


class Source:
    """The bytes of a capture in their order, and how many of its packets were read."""

    def __init__(self, file):
        self.file = file
        self.number = 0

    def refuse(self, text):
        """Names the packet after those read."""
        raise Problem(self.number + 1, text)

    def take(self, count):
        """The next bytes, exactly so many."""
        if not 0 <= count <= LARGEST_BLOCK:
            self.refuse("the capture is damaged here: a length is out of range")
        data = self.file.read(count)
        if len(data) < count:
            self.refuse("the capture is cut off before this packet's end")
        return data

    def take_or_end(self, count):
        """The next bytes, or None where the capture ends here."""
        first = self.file.read(1)
        return first + self.take(count - 1) if first else None

    def packet(self, time, link, data, full):
        """The next packet, of these parts."""
        self.number += 1
        return Packet(self.number, time, link, data, full)


def packets_of(file):
    """The packets of a capture, in their order."""
    source = Source(file)
    magic = file.read(4)
    if magic in PCAP_MAGICS:
        return pcap_packets(source, *PCAP_MAGICS[magic])
    if magic == SECTION_HEADER:
        return pcapng_packets(source)
    raise Problem(None, "the capture is neither pcap nor pcapng")


def pcap_packets(source, order, rate):
    """The packets of a pcap file whose magic was read."""
    major, minor, _zone, _accuracy, _limit, link = struct.unpack(order + "HHiIII", source.take(20))
    if (major, minor) != (2, 4):
        raise Problem(None, f"the capture is of pcap's version {major}.{minor}, and 2.4 is read")
    while head := source.take_or_end(16):
        seconds, ticks, size, full = struct.unpack(order + "IIII", head)
        # The upper bits of the link's kind tell of check sums behind frames.
        yield source.packet(Fraction(seconds * rate + ticks, rate), link & 0x03FFFFFF, source.take(size), full)


def pcapng_packets(source):
    """The packets of a pcapng file whose first block's type was read."""
    order, interfaces = None, []
    kind = SECTION_HEADER
    while kind:
        if kind == SECTION_HEADER:
            order, interfaces = section_order(source), []
        else:
            number = struct.unpack(order + "I", kind)[0]
            body = block_body(source, order, source.take(4))
            if number == INTERFACE:
                interfaces.append(interface_of(source, order, body))
            elif number in (ENHANCED_PACKET, OBSOLETE_PACKET):
                yield timed_packet(source, order, interfaces, number, body)
            elif number == SIMPLE_PACKET:
                yield simple_packet(source, order, interfaces, body)
        kind = source.take_or_end(4)


def section_order(source):
    """Reads a section's header behind its type, and answers the section's byte order."""
    length = source.take(4)
    magic = source.take(4)
    if magic not in SECTION_MAGICS:
        source.refuse("the capture is damaged here: a section has no byte order")
    order = SECTION_MAGICS[magic]
    body = block_body(source, order, length, magic)
    if len(body) < 16:
        source.refuse("the capture is damaged here: a section's header is too short")
    major, minor = struct.unpack(order + "HH", body[4:8])
    if major != 1:
        source.refuse(f"the section is of pcapng's version {major}.{minor}, and 1 is read")
    return order


def block_body(source, order, length, begun=b""):
    """The body of a block whose type, length and first bytes were read, up to its second length."""
    size = struct.unpack(order + "I", length)[0]
    if size % 4 or size < 12 + len(begun):
        source.refuse("the capture is damaged here: a block's length is wrong")
    body = begun + source.take(size - 12 - len(begun))
    if source.take(4) != length:
        source.refuse("the capture is damaged here: the two lengths of a block differ")
    return body


def interface_of(source, order, body):
    """What a block tells of an interface."""
    if len(body) < 8:
        source.refuse("the capture is damaged here: an interface's block is too short")
    link, _reserved, limit = struct.unpack(order + "HHI", body[:8])
    interface = Interface(link, limit)
    at = 8
    while at + 4 <= len(body):
        code, size = struct.unpack(order + "HH", body[at : at + 4])
        value = body[at + 4 : at + 4 + size]
        if code == TIME_RESOLUTION and len(value) == 1:
            interface.rate = 2 ** (value[0] & 0x7F) if value[0] & 0x80 else 10 ** value[0]
        if code == TIME_OFFSET and len(value) == 8:
            interface.offset = struct.unpack(order + "q", value)[0]
        if code == 0:
            break
        at += 4 + (size + 3) // 4 * 4
    return interface


def told_interface(source, interfaces, place):
    """The interface at this place of the section."""
    if place >= len(interfaces):
        source.refuse(f"the capture doesn't tell what its interface {place} is")
    return interfaces[place]


def timed_packet(source, order, interfaces, number, body):
    """The packet of an enhanced or an obsolete packet block, whose heads differ in the interface's number."""
    if len(body) < 20:
        source.refuse("the capture is damaged here: the packet's block is too short")
    layout = "IIIII" if number == ENHANCED_PACKET else "HxxIIII"
    place, high, low, size, full = struct.unpack(order + layout, body[:20])
    if size > len(body) - 20:
        source.refuse("the capture is damaged here: the packet's block is too short")
    interface = told_interface(source, interfaces, place)
    time = Fraction(high << 32 | low, interface.rate) + interface.offset
    return source.packet(time, interface.link, body[20 : 20 + size], full)


def simple_packet(source, order, interfaces, body):
    """The packet of a simple packet block, which is the first interface's and has no time."""
    interface = told_interface(source, interfaces, 0)
    full = struct.unpack(order + "I", body[:4])[0] if len(body) >= 4 else 0
    size = min(full, interface.limit) if interface.limit else full
    if size > len(body) - 4:
        source.refuse("the capture is damaged here: the packet's block is too short")
    return source.packet(None, interface.link, body[4 : 4 + size], full)


class Moments:
    """Tells milliseconds since the capture's first packet that has a time."""

    def __init__(self):
        self.first = None
        self.last = 0

    def of(self, packet):
        """The timestamp of the next packet, rounded down."""
        if packet.time is not None:
            if self.first is None:
                self.first = packet.time
            self.last = max(0, math.floor((packet.time - self.first) * 1000))
        return self.last
