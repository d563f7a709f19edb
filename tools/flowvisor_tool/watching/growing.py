"""Captures as they grow: the packets of pcap and pcapng, of bytes that come in any pieces."""
import io
import struct

from ..captures import (
    ENHANCED_PACKET, INTERFACE, OBSOLETE_PACKET, PCAP_MAGICS, SECTION_HEADER, SECTION_MAGICS, SIMPLE_PACKET, Problem, Source,
    block_body, interface_of, section_order, simple_packet, timed_packet,
)

# tcpdump takes at most so many bytes of a packet.
LARGEST_PACKET = 1 << 18
# A block has its packet's options too. Longer blocks of other kinds are passed over as they come.
LARGEST_BLOCK = 1 << 20
MOST_INTERFACES = 1 << 12
PCAP_HEADER, RECORD_HEAD, SECTION_HEAD = 24, 16, 12
PACKET_BLOCKS = (ENHANCED_PACKET, OBSOLETE_PACKET, SIMPLE_PACKET)


class GrowingCapture:
    """Takes the bytes of a capture as they come, and hands each packet on once it is whole.

    `hear` is called with the packet's time in seconds (None where it has none), the bytes in which it stands from one
    place to another, its size on the wire, and the kind of its link. What can't be read is a Problem.
    """

    def __init__(self, hear):
        self.hear = hear
        self.number = 0  # of the last packet
        self.rest = b""
        self.skipped = 0  # how many bytes that come next are of a block that is passed over
        self.read = self.begin
        self.order, self.head, self.tick, self.link, self.interfaces = "<", None, 0, None, []

    def feed(self, data):
        """Takes the next bytes, and keeps those of what isn't whole."""
        if self.rest:
            data = self.rest + data
        self.rest = b""
        while data:
            if self.skipped:
                passed = min(self.skipped, len(data))
                self.skipped -= passed
                data = data[passed:]
            used = self.read(data)
            data = data[used:]
            if not used and not self.skipped:
                break
        self.rest = data

    def finish(self):
        """Nothing more comes: a Problem where the capture ends within a packet."""
        if self.read == self.begin:
            raise Problem(None, "the capture is neither pcap nor pcapng")
        if self.rest or self.skipped:
            raise Problem(self.number + 1, "the capture is cut off before this packet's end")

    def refuse(self, text):
        """Names the packet behind those read."""
        raise Problem(self.number + 1, f"the capture is damaged here: {text}")

    def begin(self, data):
        """Reads the head of a file, and answers how many bytes that has; 0 where it isn't there yet."""
        magic = data[:4]
        if magic == SECTION_HEADER:
            self.read = self.blocks
            return self.blocks(data)
        if len(magic) == 4 and magic not in PCAP_MAGICS:
            raise Problem(None, "the capture is neither pcap nor pcapng")
        if len(data) < PCAP_HEADER:
            return 0
        order, rate = PCAP_MAGICS[magic]
        major, minor, link = struct.unpack_from(order + "HH12xI", data, 4)
        if (major, minor) != (2, 4):
            raise Problem(None, f"the capture is of pcap's version {major}.{minor}, and 2.4 is read")
        self.head, self.tick, self.link = struct.Struct(order + "IIII"), 1 / rate, link & 0x03FFFFFF
        self.read = self.records
        return PCAP_HEADER

    def records(self, data):
        """Hands on the packets of a pcap file, and answers how many bytes they have."""
        at, end = 0, len(data)
        unpack, hear, tick, link = self.head.unpack_from, self.hear, self.tick, self.link
        while end - at >= RECORD_HEAD:
            seconds, ticks, size, full = unpack(data, at)
            if size > LARGEST_PACKET:
                self.refuse("a length is out of range")
            start = at + RECORD_HEAD
            if start + size > end:
                break
            self.number += 1
            at = start + size
            hear(seconds + ticks * tick, data, start, at, full, link)
        return at

    def blocks(self, data):
        """Hands on the packets of a pcapng file, and answers how many bytes its blocks have."""
        at = 0
        while len(data) - at >= SECTION_HEAD:
            is_section = data[at : at + 4] == SECTION_HEADER
            order = SECTION_MAGICS.get(data[at + 8 : at + 12]) if is_section else self.order
            if order is None:
                self.refuse("a section has no byte order")
            kind, size = struct.unpack_from(order + "II", data, at)
            if size % 4 or size < SECTION_HEAD:
                self.refuse("a block's length is wrong")
            if size > LARGEST_BLOCK:
                if is_section or kind == INTERFACE or kind in PACKET_BLOCKS:
                    self.refuse("a length is out of range")
                self.skipped = size
                break
            if at + size > len(data):
                break
            self.block(kind, is_section, data[at + 4 : at + size])
            at += size
        return at

    def block(self, kind, is_section, data):
        """Takes a block in, of which the type was read."""
        source = Source(io.BytesIO(data))
        source.number = self.number
        if is_section:
            self.order, self.interfaces = section_order(source), []
            return
        body = block_body(source, self.order, source.take(4))
        if kind == INTERFACE:
            if len(self.interfaces) >= MOST_INTERFACES:
                self.refuse("it has too many interfaces")
            self.interfaces.append(interface_of(source, self.order, body))
        elif kind in PACKET_BLOCKS:
            packet = self.packet_of(source, kind, body)
            if len(packet.data) > LARGEST_PACKET:
                self.refuse("a length is out of range")
            self.number = packet.number
            time = None if packet.time is None else float(packet.time)
            self.hear(time, packet.data, 0, len(packet.data), packet.full, packet.link)

    def packet_of(self, source, kind, body):
        """The packet that a block has."""
        if kind == SIMPLE_PACKET:
            return simple_packet(source, self.order, self.interfaces, body)
        return timed_packet(source, self.order, self.interfaces, kind, body)
