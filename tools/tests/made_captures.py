"""Packets and captures that tests build."""
import ipaddress
import struct

from sunworsted import features_reply

from flowvisor_tool.segments import ACK, SYN

HELLO = bytes.fromhex("0100000800000001")
ECHO = bytes.fromhex("0102000c00000002aabbccdd")


def features_of(datapath, buffers=256, ports=()):
    return features_reply(0xFF000001, datapath, ports, buffers)


def end(text):
    """An address and a port."""
    address, _colon, port = text.rpartition(":")
    return ipaddress.ip_address(address.strip("[]")).packed, int(port)


def ipv4(ends, payload, protocol=6, options=b"", fragment=0, length=None):
    """An IPv4 packet. Checksums are 0 throughout, since nobody looks at them."""
    header = 20 + len(options)
    length = header + len(payload) if length is None else length
    head = struct.pack(">BBHHHBBH", 0x40 | header // 4, 0, length, 7, fragment, 64, protocol, 0)
    return head + ends[0][0] + ends[1][0] + options + payload


def ipv6(ends, payload, protocol=6, headers=(), length=None):
    """An IPv6 packet. Each header has its number, and its bytes behind the number of the next one."""
    kinds = [kind for kind, _body in headers] + [protocol]
    between = b"".join(bytes([after]) + body for after, (_kind, body) in zip(kinds[1:], headers))
    length = len(between) + len(payload) if length is None else length
    return struct.pack(">IHBB", 6 << 28, length, kinds[0], 64) + ends[0][0] + ends[1][0] + between + payload


def ip(ends, payload, **parts):
    return (ipv4 if len(ends[0][0]) == 4 else ipv6)(ends, payload, **parts)


def tcp(ends, sequence, acknowledgement, flags, data=b"", options=b""):
    numbers = sequence & 0xFFFFFFFF, acknowledgement & 0xFFFFFFFF
    head = struct.pack(">HHIIBBHHH", ends[0][1], ends[1][1], *numbers, (20 + len(options)) // 4 << 4, flags, 1000, 0, 0)
    return head + options + data


class Talk:
    """A TCP connection, of which each packet is made by itself.

    `at` counts the bytes of the side that sends, and `seen` those of the other side, each from 0 on.
    """

    def __init__(self, client, server, first_of_client=1000, first_of_server=70000):
        self.client, self.server = end(client), end(server)
        self.first = {True: first_of_client, False: first_of_server}

    def segment(self, by_client, at, data=b"", flags=ACK, seen=0, options=b""):
        """The TCP segment, and between whom it goes."""
        ends = (self.client, self.server) if by_client else (self.server, self.client)
        numbers = self.first[by_client] + 1 + at, (self.first[not by_client] + 1 + seen if flags & ACK else 0)
        return ends, tcp(ends, *numbers, flags, data, options)

    def from_client(self, at, data=b"", flags=ACK, seen=0, **parts):
        return ip(*self.segment(True, at, data, flags, seen), **parts)

    def from_server(self, at, data=b"", flags=ACK, seen=0, **parts):
        return ip(*self.segment(False, at, data, flags, seen), **parts)

    def syn(self, data=b""):
        return self.from_client(-1, data, SYN)

    def syn_ack(self, seen=0):
        return self.from_server(-1, b"", SYN | ACK, seen)

    def opening(self, data=b""):
        return [self.syn(), self.syn_ack(), self.from_client(0, data)]


def switch_talk(client="10.0.0.9:40000", server="10.0.0.1:6633", **firsts):
    return Talk(client, server, **firsts)


def alice_talk(client="10.0.0.1:50000", server="10.0.0.5:6653", **firsts):
    return Talk(client, server, **firsts)


def bob_talk(client="10.0.0.1:50001", server="10.0.0.6:6654", **firsts):
    return Talk(client, server, **firsts)


# Captures.


def timed(packets):
    """Each packet a millisecond after the one before."""
    return [(place, packet) for place, packet in enumerate(packets)]


def ethernet(packet, tags=(), padding=b""):
    kind = 0x0800 if packet[0] >> 4 == 4 else 0x86DD
    return bytes(range(12)) + b"".join(struct.pack(">HH", tag, 5) for tag in tags) + struct.pack(">H", kind) + packet + padding


def cooked(packet, tag=None):
    kind = 0x0800 if packet[0] >> 4 == 4 else 0x86DD
    head = struct.pack(">HHH8s", 0, 1, 6, bytes(8))
    return head + (struct.pack(">HHH", tag, 5, kind) if tag else struct.pack(">H", kind)) + packet


def cooked_2(packet, tag=None):
    kind = 0x0800 if packet[0] >> 4 == 4 else 0x86DD
    head = struct.pack(">HHIHBB8s", tag or kind, 0, 2, 1, 0, 6, bytes(8))
    return head + (struct.pack(">HH", 5, kind) if tag else b"") + packet


def loopback(order, family_6=30):
    return lambda packet: struct.pack(order + "I", 2 if packet[0] >> 4 == 4 else family_6) + packet


MAGICS = {("<", 10**6): "d4c3b2a1", (">", 10**6): "a1b2c3d4", ("<", 10**9): "4d3cb2a1", (">", 10**9): "a1b23c4d"}
START = 1_700_000_000


def pcap_head(order="<", rate=10**6, link=1, version=(2, 4)):
    return bytes.fromhex(MAGICS[order, rate]) + struct.pack(order + "HHiIII", *version, 0, 0, 65535, link)


def pcap_packet(moment, data, order="<", rate=10**6, full=None):
    ticks = START * rate + moment * rate // 1000
    return struct.pack(order + "IIII", ticks // rate, ticks % rate, len(data), len(data) if full is None else full) + data


def pcap(packets, wrap=ethernet, order="<", rate=10**6, link=1):
    body = b"".join(pcap_packet(moment, wrap(packet), order, rate) for moment, packet in packets)
    return pcap_head(order, rate, link) + body


def block(order, kind, body):
    body += bytes(-len(body) % 4)
    size = struct.pack(order + "I", len(body) + 12)
    return struct.pack(order + "I", kind) + size + body + size


def option(order, code, value):
    return struct.pack(order + "HH", code, len(value)) + value + bytes(-len(value) % 4)


def section(order="<", version=(1, 0)):
    return block(order, 0x0A0D0D0A, struct.pack(order + "IHHq", 0x1A2B3C4D, *version, -1))


def interface(order="<", link=1, limit=0, options=b""):
    return block(order, 1, struct.pack(order + "HHI", link, 0, limit) + options)


def enhanced(moment, data, order="<", rate=10**6, place=0, full=None, start=START):
    ticks = start * rate + moment * rate // 1000
    sizes = len(data), len(data) if full is None else full
    head = struct.pack(order + "IIIII", place, ticks >> 32, ticks & 0xFFFFFFFF, *sizes)
    options_ = option(order, 1, b"a comment") + option(order, 0, b"")
    return block(order, 6, head + data + bytes(-len(data) % 4) + options_)


def obsolete(moment, data, order="<", place=0, full=None):
    ticks = START * 10**6 + moment * 1000
    sizes = len(data), len(data) if full is None else full
    return block(order, 2, struct.pack(order + "HHIIII", place, 5, ticks >> 32, ticks & 0xFFFFFFFF, *sizes) + data)


def simple(data, order="<", full=None):
    return block(order, 3, struct.pack(order + "I", len(data) if full is None else full) + data)


def pcapng(packets, order="<", rate=10**6, options=b"", start=START):
    body = b"".join(enhanced(moment, ethernet(packet), order, rate, start=start) for moment, packet in packets)
    return section(order) + interface(order, options=options) + body
