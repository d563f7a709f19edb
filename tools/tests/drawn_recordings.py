"""Recordings drawn from a seed: sessions of switches and slices, mostly well formed, whose messages meet one another."""
import random
import struct

import running  # noqa: F401  (puts tools/ on the path)
from sunworsted import (
    SLICE_BYTES, SLICE_DOWN, SLICE_UP, SWITCH_BYTES, SWITCH_DOWN, SWITCH_UP, message, record, recording, tcp_packet,
)

# Two slices with several rules each, which name ports, networks and VLANs; one that reads; one with little of all.
POLICY = b"""\
version = 1
[[slice]]
name = "alice"
controller = "127.0.0.1:6633"
[[slice]]
name = "bob"
controller = "127.0.0.1:6634"
rate = 1
burst = 8
quota = 3
[[slice]]
name = "carol"
controller = "127.0.0.1:6635"
[[rule]]
priority = 9
write = "alice"
read = ["carol"]
in_port = 1
dl_type = 0x0800
nw_proto = 6
tp_dst = 80
[[rule]]
priority = 8
write = "alice"
dl_type = 0x0800
nw_proto = 6
tp_dst = 80
[[rule]]
priority = 7
write = "bob"
in_port = 2
dl_vlan = 65535
dl_type = 0x0800
nw_proto = 6
tp_dst = 22
[[rule]]
priority = 6
write = "bob"
dl_vlan = 5
dl_type = 0x0806
[[rule]]
priority = 5
switch = "00000000000000a1"
write = "alice"
dl_type = 0x0800
nw_proto = 17
nw_dst = "10.0.0.0/30"
[[rule]]
priority = 0
read = ["carol", "bob"]
"""
SLOTS = range(3)
PORTS = [1, 2, 3, 0xFFFE]
NO_BUFFER, NO_PORT, ANY = 0xFFFFFFFF, 0xFFFF, "003fffff" + "00" * 36
OUT_PORTS = [1, 2, 3, 7, *range(0xFFF8, 0x10000)]


def packet(protocol, port, tag=None):
    """A packet of IPv4 to 10.0.0.2 and a port, perhaps with a VLAN's tag."""
    plain = bytearray(tcp_packet(port))
    plain[23] = protocol
    return bytes(plain) if tag is None else bytes(plain[:12]) + struct.pack(">HH", 0x8100, tag) + bytes(plain[12:])


ARP = bytes.fromhex("ffffffffffff" "000000000001" "81000005" "0806" "0001080006040001" "000000000001" "0a000001" "000000000000" "0a000002")
LLDP = bytes.fromhex("0180c200000e" "000000000001" "88cc" "0000")
PACKETS = [packet(6, 80), packet(6, 22), packet(6, 443), packet(17, 53), packet(6, 80, 0x2005), packet(6, 22, 0x6005), ARP, LLDP]


def match_bytes(wildcards, in_port=0, vlan=0, pcp=0, kind=0, protocol=0, network=0, port=0):
    """A match with these fields (OpenFlow 1.0.0, section 5.2.3)."""
    return struct.pack(">IH12xHBxHBBxxIIHH", wildcards, in_port, vlan, pcp, kind, 0, protocol, 0x0A000001, network, 1024, port)


class RecordingMaker:
    """Draws recordings."""

    def __init__(self, seed):
        self.draw = random.Random(seed)

    def chance(self, one_in):
        return self.draw.randrange(one_in) == 0

    def match(self):
        """A match that binds some fields, or all."""
        bits = [1 << bit for bit in (0, 1, 2, 3, 4, 5, 6, 7, 20, 21)]
        free = sum(bit for bit in bits if not self.chance(2)) & ~(1 << 4 if not self.chance(6) else 0)
        wildcards = free | self.draw.choice([0, 2, 32, 63]) << 14 | self.draw.choice([0, 32]) << 8
        return match_bytes(
            0 if self.chance(12) else wildcards, self.draw.choice([1, 2]), self.draw.choice([5, 0xFFFF]), self.draw.randrange(8),
            self.draw.choice([0x0800, 0x0800, 0x0806]), self.draw.choice([6, 6, 17]), self.draw.choice([0x0A000002, 0x0A000105]),
            self.draw.choice([80, 22]),
        )

    def action(self):
        """An action; a forbidden one and a malformed one now and then (section 5.2.4)."""
        match self.draw.randrange(12):
            case 0:
                return struct.pack(">HHHxx", 1, 8, self.draw.choice([5, 7, 4096]))
            case 1:
                return struct.pack(">HHBxxx", 2, 8, self.draw.choice([3, 8]))
            case 2:
                return struct.pack(">HHxxxx", 3, 8)
            case 3:
                return struct.pack(">HH6s6x", self.draw.choice([4, 5]), 16, bytes(6))
            case 4:
                return struct.pack(">HHI", self.draw.choice([6, 7]), 8, self.draw.choice([0x0A000003, 0x0B000000]))
            case 5:
                return struct.pack(">HHHxx", self.draw.choice([9, 10]), 8, self.draw.choice([80, 22]))
            case 6:
                return struct.pack(">HHH6xI", 11, 16, self.draw.choice(OUT_PORTS), 3)
            case 7 if self.chance(6):
                return self.draw.choice([b"\0\0", struct.pack(">HHI", 12, 8, 0), struct.pack(">HHI", 0xFFFF, 8, 0)])
        return struct.pack(">HHHH", 0, 8, self.draw.choice([1, 2, 3, *OUT_PORTS]), 64)

    def actions(self):
        return b"".join(self.action() for _ in range(self.draw.choice([0, 1, 1, 1, 2, 3])))

    def buffer(self):
        return self.draw.choice([NO_BUFFER, NO_BUFFER, self.draw.randrange(6)])

    def flow_mod(self, match=None):
        command = self.draw.choice([0, 0, 0, 1, 2, 3, 4, 4 + self.draw.randrange(3)])
        flags = self.draw.choice([0, 1, 1, 2, 3, 4])
        fields = (9, command, 5, 6, self.draw.randrange(2), self.buffer(), self.draw.choice([NO_PORT, 2]), flags)
        return (match or self.match()) + struct.pack(">QHHHHIHH", *fields) + self.actions()

    def packet_out(self):
        actions, in_port = self.actions(), self.draw.choice([1, 2, NO_PORT, 0xFFFD, 9])
        return struct.pack(">IHH", self.buffer(), in_port, len(actions)) + actions + self.draw.choice(PACKETS)

    def stats_request(self):
        kind = self.draw.choice([0, 1, 1, 2, 3, 4, 5, 6, 0xFFFF])
        port = self.draw.choice([1, 2, 0xFFFC, NO_PORT])
        asked = self.match() + struct.pack(">BxH", 0xFF, NO_PORT)
        body = {1: asked, 2: asked, 4: struct.pack(">H6x", port), 5: struct.pack(">HxxI", port, NO_BUFFER)}
        return struct.pack(">HH", kind, 0) + body.get(kind, b"")

    def slice_message(self, xid):
        kind, body = self.draw.choice([
            (14, self.flow_mod()), (14, self.flow_mod()), (13, self.packet_out()), (13, self.packet_out()),
            (16, self.stats_request()), (18, b""), (20, struct.pack(">Hxx", self.draw.choice([1, 2, 9]))),
            (9, struct.pack(">HH", self.chance(4), self.draw.choice([0, 20, 0xFFFF]))), (7, b""), (5, b""), (2, b"echo"),
            (self.draw.randrange(23), bytes(4 * self.draw.randrange(3))),
        ])
        return self.damaged(message(kind, xid, body))

    def damaged(self, data):
        """Rarely another version, a length that can't be, or a byte that is another."""
        if self.chance(60):
            return bytes([self.draw.choice([0, 2])]) + data[1:]
        if self.chance(120):
            return data[:2] + struct.pack(">H", self.draw.randrange(8)) + data[4:8]
        if self.chance(30):
            at = self.draw.randrange(8, len(data) + 8)
            return data[:at] + bytes([self.draw.randrange(256)]) + data[at + 1 :] if at < len(data) else data
        return data

    def xid(self):
        """The transaction id that a request may have."""
        return self.draw.choice([*SLOTS, 255]) << 24 | self.draw.randrange(8)

    def packet_in(self):
        data = self.draw.choice(PACKETS)
        if self.chance(4):
            data = LLDP.ljust(52, b"\0") + b"FVSL" + bytes([self.draw.randrange(4), 0, 0, 0])
        buffer = self.draw.choice([NO_BUFFER, self.draw.randrange(4)])
        return 10, struct.pack(">IHHBx", buffer, len(data), self.draw.choice([1, 2]), self.draw.randrange(2)) + data

    def stats_reply(self):
        kind = self.draw.choice([0, 1, 1, 1, 4, 5])
        entry = {
            0: lambda: bytes(1056 - self.chance(4)),
            1: lambda: struct.pack(">HBx", 88, 0) + self.match() + bytes(28) + struct.pack(">QQ", 1, (1 << 64) - 1),
            4: lambda: struct.pack(">H102x", self.draw.choice([1, 2])),
            5: lambda: struct.pack(">H30x", self.draw.choice([1, 2])),
        }[kind]
        entries = b"".join(entry() for _ in range(1 if kind == 0 else self.draw.randrange(4)))
        return 17, struct.pack(">HH", kind, self.chance(3)) + entries

    def error(self, xid):
        match = self.match()
        cause = message(14, xid, match + struct.pack(">QHHHHIHH", 9, 0, 5, 6, self.draw.randrange(2), NO_BUFFER, NO_PORT, 1))
        return 1, struct.pack(">HH", 3, self.draw.randrange(3)) + self.draw.choice([cause, cause[:64], b"short"])

    def switch_message(self):
        xid = self.xid()
        removed = self.match() + struct.pack(">QHBxIIHxxQQ", 9, self.draw.randrange(2), 0, 1, 2, 3, 4, 5)
        port = struct.pack(">B7xH22xI20x", self.draw.choice([0, 1, 2, 2, 3]), self.draw.choice([1, 2, 3, 4, 0xFFFB]), 16 * self.chance(2))
        kind, body = self.draw.choice([
            self.packet_in(), self.packet_in(), self.packet_in(), self.packet_in(), self.stats_reply(), self.stats_reply(), self.error(xid),
            (11, removed), (12, port), (19, b""), (21, struct.pack(">H6x", self.draw.choice([1, 2])) + b"queue"), (2, b"echo"),
            (self.draw.randrange(23), bytes(self.draw.randrange(3))),
        ])
        return self.damaged(message(kind, xid, body))

    def features(self):
        ports = b"".join(struct.pack(">H22xI20x", port, 16 * self.chance(4)) for port in PORTS)
        return message(6, 0xFF000001, struct.pack(">QIB3xII", self.draw.choice([0xA1, 0xB2]), 300, 2, 3, 0xFFF) + ports)

    def pieces(self, kind, moment, data, **where):
        """Records of some bytes, cut now and then."""
        at = self.draw.randrange(len(data) + 1) if self.chance(5) else len(data)
        return [record(kind, moment, data[:at], **where), *([record(kind, moment, data[at:], **where)] if at < len(data) else [])]

    def session(self, switch, count):
        """The records of a switch, from its up on."""
        up, records = set(), [record(SWITCH_UP, 0, switch=switch), record(SWITCH_BYTES, 0, self.features(), switch=switch)]
        for number in range(count):
            moment, slot = 300 * number + self.draw.randrange(900), self.draw.choice(SLOTS)
            if slot not in up or self.chance(40):
                records.append(record(SLICE_DOWN if slot in up else SLICE_UP, moment, slot=slot, switch=switch))
                up ^= {slot}
            elif self.chance(2):
                records += self.pieces(SLICE_BYTES, moment, self.slice_message(number), slot=slot, switch=switch)
            else:
                records += self.pieces(SWITCH_BYTES, moment, self.switch_message(), switch=switch)
        return [*records, record(SWITCH_DOWN, 0, switch=switch)]

    def recording(self, count):
        """The bytes of a recording: sessions of two switches, one of which comes a second time."""
        sessions = [self.session(switch, count) for switch in (0, 3, 0)]
        return recording(*(one for records in sessions for one in records))
