"""`flowvisor-tool explain`: who gets a packet, against what a replay gives to whom."""
import pathlib
import random
import re
import struct
import tempfile
import unittest

from program import needs_program, run_program
from running import EXAMPLES, run_tool
from sunworsted import SLICE_UP, SWITCH_BYTES, SWITCH_UP, features_reply, packet_in, record, recording, tcp_packet

from flowvisor_tool.explain import told
from flowvisor_tool.faults import Fault
from flowvisor_tool.fields import Header, packet_text
from flowvisor_tool.frame_header import header_of, probe_slot
from flowvisor_tool.packet_sets import packets_of
from flowvisor_tool.policy_text import read_policy

COUNT = 4000
DATAPATH = 0xA1
NAMES = ["alice", "bob", "carol", "dave"]
FORMS_OF_PACKETS = "it is given by fields, as in_port=1,tcp,tp_dst=80, or by the bytes of a frame in hex"
# Rules of one slice may overlap, and a rule that reads may come behind any; those of two slices differ by their VLAN.
POLICY = """version = 1
{slices}
[[rule]]
priority = 90
switch = "00000000000000a1"
write = "alice"
read = ["dave"]
in_port = 1
dl_vlan = 65535
dl_type = 0x0800
nw_proto = 6
tp_dst = 80
[[rule]]
priority = 90
switch = "00000000000000b2"
write = "alice"
read = ["carol"]
dl_vlan = 65535
[[rule]]
priority = 80
write = "alice"
dl_vlan = 65535
dl_type = 0x0800
nw_dst = "10.0.0.0/30"
[[rule]]
priority = 70
write = "alice"
read = ["carol"]
dl_vlan = 65535
dl_type = 0x0806
nw_proto = 1
nw_src = "10.0.0.1"
[[rule]]
priority = 70
write = "alice"
dl_vlan = 65535
dl_type = 0x0800
nw_proto = 1
tp_src = 8
tp_dst = 0
[[rule]]
priority = 100
write = "bob"
dl_vlan = 10
dl_vlan_pcp = 5
[[rule]]
priority = 95
write = "bob"
read = ["alice", "carol"]
dl_vlan = 10
dl_src = "00:00:00:00:00:01"
dl_dst = "00:00:00:00:00:02"
[[rule]]
priority = 20
write = "bob"
dl_vlan = 10
dl_type = 0x0800
nw_tos = 184
tp_src = 1024
nw_proto = 17
[[rule]]
priority = 9
write = "dave"
dl_vlan = 0
dl_type = 0x05ff
[[rule]]
priority = 5
read = ["carol"]
dl_type = 0x88cc
[[rule]]
priority = 5
read = ["dave"]
in_port = 3
dl_type = 0
[[rule]]
priority = 1
read = ["carol", "dave"]
dl_type = 0x0800
nw_src = "10.0.0.0/8"
"""


def policy_text():
    slices = [f'[[slice]]\nname = "{name}"\ncontroller = "c{slot}:1"' for slot, name in enumerate(NAMES)]
    return POLICY.format(slices="\n".join(slices))


def header_in(text):
    """The header of the packet that a text says."""
    return Header(**{name: value for name, (value, _mask) in packets_of(text).pattern.constraints.items()})


class FrameMaker:
    """Draws frames, of few values in each field, and cut off now and then."""

    def __init__(self, seed):
        self.draw = random.Random(seed)

    def frame(self):
        pick = self.draw.choice
        addresses = bytes(5) + bytes([pick([1, 2, 2])]) + bytes(5) + bytes([pick([1, 1, 2])])
        tag = struct.pack(">HH", 0x8100, pick([0, 5, 5]) << 13 | pick([0, 10, 10])) if pick([True, False]) else b""
        frame = addresses + tag + pick([self.ipv4, self.ipv4, self.ipv4, self.arp, self.other])()
        return frame[: self.draw.randrange(len(frame) + 1)] if pick([False] * 5 + [True]) else frame

    def ipv4(self):
        pick = self.draw.choice
        words = pick([5, 5, 5, 6, 4])
        fragment = pick([0, 0, 0, 0x4000, 0x2000, 1])
        addresses = [10 << 24 | pick([1, 2, 9, 0x10001]), 10 << 24 | pick([0, 1, 3, 4])]
        protocol = pick([1, 6, 6, 17, 47])
        head = struct.pack(">BBHHHBBHII", 0x40 | words, pick([0, 184, 186]), 40, 0, fragment, 64, protocol, 0, *addresses)
        ports = struct.pack(">BBH", pick([8, 0]), 0, 0) if protocol == 1 else struct.pack(">HH", pick([1024, 80]), pick([80, 22]))
        return b"\x08\x00" + head + bytes(4 * max(0, words - 5)) + ports + bytes(12)

    def arp(self):
        pick = self.draw.choice
        return b"\x08\x06" + struct.pack(
            ">HHBBH6sI6sI", 1, 0x0800, 6, 4, pick([1, 2, 257]), bytes(6), 10 << 24 | pick([1, 2]), bytes(6), 10 << 24
        )

    def other(self):
        mark = self.draw.choice([b"FVSL" + bytes([slot, 0, 0, 0]) for slot in (0, 1, 3, 4, 255)] + [b"FVSL\1\0\0\1", bytes(8)])
        snap = struct.pack(">H", 46) + bytes.fromhex("aaaa03000000")
        return self.draw.choice([
            b"\x88\xcc" + bytes(44) + mark, struct.pack(">H", 46) + bytes(46), snap + self.ipv4(), snap + b"\x88\xcc" + mark,
            b"\x86\xdd" + bytes(40), b"\x81\x00" + bytes(4),
        ])


@needs_program
class AgainstReplay(unittest.TestCase):
    """A recording with a packet in each event: the report says which slices got it, and so must explain."""

    def test_drawn_frames(self):
        maker = FrameMaker(3)
        packets = [(maker.draw.choice([1, 1, 2, 3]), maker.frame()) for _ in range(COUNT)]
        with tempfile.TemporaryDirectory() as place:
            policy, recorded = pathlib.Path(place) / "policy.toml", pathlib.Path(place) / "packets.rec"
            policy.write_text(policy_text())
            recorded.write_bytes(self.recorded(packets))
            report = run_program("replay", policy, recorded)
            self.assertEqual(report.returncode, 0, report.stderr)
        got = self.receivers(report.stdout.decode())
        policy = read_policy(policy_text().encode()).policy
        seen = set()
        for event, (in_port, frame) in enumerate(packets, 2 + len(NAMES)):
            lines = list(told(policy, f"in_port={in_port},{frame.hex()}", DATAPATH))
            self.assertEqual(self.explained(lines), got.get(event, []), (in_port, frame.hex()))
            seen.add(lines[1])
        # Each rule of this switch has some of the packets; some are of no rule, or probes of one of three slots.
        self.assertEqual(len(seen), len(policy.rules) - 1 + 1 + 3)

    def recorded(self, packets):
        """A switch with ports 1 to 3, all controllers, and the packets, each in an event of its own."""
        opening = [record(SWITCH_UP, 0), record(SWITCH_BYTES, 0, features_reply(0xFF000001, DATAPATH, (1, 2, 3)))]
        controllers = [record(SLICE_UP, 0, slot=slot) for slot in range(len(NAMES))]
        frames = [record(SWITCH_BYTES, 0, packet_in(0, in_port, frame)) for in_port, frame in packets]
        return recording(*opening, *controllers, *frames)

    def receivers(self, report):
        """The slices that got a packet, by event, in the order of the report."""
        got = {}
        for event, name in re.findall(r"^(\d+) 0 to (\w+) 010a", report, re.MULTILINE):
            got.setdefault(int(event), []).append(name)
        return got

    def explained(self, lines):
        """The slices that get a packet by what the tool says, by their slots."""
        names = re.findall(r"^(?:it is a probe of|written by|read by) (.*?)(?:, and goes.*)?$", "\n".join(lines), re.MULTILINE)
        found = {name for line in names for name in line.split(", ")}
        return [name for name in NAMES if name in found]


class Packets(unittest.TestCase):
    def test_by_fields(self):
        wanted = Header(in_port=1, dl_type=0x0800, nw_proto=6, nw_dst=0x0A000001, tp_dst=80)
        self.assertEqual(header_in("in_port=1,tcp,nw_dst=10.0.0.1,tp_dst=80"), wanted)
        self.assertEqual(header_in("tp_dst=0x50, dl_type=0x800 nw_proto=6,in_port=1,nw_dst=10.0.0.1"), wanted)
        wanted = Header(in_port=0xFFFE, dl_type=0x0806, nw_proto=1, nw_src=0x0A000001, dl_vlan=10, dl_vlan_pcp=3)
        self.assertEqual(header_in("in_port=LOCAL,arp,arp_op=1,arp_spa=10.0.0.1,dl_vlan=10,dl_vlan_pcp=3"), wanted)
        wanted = Header(dl_type=0x0800, nw_proto=1, tp_src=8, dl_src=0x0011223344AA, nw_tos=184)
        self.assertEqual(header_in("icmp,icmp_type=8,icmp_code=0,dl_src=00:11:22:33:44:AA,nw_tos=184"), wanted)

    def test_vlan_tag(self):
        """The tag as newer versions of ovs-ofctl write it, with the bit that says that there is one."""
        self.assertEqual(header_in("vlan_tci=0x0000,tcp"), header_in("tcp"))
        self.assertEqual(header_in("vlan_tci=0xb00a"), header_in("dl_vlan=10,dl_vlan_pcp=5"))

    def test_what_is_no_packet(self):
        for text, why in (
            ("tcp,udp", "udp: nw_proto is 6 already"),
            ("tcp,tp_dst=80,tp_dst=81", "tp_dst=81: tp_dst is 80 already"),
            ("tp_dst=80", "tp_dst needs dl_type 0x0800 beside it"),
            ("ip,nw_proto=47,tp_dst=80", "tp_dst needs nw_proto 1, 6 or 17 beside it"),
            ("dl_vlan_pcp=1", "dl_vlan_pcp needs dl_vlan 0 to 4095 beside it"),
            ("ip,nw_dst=10.0.0.0/33", "nw_dst=10.0.0.0/33: 10.0.0.0/33 is no value of nw_dst"),
            ("ip,nw_dst=10.0.0.0/8,nw_dst=10.0.0.0/9", "nw_dst=10.0.0.0/9: nw_dst is 10.0.0.0/8 already"),
            *((empty, f"the packet is empty: {FORMS_OF_PACKETS}") for empty in ("", " ", ",", " , ")),
            ("dl_vlan=4096", "dl_vlan=4096: 4096 is no value of dl_vlan"),
            ("dl_vlan=1,dl_vlan_pcp=8", "dl_vlan_pcp=8: 8 is no value of dl_vlan_pcp"),
            ("ip,nw_tos=3", "nw_tos=3: 3 is no value of nw_tos"),
            ("vlan_tci=0x000a", "vlan_tci=0x000a: 0x000a is no value of vlan_tci"),
            ("in_port=", "in_port=: nothing is no value of in_port"),
            ("in_port=x,000000000001000000000002", "in_port=x is no port"),
        ):
            with self.assertRaises(Fault) as caught:
                packets_of(text)
            self.assertEqual(str(caught.exception), why)

    def test_text_and_back(self):
        maker = FrameMaker(4)
        for _ in range(COUNT):
            header = header_of(maker.draw.choice([0, 1, 0xFFFE]), maker.frame())
            self.assertEqual(header_in(packet_text(header)), header)

    def test_probes(self):
        frame = bytes(12) + b"\x88\xcc" + bytes(38) + b"FVSL\2\0\0\0"
        self.assertEqual(probe_slot(frame), 2)
        self.assertIsNone(probe_slot(frame[:-1] + b"\1"))
        self.assertIsNone(probe_slot(frame.replace(b"\x88\xcc", b"\x88\xcd")))


class ShownPorts(unittest.TestCase):
    """The number under which a slice is shown a packet's port."""

    def test_writer_and_readers(self):
        text = """version = 2
[[slice]]
name = "alice"
controller = "c:1"
[[slice]]
name = "bob"
controller = "c:2"
[[rule]]
priority = 1
write = "alice"
read = ["bob"]
[[port]]
slice = "alice"
shown = 9
physical = 2
[[port]]
slice = "bob"
switch = "00000000000000a1"
shown = 1
physical = 2
"""
        reading = read_policy(text.encode(), 2)
        self.assertEqual(reading.faults, [])
        alice, bob = "alice is shown port 2 as 9", "bob is shown port 2 as 1"
        lines = list(told(reading.policy, "in_port=2", None))
        shown = [line for line in lines if "is shown" in line]
        self.assertEqual(shown, [f"switch 00000000000000a1: {alice}", f"switch 00000000000000a1: {bob}", f"any other switch: {alice}"])
        self.assertIn("alice is shown port 9 as 2", list(told(reading.policy, "in_port=9", 7)))
        self.assertFalse([line for line in told(reading.policy, "in_port=3", None) if "is shown" in line])


class Command(unittest.TestCase):
    def explain(self, *words):
        return run_tool("explain", *words)

    def test_a_rule(self):
        outcome = self.explain(EXAMPLES / "two-slices.toml", "in_port=1," + tcp_packet(22).hex())
        self.assertEqual(
            outcome.out,
            "packet: tcp,in_port=1,dl_src=00:00:00:00:00:01,dl_dst=00:00:00:00:00:02,nw_src=10.0.0.1,nw_dst=10.0.0.2,"
            "tp_src=1024,tp_dst=22\n"
            "rule 1 (line 19) has it, of priority 50\n"
            "written by bob\n"
            "read by nobody else\n"
            "by dl_type = 2048: the packet has 0x0800\n"
            "by nw_proto = 6: the packet has 6\n"
            "by tp_dst = 22: the packet has 22\n",
        )

    def test_no_rule(self):
        outcome = self.explain(EXAMPLES / "two-slices.toml", "udp,tp_dst=22")
        self.assertEqual(
            outcome.out,
            "packet: udp,tp_dst=22\n"
            "no rule has it: it goes to nobody\n"
            "nearest is rule 1 (line 19)\n"
            "not by nw_proto = 6: the packet has 17\n",
        )

    def test_switches(self):
        with tempfile.NamedTemporaryFile("w", suffix=".toml") as file:
            file.write(policy_text())
            file.flush()
            outcome = self.explain(file.name, "dl_type=0x86dd")
            heads = {line.partition(": ")[0] for line in outcome.out.splitlines()}
            self.assertEqual(heads, {"packet", "switch 00000000000000a1", "switch 00000000000000b2", "any other switch"})
            self.assertIn("switch 00000000000000b2: read by carol\n", outcome.out)
            self.assertIn("any other switch: no rule has it: it goes to nobody\n", outcome.out)
            outcome = self.explain("--switch", "00000000000000B2", file.name, "dl_type=0x86dd")
            self.assertIn("\nread by carol\nby switch = ", outcome.out)

    def test_a_rule_that_takes_all(self):
        policy = policy_text() + '[[rule]]\npriority = 0\nread = ["bob"]\n'
        with tempfile.NamedTemporaryFile("w", suffix=".toml") as file:
            file.write(policy)
            file.flush()
            out = self.explain("--switch", "00000000000000a1", file.name, "dl_vlan=10,dl_vlan_pcp=4").out
        self.assertRegex(out, (
            r"\Apacket: .*\nrule 12 .* has it, of priority 0\nwritten by nobody\nread by bob\nby no field: it has every packet\n"
            r"nearest before it is rule 5 \(line \d+\)\nnot by dl_vlan_pcp = 5: the packet has 4\n\Z"
        ))

    def test_a_rule_of_a_divided_slice(self):
        inner = """version = 1
[[slice]]
name = "carol"
controller = "c:3"
[[rule]]
priority = 1
write = "carol"
dl_type = 2048
nw_src = "10.0.0.0/8"
[[rule]]
priority = 0
write = "carol"
nw_tos = 4
dl_type = 2048
"""
        with tempfile.NamedTemporaryFile("w", suffix=".toml") as file:
            file.write(inner)
            file.flush()
            outer = EXAMPLES / "two-slices.toml"
            of_both = self.explain("--under", outer, "alice", file.name, "tcp,nw_src=10.0.0.1,tp_dst=80").out
            of_one = self.explain("--under", outer, "alice", file.name, "tcp,nw_src=10.0.0.1,tp_dst=22").out
            of_none = self.explain("--under", outer, "alice", file.name, "udp,tp_dst=80").out
            unknown = self.explain("--under", outer, "zoe", file.name, "udp,tp_dst=80")
        self.assertEqual(of_both.splitlines()[1:], [
            "flat rule 0 has it, of priority 2", f"it comes from rule 0 (line 12) of {outer} and rule 0 (line 5) of {file.name}",
            "written by carol", "read by nobody else", "by dl_type = 2048: the packet has 0x0800", "by nw_proto = 6: the packet has 6",
            'by nw_src = "10.0.0.0/8": the packet has 10.0.0.1', "by tp_dst = 80: the packet has 80",
        ])
        self.assertEqual(of_one.splitlines()[1:3], ["flat rule 2 has it, of priority 0", f"it comes from rule 1 (line 19) of {outer}"])
        self.assertEqual(of_none.splitlines()[1:3], ["no rule has it: it goes to nobody", "nearest is flat rule 0"])
        self.assertEqual((unknown.status, unknown.err), (1, f"flowvisor-tool: {outer}: no slice of it is called zoe\n"))

    def test_a_line_of_dump_flows(self):
        flow = (
            " cookie=0x0, duration=2.048s, table=0, n_packets=0, n_bytes=0, idle_timeout=60, idle_age=2, priority=10,"
            "tcp,in_port=1,nw_dst=10.0.0.0/8,tp_dst=22 actions=mod_nw_dst:10.0.0.1,output:2\n"
        )
        self.assertEqual(
            self.explain(EXAMPLES / "two-slices.toml", flow).out,
            "flow: tcp,in_port=1,nw_dst=10.0.0.0/8,tp_dst=22\n"
            "rule 1 (line 19) has it, of priority 50\n"
            "written by bob\n"
            "read by nobody else\n"
            "by dl_type = 2048: the flow has 0x0800\n"
            "by nw_proto = 6: the flow has 6\n"
            "by tp_dst = 22: the flow has 22\n",
        )
        self.assertEqual(
            self.explain(EXAMPLES / "two-slices.toml", "table=0, n_packets=0, vlan_tci=0x0000/0x1fff,udp actions=drop").out,
            "flow: udp,vlan_tci=0x0000\nno rule has it: it goes to nobody\nnearest is rule 0 (line 12)\n"
            "not by nw_proto = 6: the flow has 17\n",
        )

    def test_packets_of_several_rules(self):
        for packets, why in (
            ("priority=0 actions=drop", "any packet: some packets go by rule 0 (line 12), rule 1 (line 19), and others by no rule; say more of the flow"),
            ("tcp,nw_src=10.0.0.0/8,actions=drop",
             "tcp,nw_src=10.0.0.0/8: some packets go by rule 0 (line 12), rule 1 (line 19), and others by no rule; say more of the flow"),
        ):
            outcome = self.explain(EXAMPLES / "two-slices.toml", packets)
            self.assertEqual((outcome.status, outcome.out, outcome.err), (1, "", f"flowvisor-tool: {why}\n"))
        with tempfile.NamedTemporaryFile("w", suffix=".toml") as file:
            file.write(policy_text())
            file.flush()
            packet = "tcp,nw_dst=10.0.0.0/29,tp_dst=22,nw_src=10.0.0.0/28"
            outcome = self.explain("--switch", "00000000000000a1", file.name, packet)
            self.assertRegex(outcome.err, r": on switch 0{14}a1 packets go by rule 2 \(line \d+\) and by rule 11 \(line \d+\); say more of the packet\n")
            outcome = self.explain("--switch", "00000000000000a1", file.name, packet.replace("/29", "/30"))
            self.assertIn("rule 2 (line ", outcome.out)
            self.assertIn(': the packet has 10.0.0.0/30\n', outcome.out)

    def test_a_refused_policy(self):
        with tempfile.NamedTemporaryFile("w", suffix=".toml") as file:
            outcome = self.explain(file.name, "tcp")
            self.assertEqual(
                (outcome.status, outcome.out, outcome.err),
                (1, "", f"flowvisor-tool: {file.name}: it isn't accepted: flowvisor-tool lint prints why\n"),
            )

    def test_other_words(self):
        self.assertEqual(self.explain("--switch", "a1", EXAMPLES / "two-slices.toml", "tcp").status, 2)
        self.assertEqual(self.explain(EXAMPLES / "two-slices.toml", "tcp,nonsense").status, 1)
