"""The wire of OpenFlow 1.0: matches, actions, packets, and messages in one line each."""
import pathlib
import random
import re
import shutil
import struct
import subprocess
import tempfile
import unittest

from running import EXAMPLES
from sunworsted import features_reply, message, packet_in, tcp_packet

from flowvisor_tool.openflow.actions import actions_text
from flowvisor_tool.openflow.framing import Frames
from flowvisor_tool.openflow.matches import SHIFTS, Match, Wildcard
from flowvisor_tool.openflow.messages import message_text
from flowvisor_tool.openflow.packets import summary
from flowvisor_tool.openflow.protocol import Malformed, MessageType
from flowvisor_tool.reports import What, lines_of

ANY = "003fffff" + "00" * 36
FREE = 0x3FFFFF


def match_text(wildcards, **fields):
    """The text of a match with these fields, and zeros in all others."""
    zeros = dict(
        in_port=0, dl_src=bytes(6), dl_dst=bytes(6), dl_vlan=0, dl_vlan_pcp=0, dl_type=0, nw_tos=0, nw_proto=0, nw_src=0,
        nw_dst=0, tp_src=0, tp_dst=0,
    )
    return str(Match(wildcards, **{**zeros, **fields}))


class Matches(unittest.TestCase):
    def test_all_free(self):
        self.assertEqual(str(Match.of(bytes.fromhex(ANY))), "any")
        self.assertEqual(match_text(0xFFFFFFFF), "any")

    def test_port_protocol_and_network(self):
        bound = FREE & ~(1 | 1 << 4 | 1 << 5 | 1 << 7 | 0x3F << 14) | 24 << 14
        text = match_text(bound, in_port=1, dl_type=0x0800, nw_proto=6, nw_dst=0x0A000000, tp_dst=80)
        self.assertEqual(text, "tcp,in_port=1,nw_dst=10.0.0.0/8,tp_dst=80")

    def test_every_field(self):
        text = match_text(
            0, in_port=0xFFFE, dl_src=bytes(range(6)), dl_dst=bytes(range(6, 12)), dl_vlan=5, dl_vlan_pcp=3, dl_type=0x0800,
            nw_tos=184, nw_proto=17, nw_src=0x0A000001, nw_dst=0x0A000002, tp_src=53, tp_dst=1024,
        )
        self.assertEqual(
            text, "udp,in_port=LOCAL,dl_vlan=5,dl_vlan_pcp=3,dl_src=00:01:02:03:04:05,dl_dst=06:07:08:09:0a:0b,"
            "nw_src=10.0.0.1,nw_dst=10.0.0.2,nw_tos=184,tp_src=53,tp_dst=1024",
        )

    def test_types(self):
        kind, protocol = 1 << 4, 1 << 5
        self.assertEqual(match_text(FREE & ~kind, dl_type=0x0800), "ip")
        self.assertEqual(match_text(FREE & ~kind, dl_type=0x88CC), "dl_type=0x88cc")
        self.assertEqual(match_text(FREE & ~(kind | protocol), dl_type=0x0806, nw_proto=1), "arp,arp_op=1")
        self.assertEqual(match_text(FREE & ~(kind | protocol), dl_type=0x0800, nw_proto=47), "ip,nw_proto=47")
        icmp = match_text(FREE & ~(kind | protocol | 3 << 6), dl_type=0x0800, nw_proto=1, tp_src=8)
        self.assertEqual(icmp, "icmp,icmp_type=8,icmp_code=0")
        arp = match_text(FREE & ~(kind | 0x3F << 8), dl_type=0x0806, nw_src=0x0A000001)
        self.assertEqual(arp, "arp,arp_spa=10.0.0.1")
        self.assertEqual(match_text(FREE & ~(2 | kind), dl_vlan=0xFFFF, dl_type=0x86DD), "ipv6,vlan_tci=0x0000")


# What drawn matches bind a field to.
DRAWN = {
    "in_port": (1, 0xFF00, 0xFFFE), "dl_vlan": (0, 5, 4095, 0xFFFF), "dl_vlan_pcp": range(8), "dl_src": (bytes(range(6)),),
    "dl_dst": (bytes(range(6, 12)),), "dl_type": (0x0800, 0x0800, 0x0800, 0x0806, 0x8035, 0x86DD, 0x88CC),
    "nw_tos": range(0, 256, 4), "nw_proto": (1, 2, 6, 17, 47), "tp_src": (8, 80), "tp_dst": (0, 53),
}


def drawn_match(rng):
    """A match in which no field is bound without those that it needs: others are left out by ovs-ofctl."""
    bound = {name: rng.choice(values) for name, values in DRAWN.items() if rng.random() < 0.5}
    lengths = {name: rng.choice((0, 8, 24, 32)) for name in ("nw_src", "nw_dst")}
    if bound.get("dl_vlan", 0xFFFF) == 0xFFFF:
        bound.pop("dl_vlan_pcp", None)
    if bound.get("dl_type") not in (0x0800, 0x0806):
        lengths = {"nw_src": 0, "nw_dst": 0}
        bound.pop("nw_proto", None)
    if bound.get("dl_type") != 0x0800:
        bound.pop("nw_tos", None)
    if bound.get("dl_type") != 0x0800 or bound.get("nw_proto") not in (1, 6, 17):
        bound.pop("tp_src", None)
        bound.pop("tp_dst", None)
    wildcards = FREE & ~sum(Wildcard[name.upper()] for name in bound) & ~(0x3F << 8 | 0x3F << 14)
    for name, length in lengths.items():
        wildcards |= (32 - length) << SHIFTS[name]
        bound[name] = rng.getrandbits(32) >> (32 - length) << (32 - length)
    return Match(wildcards, **{name: bound.get(name, bytes(6) if name in ("dl_src", "dl_dst") else 0) for name in Match._fields[1:]})


@unittest.skipUnless(shutil.which("ovs-ofctl"), "ovs-ofctl isn't installed")
class AgreementWithOvs(unittest.TestCase):
    def test_drawn_matches_and_each_action(self):
        rng = random.Random(1)
        actions = [bytes.fromhex(spelled) for spelled in Actions.ROWS if not spelled.startswith("ffff")]
        drawn = [(drawn_match(rng), rng.choice(actions)) for _ in range(1000)]
        with tempfile.NamedTemporaryFile() as file:
            for match, spelled in drawn:
                body = Match.LAYOUT.pack(*match) + struct.pack(">QHHHHIHH", 0, 0, 0, 0, 0x8000, 0xFFFFFFFF, 0xFFFF, 0) + spelled
                file.write(message(MessageType.FLOW_MOD, 1, body))
            file.flush()
            printed = subprocess.run(["ovs-ofctl", "ofp-parse", file.name], capture_output=True, text=True, check=True).stdout
        texts = re.findall(r": ADD (?:table:\d+ )?(.*)", printed)
        self.assertEqual(len(texts), len(drawn))
        for text, (match, spelled) in zip(texts, drawn):
            own = f"{match} actions={actions_text(spelled)}"
            self.assertEqual(text, own.removeprefix("any "))


class Actions(unittest.TestCase):
    ROWS = {
        "": "drop",
        "0000 0008 0002 0000": "output:2",
        "0000 0008 fffd 0080": "CONTROLLER:128",
        "0000 0008 fffb 0000": "FLOOD",
        "0001 0008 0005 0000": "mod_vlan_vid:5",
        "0002 0008 03 000000": "mod_vlan_pcp:3",
        "0003 0008 00000000": "strip_vlan",
        "0004 0010 000102030405 000000000000": "mod_dl_src:00:01:02:03:04:05",
        "0005 0010 000102030405 000000000000": "mod_dl_dst:00:01:02:03:04:05",
        "0006 0008 0a000001": "mod_nw_src:10.0.0.1",
        "0007 0008 0a000001": "mod_nw_dst:10.0.0.1",
        "0008 0008 b8 000000": "mod_nw_tos:184",
        "0009 0008 0050 0000": "mod_tp_src:80",
        "000a 0008 0050 0000": "mod_tp_dst:80",
        "000b 0010 0001 000000000000 00000003": "enqueue:1:3",
        "ffff 0010 00002320 0102030405060708": "vendor:0x00002320:0102030405060708",
        "0003 0008 00000000 0000 0008 0001 0000": "strip_vlan,output:1",
    }
    FAULTS = {
        "0000": "an action without a head, with 2 left",
        "0000 0000 0000 0000": "an action of length 0, with 8 left",
        "0000 0010 0000 0000": "an action of length 16, with 8 left",
        "000c 0008 0000 0000": "an action of type 12",
        "0004 0008 0000 0000": "SET_DL_SRC of length 8, not 16",
    }

    def test_texts(self):
        for spelled, text in self.ROWS.items():
            self.assertEqual(actions_text(bytes.fromhex(spelled)), text)

    def test_faults(self):
        for spelled, text in self.FAULTS.items():
            with self.assertRaisesRegex(Malformed, text):
                actions_text(bytes.fromhex(spelled))


class Packets(unittest.TestCase):
    ADDRESSES = "000000000002 000000000001 "
    LINE = "00:00:00:00:00:01 > 00:00:00:00:00:02"
    IPV4 = "0800 45 00 0028 0000 {} 40 {} 0000 0a000001 0a000002 "
    ROWS = {
        IPV4.format("0000", "06") + "0400 0050": ", tcp, 10.0.0.1:1024 > 10.0.0.2:80",
        IPV4.format("0000", "01") + "08 00": ", icmp, 10.0.0.1 > 10.0.0.2, type 8 code 0",
        IPV4.format("0000", "2f"): ", ip protocol 47, 10.0.0.1 > 10.0.0.2",
        IPV4.format("0010", "11"): ", udp, 10.0.0.1 > 10.0.0.2, a later fragment",
        "8100 6005 0806 0001 0800 06 04 0001 000000000001 0a000001 000000000000 0a000002":
            ", vlan 5 pcp 3, arp, request 10.0.0.1 > 10.0.0.2",
        "86dd 60000000 0000 06 40" + "fd" + "00" * 14 + "01" + "fd" + "00" * 14 + "02": ", ipv6, fd00::1 > fd00::2",
        "88cc": ", lldp",
        "9999": ", type 0x9999",
        "0026 aaaa03000000 88cc": ", lldp",
        "0026 424203": ", without a type",
    }

    def test_texts(self):
        for spelled, text in self.ROWS.items():
            self.assertEqual(summary(bytes.fromhex(self.ADDRESSES + spelled)), self.LINE + text)

    def test_cut_off_anywhere(self):
        for spelled in self.ROWS:
            whole = bytes.fromhex(self.ADDRESSES + spelled)
            for size in range(len(whole)):
                summary(whole[:size])
        self.assertEqual(summary(b""), "cut off")
        self.assertEqual(summary(tcp_packet(80)[:30]), f"{self.LINE}, ip, cut off")


class Messages(unittest.TestCase):
    def assert_text(self, kind, body, text):
        self.assertEqual(message_text(message(kind, 0x2A, bytes.fromhex(body))), f"{kind.name} xid=0x0000002a {text}".rstrip())

    def test_of_each_type(self):
        kinds = MessageType
        match = "0038204f" + "00" * 18 + "0800 0006" + "00" * 12 + "0050"
        flow = "0060 00 00" + match + "00000005 00000001 000a 003c 0000 000000000000" + "00" * 7 + "07" + "00" * 7 + "02" + "00" * 7 + "78"
        for kind, body, text in (
            (kinds.HELLO, "", ""),
            (kinds.ECHO_REQUEST, "616263", "data=616263"),
            (kinds.ERROR, "0001 0008 010d0018 0000002b", "type=OFPET_BAD_REQUEST code=OFPBRC_BUFFER_UNKNOWN data=[PACKET_OUT xid=0x0000002b length=24]"),
            (kinds.ERROR, "0003 0004", "type=OFPET_FLOW_MOD_FAILED code=OFPFMFC_BAD_COMMAND data=none"),
            (kinds.ERROR, "0000 0000 6e6f2076657273696f6e", 'type=OFPET_HELLO_FAILED code=OFPHFC_INCOMPATIBLE data="no version"'),
            (kinds.ERROR, "0009 0001", "type=9 code=1 data=none"),
            (kinds.VENDOR, "00002320 01", "vendor=0x2320 data=01"),
            (kinds.SET_CONFIG, "0001 0080", "flags=frag_drop miss_send_len=128"),
            (kinds.PACKET_OUT, "ffffffff 0001 0008 0000000800020000 0102",
             "buffer_id=none in_port=1 actions=output:2 packet=2 bytes: cut off"),
            (kinds.FLOW_MOD, ANY + "0000000000000001 0003 0000 0000 8000 ffffffff ffff 0000",
             "command=delete match=any priority=32768 cookie=0x1 idle_timeout=0 hard_timeout=0 buffer_id=none out_port=NONE flags=0"),
            (kinds.FLOW_MOD, ANY + "0000000000000001 0000 000a 0014 8000 00000007 ffff 0003",
             "command=add match=any priority=32768 cookie=0x1 idle_timeout=10 hard_timeout=20 buffer_id=7 out_port=NONE "
             "flags=send_flow_rem+check_overlap actions=drop"),
            (kinds.FLOW_REMOVED, ANY + "0000000000000001 8000 01 00 00000003 00000004 000a 0000" + "00" * 7 + "05" + "00" * 7 + "06",
             "match=any cookie=0x1 priority=32768 reason=hard_timeout duration=3.000000004s idle_timeout=10 packets=5 bytes=6"),
            (kinds.PORT_STATUS, "01" + "00" * 7 + "0002 000000000002" + "6574683000" + "00" * 11 + "00000011 00000301 00000040" + "00" * 12,
             'reason=delete [port=2 hw_addr=00:00:00:00:00:02 name="eth0" config=port_down+no_flood state=link_down+stp_block '
             "curr=ten_gb_fd advertised=0 supported=0 peer=0]"),
            (kinds.PORT_MOD, "0002 000000000002 00000001 00000001 00000000 00000000",
             "port=2 hw_addr=00:00:00:00:00:02 config=port_down mask=port_down advertise=0"),
            (kinds.STATS_REQUEST, "0001 0000" + ANY + "ff 00 ffff", "type=flow flags=0x0 match=any table=all out_port=NONE"),
            (kinds.STATS_REQUEST, "0005 0000 fffc 0000 ffffffff", "type=queue flags=0x0 port=ALL queue=all"),
            (kinds.STATS_REPLY, "0001 0001" + flow + "0000000800020000",
             "type=flow flags=more [match=tcp,tp_dst=80 table=0 duration=5.000000001s priority=10 idle_timeout=60 hard_timeout=0 "
             "cookie=0x7 packets=2 bytes=120 actions=output:2]"),
            (kinds.STATS_REPLY, "0002 0000" + "00" * 7 + "05" + "00" * 7 + "06 00000007 00000000", "type=aggregate flags=0 packets=5 bytes=6 flows=7"),
            (kinds.STATS_REPLY, "0005 0000 0001 0000 00000003" + "00" * 24, "type=queue flags=0 [port=1 queue=3 tx_bytes=0 tx_packets=0 tx_errors=0]"),
            (kinds.STATS_REPLY, "ffff 0000 00002320 01", "type=vendor flags=0 vendor=0x2320 data=01"),
            (kinds.QUEUE_GET_CONFIG_REQUEST, "0001 0000", "port=1"),
            (kinds.QUEUE_GET_CONFIG_REPLY, "0001 000000000000 00000003 0018 0000 0001 0010 00000000 0064 000000000000", "port=1 [queue=3 min_rate=100]"),
            (kinds.BARRIER_REPLY, "", ""),
        ):
            with self.subTest(kind.name):
                self.assert_text(kind, body, text)

    def test_features_and_packets(self):
        text = message_text(features_reply(1, 0xA1, (1,)))
        self.assertTrue(text.startswith("FEATURES_REPLY xid=0x00000001 datapath_id=00000000000000a1 n_buffers=256 n_tables=1 "), text)
        self.assertIn("[port=1 hw_addr=00:00:00:00:00:00 ", text)
        self.assertEqual(
            message_text(packet_in(0, 1, tcp_packet(80))),
            "PACKET_IN xid=0x00000000 buffer_id=none total_len=54 in_port=1 reason=no_match packet=54 bytes: "
            "00:00:00:00:00:01 > 00:00:00:00:00:02, tcp, 10.0.0.1:1024 > 10.0.0.2:80",
        )

    def test_malformed(self):
        for spelled, text in {
            "": "malformed (length 0, less than 8): ",
            "01020304": "malformed (length 4, less than 8): 01020304",
            "0105000900000001 00": "FEATURES_REQUEST xid=0x00000001 malformed (length 9, not 8): 010500090000000100",
            "0105000700000001": "FEATURES_REQUEST xid=0x00000001 malformed (its length says 7, not 8): 0105000700000001",
            "0116000800000001": "type 22 xid=0x00000001 malformed (no such type): 0116000800000001",
            "0110000c00000001 00060000": "STATS_REQUEST xid=0x00000001 malformed (statistics of type 6): 0110000c0000000100060000",
            "0400000800000001": "HELLO xid=0x00000001 version=4",
            "0400000a00000001 0001": "HELLO xid=0x00000001 version=4 data=0001",
        }.items():
            self.assertEqual(message_text(bytes.fromhex(spelled)), text)

    def test_names_are_printable(self):
        port = struct.pack(">H6s16s24x", 1, bytes(6), b'a"\x1b[2J\\\xff')
        self.assertIn(r'name="a\x22\x1b[2J\x5c\xff"', message_text(message(12, 0, bytes(8) + port)))

    def test_any_bytes_have_a_line(self):
        draw = random.Random(1)
        bodies = [line.message[8:] for name in ("first-packet", "web-session") for line in report_lines(name) if line.what is What.MESSAGE]
        for _round in range(5_000):
            body = bytearray(draw.choice(bodies)[: draw.randrange(300)])
            for _change in range(draw.randrange(4)):
                if body:
                    body[draw.randrange(len(body))] = draw.randrange(256)
            text = message_text(message(draw.randrange(24), draw.randrange(1 << 32), bytes(body)))
            self.assertTrue(text.isprintable(), text)


def report_lines(name):
    with open(pathlib.Path(EXAMPLES, f"{name}.report"), "rb") as file:
        return list(lines_of(file, name))


class Framing(unittest.TestCase):
    def test_cut_anywhere(self):
        whole = [message(0, 1, b""), message(2, 2, b"abc"), message(10, 3, bytes(300))]
        data = b"".join(whole)
        for size in (1, 2, 7, 8, 9, 100, 1000):
            frames = Frames()
            pieces = [data[at : at + size] for at in range(0, len(data), size)]
            self.assertEqual([found for piece in pieces for found in frames.messages(piece)], whole)

    def test_length_below_a_header(self):
        frames = Frames()
        bad = bytes.fromhex("0102000700000001")
        self.assertEqual(list(frames.messages(message(0, 1, b"") + bad + message(0, 2, b""))), [message(0, 1, b""), bad])
        self.assertTrue(frames.is_over)
        self.assertEqual(list(frames.messages(message(0, 3, b""))), [])


if __name__ == "__main__":
    unittest.main()
