"""`flowvisor-tool try`: what becomes of a message of a slice, against what a replay answers it."""
import collections
import pathlib
import re
import tempfile
import unittest

from program import needs_program, run_program
from running import EXAMPLES, run_tool
from sunworsted import SLICE_BYTES, SLICE_UP, SWITCH_BYTES, SWITCH_DOWN, SWITCH_UP, features_reply, record, recording, tcp_packet
from test_explain import DATAPATH, NAMES, FrameMaker, policy_text
from test_watch import UPLINKS

from flowvisor_tool import try_message
from flowvisor_tool.faults import Fault
from flowvisor_tool.flow_text import flow_mod_text
from flowvisor_tool.frame_header import header_of
from flowvisor_tool.made_frames import frame_of
from flowvisor_tool.message_words import COMMANDS, read_message
from flowvisor_tool.policy_text import read_policy
from flowvisor_tool.reports import What, lines_of
from flowvisor_tool.trial import Site, trials
from plain_desk import policy_file

COUNT = 4000
PORTS = (1, 2, 3)
FLOW_MOD = 14
ERROR_BODY = slice(8, 12)

# What is drawn of a flow's words: of each list one.
WORDS = (
    ["", "", "in_port=1", "in_port=2", "in_port=LOCAL"],
    ["", "vlan_tci=0x0000", "vlan_tci=0x0000/0x1fff", "dl_vlan=10", "dl_vlan=10", "vlan_tci=0xb00a", "dl_vlan=0"],
    ["", "", "dl_src=00:00:00:00:00:01,dl_dst=00:00:00:00:00:02", "dl_dst=00:00:00:00:00:02"],
    ["", "priority=0", "priority=10", "priority=65535", "cookie=0x1f", "idle_timeout=60,hard_timeout=5", "send_flow_rem", "check_overlap"],
)
KINDS = (
    [""], ["dl_type=0x88cc"], ["arp"], ["arp", "arp_op=1", "arp_spa=10.0.0.1"], ["ip", "nw_dst=10.0.0.0/30", "nw_tos=184"],
    ["tcp", "tp_dst=80"], ["tcp", "nw_dst=10.0.0.2", "tp_dst=80", "tp_src=80"], ["tcp"], ["udp", "nw_tos=184", "tp_src=1024"],
    ["icmp", "icmp_type=8", "icmp_code=0", "nw_src=10.0.0.0/8"], ["ip", "nw_proto=47", "nw_dst=10.0.0.0/255.255.255.252"],
)
OF_ONE_PACKET = [kind for kind in KINDS if kind[0] and not any("/" in word for word in kind)]
OUTPUTS = [
    "output:1", "1", "output:2", "LOCAL", "output:9", "flood", "ALL", "in_port", "controller", "controller:128", "CONTROLLER(max_len=64)",
    "normal", "output:TABLE", "enqueue:1:7", "enqueue(2,0)", "enqueue:CONTROLLER:1", "output:0xff01",
]
CHANGES = [
    "strip_vlan", "mod_vlan_vid:10", "mod_vlan_vid:4096", "mod_vlan_vid:0", "mod_vlan_pcp:5", "mod_vlan_pcp:8", "mod_tp_dst:80", "mod_tp_dst:81",
    "mod_tp_src:1024", "mod_nw_dst:10.0.0.1", "mod_nw_dst:10.0.9.9", "mod_nw_src:10.0.0.1", "mod_nw_tos:184",
    "mod_dl_src:00:00:00:00:00:01", "mod_dl_dst:00:00:00:00:00:02",
]


class MessageMaker:
    """Draws messages, as they are read."""

    def __init__(self, seed):
        self.frames = FrameMaker(seed)
        self.draw = self.frames.draw

    def actions(self):
        pick = self.draw.choice
        words = [pick(pick([OUTPUTS, OUTPUTS, CHANGES])) for _ in range(pick([0, 1, 1, 2, 3, 4]))]
        return ",".join(words) or "drop"

    def fields(self, lists, kinds):
        pick = self.draw.choice
        kind = pick(kinds)
        words = [pick(words) for words in lists] + kind[: pick([1, len(kind), len(kind)])]
        self.draw.shuffle(words)
        return pick([",", ", ", " "]).join(filter(None, words))

    def packet_out(self):
        port = self.draw.choice(["", "in_port=1,", "in_port=1 ", "in_port=2,packet=", "packet=", "in_port=9,", "in_port=CONTROLLER,", "in_port=LOCAL,"])
        return port + (self.frames.frame().hex() or "00")

    def message(self):
        """What is read of one message: the packet, the actions, the command, and whether fields are those of a packet."""
        match self.draw.randrange(6):
            case 0 | 1:
                return self.packet_out(), self.actions(), None, False
            case 2:
                return self.fields(WORDS[:-1], OF_ONE_PACKET) or "in_port=1", self.actions(), None, True
        return self.fields(WORDS, KINDS) or "priority=1", self.actions(), self.draw.choice([None, None, *COMMANDS]), False


class Trials:
    """The trials of drawn messages under a policy, each by a slice, at a switch with ports 1 to 3."""

    def __init__(self, text, seed, count):
        maker = MessageMaker(seed)
        self.site = Site(read_policy(text.encode()).policy, policy_file.read_policy(text.encode()), DATAPATH, PORTS)
        self.words = [maker.message() for _ in range(count)]
        self.trials = [self.trial(maker.draw.randrange(len(NAMES)), words) for words in self.words]

    def trial(self, slot, words):
        (trial,) = trials(self.site, [slot], read_message(*words))
        return trial

    def recording(self):
        """Each message on a connection of its own: so that nothing was sent before it."""
        features = features_reply(1, DATAPATH, PORTS)
        return recording(*(
            one for trial in self.trials for one in (
                record(SWITCH_UP, 0), record(SWITCH_BYTES, 0, features), record(SLICE_UP, 0, slot=trial.slot),
                record(SLICE_BYTES, 0, trial.message.spelled(), trial.slot), record(SWITCH_DOWN, 0),
            )
        ))


EVENTS_OF_TRIAL, EVENT_OF_MESSAGE = 5, 3


def replayed(policy, data):
    """What a replay has the switch and the slices sent by each event, as lists of bytes."""
    with tempfile.TemporaryDirectory() as place:
        paths = [pathlib.Path(place) / name for name in ("policy", "recording", "report")]
        paths[0].write_text(policy)
        paths[1].write_bytes(data)
        outcome = run_program("replay", *paths[:2])
        assert outcome.returncode == 0, outcome.stderr
        paths[2].write_bytes(outcome.stdout)
        sent = collections.defaultdict(lambda: ([], []))
        with open(paths[2], "rb") as file:
            for line in lines_of(file, "report"):
                if line.what is What.MESSAGE:
                    sent[line.event][line.slice_name is not None].append(line.message)
    return sent


def refusal(error):
    """What the tool says of an error."""
    family, code = error[ERROR_BODY][1], error[ERROR_BODY][3]
    return rf"refused: type {family} \(OFPET_\w+\), code {code} \(OFP\w+\)"


@needs_program
class AgainstReplay(unittest.TestCase):
    def test_drawn_messages(self):
        policy = policy_text()
        drawn = Trials(policy, 5, COUNT)
        sent = replayed(policy, drawn.recording())
        reached = collections.Counter()
        for place, (words, trial) in enumerate(zip(drawn.words, drawn.trials, strict=True)):
            lane, answers = sent[place * EVENTS_OF_TRIAL + EVENT_OF_MESSAGE]
            lines = list(try_message.told(trial))
            with self.subTest(words=words, slot=trial.slot):
                self.assertEqual((list(trial.sent), [trial.error] if trial.error else []), (lane, answers))
                self.assert_told(lines, lane, answers)
            reached[answers[0][ERROR_BODY] if answers else f"sent {min(len(lane), 2)}"] += 1
        errors = {bytes([0, family, 0, code]) for family, code in ((1, 5), (2, 4), (2, 5), (2, 6), (3, 2))}
        self.assertLessEqual({*errors, "sent 0", "sent 1", "sent 2"}, reached.keys())
        self.assertGreater(min(reached.values()), COUNT // 400, reached)

    def assert_told(self, lines, lane, answers):
        """That the lines say what a replay answers, and why."""
        if answers:
            self.assertRegex(lines[0], rf"\A{refusal(answers[0])}\Z")
            self.assertGreater(len(lines), 1)
        elif not lane:
            self.assertEqual(lines[0], "nothing is sent")
            self.assertGreater(len(lines), 1)
        elif lane[0][1] == FLOW_MOD:
            told = [line.partition("): ") for line in lines]
            self.assertEqual([text for _by, _bracket, text in told], [flow_mod_text(frame) for frame in lane])
        else:
            self.assertEqual([line.partition(": ")[2] for line in lines], [try_message.packet_out_text(frame) for frame in lane])

    def test_what_a_flow_says_is_read_again(self):
        """Of each flow that is sent the words say the same."""
        for trial in Trials(policy_text(), 6, COUNT // 10).trials:
            for frame in trial.sent:
                if frame[1] == FLOW_MOD and ",dl_vlan_pcp=0" not in flow_mod_text(frame):
                    command = [None, *list(COMMANDS)[1:]][frame[57]]
                    again = read_message(flow_mod_text(frame), None, command).spelled()
                    self.assertEqual(again[8:].hex(), frame[8:].hex())


TWO_PORTS = """version = 1
[[slice]]
name = "alice"
controller = "c:1"
quota = 1
[[slice]]
name = "bob"
controller = "c:2"
[[rule]]
priority = 2
write = "alice"
in_port = 1
dl_type = 0x0800
nw_dst = "10.1.0.0/16"
[[rule]]
priority = 1
write = "alice"
in_port = 2
dl_type = 0x0800
nw_proto = 6
"""
PACKET = tcp_packet(80).hex()


class Command(unittest.TestCase):
    def setUp(self):
        file = tempfile.NamedTemporaryFile("w", suffix=".toml")
        self.addCleanup(file.close)
        file.write(TWO_PORTS)
        file.flush()
        self.policy = file.name

    def of_alice(self, *words):
        """What is printed behind the message that is tried."""
        outcome = run_tool("try", "--slice", "alice", self.policy, *words)
        self.assertEqual((outcome.status, outcome.err), (0, ""))
        return [line.removeprefix("alice: ") for line in outcome.out.splitlines()[1:]]

    def assert_fault(self, text, *words):
        outcome = run_tool("try", *words)
        self.assertEqual((outcome.status, outcome.out, outcome.err), (1, "", f"flowvisor-tool: {text}\n"))

    def test_a_flow_mod(self):
        outcome = run_tool("try", EXAMPLES / "two-slices.toml", "priority=10,tcp,tp_dst=80,actions=output:2")
        self.assertEqual(
            outcome.out,
            "flow-mod, add: priority=10,tcp,tp_dst=80,actions=output:2\n"
            "alice: sent by rule 0 (line 12): priority=10,send_flow_rem,tcp,tp_dst=80,actions=output:2\n"
            "bob: refused: type 3 (OFPET_FLOW_MOD_FAILED), code 2 (OFPFMFC_EPERM)\n"
            "bob: no rule that it writes has any of its packets\n"
            "bob: nearest is rule 1 (line 19)\n"
            "bob: not by tp_dst = 22: the flow has 80\n",
        )
        self.assertEqual(outcome.status, 0)

    def test_a_packet_out(self):
        outcome = run_tool("try", EXAMPLES / "two-slices.toml", f"in_port=1,{PACKET}", "mod_tp_dst:22,output:2", "--slice", "alice")
        self.assertEqual(
            outcome.out,
            f"packet-out: in_port=1,packet={PACKET},actions=mod_tp_dst:22,output:2\n"
            "alice: refused: type 2 (OFPET_BAD_ACTION), code 6 (OFPBAC_EPERM)\n"
            "alice: by action 2, output:2\n"
            "alice: no one rule that it writes has all of what is sent: tcp,in_port=1,dl_src=00:00:00:00:00:01,"
            "dl_dst=00:00:00:00:00:02,nw_src=10.0.0.1,nw_dst=10.0.0.2,tp_src=1024,tp_dst=22, "
            "the port by which they come in disregarded\n"
            "alice: nearest is rule 0 (line 12)\n"
            "alice: not by tp_dst = 80: the packet has 22\n",
        )

    def test_ports(self):
        rules = "rule 0 (line 9)", "rule 1 (line 15)"
        its = f"its ports are 1 by {rules[0]}, 2 by {rules[1]}"
        port = "refused: type 2 (OFPET_BAD_ACTION), code 4 (OFPBAC_BAD_OUT_PORT)"
        udp = ("udp,nw_dst=10.1.0.1",)
        of_piece = f", of the piece by {rules[0]}"
        for words, why in (
            ([*udp, "output:3"], [f"by action 1, output:3{of_piece}", "port 3 isn't one of its ports", its]),
            ([*udp, "1,local"], [f"by action 2, LOCAL{of_piece}", "port LOCAL isn't one of its ports", its]),
            ([*udp, "normal"], [f"by action 1, NORMAL{of_piece}", "no slice may send to NORMAL"]),
            ([*udp, "output:table"], [f"by action 1, TABLE{of_piece}", "only a packet-out may go through the table"]),
            ([*udp, "enqueue:all:1"], [f"by action 1, enqueue:ALL:1{of_piece}", "only ports of its own, and IN_PORT, have queues that it may name"]),
            ([PACKET.replace("0a000002", "0a010002"), "in_port"],
             ["by action 1, IN_PORT", "its packet comes in by port NONE, which isn't one of its ports", its]),
            (["00" * 12 + "88cc", "table"], ["by action 1, TABLE", "a probe may not go to TABLE"]),
        ):
            self.assertEqual(self.of_alice(*words), [port, *why])
        self.assertEqual(
            self.of_alice(f"in_port=3,{PACKET}", "1"),
            ["refused: type 1 (OFPET_BAD_REQUEST), code 5 (OFPBRC_EPERM)",
             "it comes in by port 3, which is neither one of its ports nor NONE nor CONTROLLER", its])

    def test_other_reasons(self):
        for words, why in (
            (["ip", "drop"], ["type 3 (OFPET_FLOW_MOD_FAILED), code 0 (OFPFMFC_ALL_TABLES_FULL)", "it would have 2 entries, and its quota is 1"]),
            (["udp,nw_dst=10.1.0.1", "mod_vlan_vid:4096"],
             ["type 2 (OFPET_BAD_ACTION), code 5 (OFPBAC_BAD_ARGUMENT)", "by action 1, mod_vlan_vid:4096, of the piece by rule 0 (line 9)",
              "a VLAN is at most 4095"]),
            (["udp,nw_dst=10.1.0.1", "mod_nw_dst:10.2.0.1,1"],
             ["type 2 (OFPET_BAD_ACTION), code 6 (OFPBAC_EPERM)", "by action 2, output:1, of the piece by rule 0 (line 9)",
              "no one rule that it writes has all of what is sent: udp,in_port=1,nw_dst=10.2.0.1, the port by which they come in disregarded",
              "nearest is rule 0 (line 9)", 'not by nw_dst = "10.1.0.0/16": the packet has 10.2.0.1']),
            (["arp", "drop"],
             ["type 3 (OFPET_FLOW_MOD_FAILED), code 2 (OFPFMFC_EPERM)", "no rule that it writes has any of its packets",
              "nearest is rule 0 (line 9)", "not by dl_type = 0x0800: the flow has 0x0806"]),
            (["00" * 12 + "88cc", "strip_vlan"], ["type 2 (OFPET_BAD_ACTION), code 6 (OFPBAC_EPERM)", "by action 1, strip_vlan",
                                                  "a probe may only be sent out by ports, as it is"]),
        ):
            self.assertEqual(self.of_alice(*words), [f"refused: {why[0]}", *why[1:]])
        flood = ",".join(["flood"] * 8000)
        self.assertEqual(
            self.of_alice("--ports", "1,2-4", "udp,in_port=1,nw_dst=10.1.0.1", flood),
            ["refused: type 2 (OFPET_BAD_ACTION), code 7 (OFPBAC_TOO_MANY)",
             "with its ports in the place of FLOOD and ALL the actions have 128000 bytes in each of 1 messages",
             "a list has at most 65463 bytes, a message 65535, and the pieces of a flow-mod 262144 in all"])
        outcome = run_tool("try", "--slice", "bob", self.policy, "ip", "drop")
        self.assertIn("bob: it writes no rule on this switch\n", outcome.out)

    def test_flood_stands_for_the_ports_of_the_slice(self):
        sent = "sent by rule 0 (line 9): priority=32768,send_flow_rem,udp,in_port=1,nw_dst=10.1.0.1,actions=output:1,output:2"
        self.assertEqual(self.of_alice("--ports", "1-3,LOCAL", "udp,in_port=1,nw_dst=10.1.0.1", "flood"), [sent])
        self.assert_fault("flood and all stand for ports that the switch has: --ports says which", self.policy, "udp", "all")

    def test_deletes_need_no_actions(self):
        self.assertEqual(self.of_alice("--command", "delete", "udp,priority=5"), ["sent by rule 0 (line 9): priority=5,udp,in_port=1,nw_dst=10.1.0.0/16"])
        self.assertEqual(self.of_alice("--command", "delete_strict", "arp")[0], "nothing is sent")

    def test_a_packet_by_its_fields(self):
        sent = run_tool("try", "--packet-out", "--slice", "alice", EXAMPLES / "two-slices.toml", "in_port=1,tcp,nw_src=10.0.0.1,tp_dst=80", "2").out
        frame = "00" * 12 + "0800" + "45000018" + "00000000" + "40060000" + "0a000001" + "00000000" + "00000050"
        text = f"in_port=1,packet={frame},actions=output:2"
        self.assertEqual(sent, f"packet-out: {text}\nalice: sent: {text}\n")
        for words, why in (
            (["priority=1,tcp", "1"], "priority: of a flow, not of a packet"), (["ip,nw_dst=10.0.0.0/8", "1"], "a packet has one address, not a network"),
            (["icmp,icmp_type=256", "1"], "the type and the code of ICMP are at most 255"),
            (["dl_type=0x05fe", "1"], "no frame has dl_type 0x05fe: a type is 0x0600 or more"),
            (["dl_vlan=10", "1"], "no frame has dl_type 0x0000 behind a tag: a type is 0x0600 or more"),
            (["--command", "add", "tcp", "1"], "a packet is sent out, and has no command"),
        ):
            self.assert_fault(why, "--packet-out", self.policy, *words)

    def test_frames_have_their_header(self):
        maker = FrameMaker(8)
        for _ in range(COUNT // 4):
            header = header_of(maker.draw.choice([0, 1, 0xFFFE]), maker.frame())
            self.assertEqual(header_of(header.in_port, frame_of(header)), header)

    def test_bytes_of_a_message(self):
        """As the standard has them, spelled by hand."""
        flow = "priority=5,cookie=0x10,idle_timeout=1,hard_timeout=2,out_port=3,send_flow_rem,check_overlap,tcp,in_port=1,nw_src=10.0.0.0/8,tp_dst=80"
        match = "0038184e 0001 000000000000 000000000000 0000 00 00 0800 00 06 0000 0a000000 00000000 0000 0050"
        fields = "0000000000000010 0000 0001 0002 0005 ffffffff 0003 0003"
        actions = "0000 0008 fffd 0080  000b 0010 0001 000000000000 00000007  0004 0010 000000000001 000000000000  0008 0008 b8 000000"
        wanted = bytes.fromhex("01 0e 0078 00000001" + match + fields + actions)
        words = "controller:128,enqueue:1:7,mod_dl_src:00:00:00:00:00:01,mod_nw_tos:184"
        self.assertEqual(read_message(flow, words, None).spelled().hex(), wanted.hex())

    def test_switches(self):
        with tempfile.NamedTemporaryFile("w", suffix=".toml") as file:
            file.write(policy_text())
            file.flush()
            out = run_tool("try", "--slice", "alice", file.name, "vlan_tci=0x0000", "1").out
            heads = {line.split(": ")[0] for line in out.splitlines()[1:]}
            self.assertEqual(heads, {"switch 00000000000000a1", "switch 00000000000000b2", "any other switch"})
            sent = [line for line in run_tool("try", "--switch", "00000000000000b2", file.name, "vlan_tci=0x0000", "1").out.splitlines() if "sent by" in line]
            self.assertTrue(sent and all(re.match(r"alice: sent by rule \d", line) for line in sent), sent)

    def test_ports_of_its_own(self):
        with tempfile.NamedTemporaryFile("w", suffix=".toml") as file:
            file.write(UPLINKS)
            file.flush()
            for words, lines in (
                (["in_port=1", "1"], ["sent by rule 1 (line 12): priority=32768,send_flow_rem,in_port=2,actions=output:2"]),
                (["in_port=2", "actions=output:1"], [
                    "refused: type 3 (OFPET_FLOW_MOD_FAILED), code 2 (OFPFMFC_EPERM)", "below, ports have the switch's own numbers",
                    "no rule that it writes has any of its packets", "nearest is rule 1 (line 12)", "not by in_port = 2: the flow has 1"]),
                (["in_port=1", "2"], [
                    "refused: type 2 (OFPET_BAD_ACTION), code 4 (OFPBAC_BAD_OUT_PORT)", "below, ports have the switch's own numbers",
                    "by action 1, output:1, of the piece by rule 1 (line 12)", "port 1 isn't one of its ports", "its ports are 2 by rule 1 (line 12)"]),
            ):
                told = run_tool("try", "--slice", "bob", file.name, *words).out.splitlines()
                self.assertEqual(told[1:], ["bob: " + line for line in lines])

    def test_what_cannot_be_tried(self):
        for words, why in (
            (["", "1"], "the packet is empty: it is given as a flow, as priority=10,tcp,tp_dst=80, or by the bytes of a frame in hex"),
            (["tcp"], "there are no actions: drop says so"), (["tcp,actions=1", "1"], "the actions stand twice"),
            (["tcp", ""], "there are no actions: drop says so"), (["tcp", "mod_vlan_vid:x"], "mod_vlan_vid:x: x is no value of it"),
            (["tcp", "mod_nw_dst:10.1"], "mod_nw_dst:10.1: 10.1 is no value of it"), (["tcp", "enqueue:x:1"], "enqueue:x:1: x is no port"),
            (["tcp", "controller:65536"], "controller:65536: 65536 is no number up to 65535"), (["in_port=x,00", "1"], "in_port=x is no port"),
            (["priority=65536", "1"], "priority=65536: it is a number from 0 to 65535"), (["out_port=x", "1"], "out_port=x is no port"),
            (["--command", "add", "00", "1"], "a packet is sent out, and has no command"),
            (["--slice", "eve", "tcp", "1"], "the policy has no slice eve: alice, bob"),
            (["tcp", ",".join(["1"] * 9000)], "the message would be longer than 65535 bytes"),
            (["00" * 65530, "1"], "the message would be longer than 65535 bytes"),
        ):
            self.assert_fault(why, self.policy, *words)
        with self.assertRaisesRegex(Fault, r"\Aresubmit\(,0\) is no action of OpenFlow 1.0: output:PORT, .*, mod_tp_dst\Z"):
            read_message("tcp", "1,resubmit(,0)", None)
        for words in (["--ports", "x"], ["--ports", "0xfffd"], ["--ports", "1,"], ["--ports", "1-1365"], ["--command", "mod"], ["--switch", "a1"]):
            self.assertEqual(run_tool("try", *words, self.policy, "tcp", "1").status, 2)


if __name__ == "__main__":
    unittest.main()
