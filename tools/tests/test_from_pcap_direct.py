"""`flowvisor-tool from-pcap --direct` and `--drop`: controllers and switches that speak directly, and messages that are left out."""
import pathlib
import struct
import tempfile
import unittest

# The first, since it puts the folder of the tools on the path.
from running import run_tool

from from_pcap_cases import OPTIONS, POLICY, records_of, small_run
from made_captures import ECHO, Talk, pcap, switch_talk, timed
from program import needs_program, run_program
from sunworsted import (
    SLICE_BYTES, SLICE_DOWN, SLICE_UP, SWITCH_BYTES, SWITCH_DOWN, SWITCH_UP, features_reply, message, packet_in,
    record, recording, tcp_packet,
)

from flowvisor_tool.openflow.protocol import MessageType
from flowvisor_tool.segments import ACK, FIN, RST

HELLO = message(MessageType.HELLO, 1, b"")
ASKED = message(MessageType.FEATURES_REQUEST, 2, b"")
FEATURES = features_reply(2, 0xA1, (1, 2))
BARRIER = message(MessageType.BARRIER_REQUEST, 3, b"")
BARRIER_REPLY = message(MessageType.BARRIER_REPLY, 3, b"")
PACKET = packet_in(0, 1, tcp_packet(80))
MATCH = struct.pack(">I36x", 0x3FFFFF)


def flow_mod(buffer):
    return message(MessageType.FLOW_MOD, 4, MATCH + struct.pack(">QHHHHIHH", 0, 0, 0, 0, 1, buffer, 0xFFFF, 0))


class Speech:
    """A switch that calls its controller, both of which say one thing after another."""

    def __init__(self, talk=None):
        self.talk = talk or Talk("10.0.0.9:40000", "10.0.0.5:6653")
        self.packets = self.talk.opening()
        self.said = {True: 0, False: 0}

    def put(self, by_switch, data=b"", flags=ACK):
        send = self.talk.from_client if by_switch else self.talk.from_server
        self.packets.append(send(self.said[by_switch], data, flags, self.said[not by_switch]))
        self.said[by_switch] += len(data) + bool(flags & FIN)
        return self

    def switch(self, *messages):
        return self.put(True, b"".join(messages))

    def controller(self, *messages):
        return self.put(False, b"".join(messages))


def greeted():
    """Both have said HELLO, and the switch has sent its features: packets 4 to 7, at the timestamps 3 to 6."""
    return Speech().switch(HELLO).controller(HELLO).controller(ASKED).switch(FEATURES)


GREETED = [
    record(SWITCH_UP, 2), record(SWITCH_BYTES, 3, HELLO), record(SWITCH_BYTES, 6, FEATURES), record(SLICE_UP, 6, slot=1),
    record(SLICE_BYTES, 6, HELLO, 1), record(SLICE_BYTES, 6, ASKED, 1),
]
TOLD = "packet 1: switch 0, slot 1: 10.0.0.9:40000 to 10.0.0.5:6653"


class Converted(unittest.TestCase):
    def setUp(self):
        place = tempfile.TemporaryDirectory()
        self.addCleanup(place.cleanup)
        self.folder = pathlib.Path(place.name)
        self.capture, self.recording, self.policy = (self.folder / name for name in ("capture", "recording", "policy.toml"))
        self.policy.write_text(POLICY)

    def convert(self, packets, *options):
        """The recording of packets, and the lines that are printed but the last one."""
        self.capture.write_bytes(pcap(timed(packets)))
        outcome = run_tool("from-pcap", *options, self.capture, self.recording)
        self.assertEqual((outcome.status, outcome.err), (0, ""))
        *lines, size = outcome.out.splitlines()
        spelled = self.recording.read_bytes()
        self.assertEqual(size, f"{len(spelled)} bytes")
        return spelled, lines


class Direct(Converted):
    OPTIONS = ["--switch-port", "6653", "--direct", "1"]

    def assert_recorded(self, packets, records, *lines, options=OPTIONS):
        spelled, told = self.convert(packets, *options)
        self.assertEqual(list(records_of(spelled)), list(records_of(recording(*records))))
        self.assertEqual(told, list(lines))

    def test_the_slice_comes_up_behind_the_features(self):
        self.assert_recorded(greeted().packets, GREETED, TOLD)
        speech = Speech().controller(HELLO, ASKED).switch(HELLO, FEATURES, PACKET).controller(BARRIER)
        self.assert_recorded(speech.packets, [
            record(SWITCH_UP, 2), record(SWITCH_BYTES, 4, HELLO), record(SWITCH_BYTES, 4, FEATURES), record(SLICE_UP, 4, slot=1),
            record(SLICE_BYTES, 4, HELLO, 1), record(SLICE_BYTES, 4, ASKED, 1), record(SWITCH_BYTES, 4, PACKET),
            record(SLICE_BYTES, 5, BARRIER, 1)], TOLD)

    def test_a_name_of_the_policy(self):
        options = ["--switch-port", "10.0.0.5:6653", "--policy", self.policy, "--direct", "bob"]
        self.assert_recorded(greeted().packets, GREETED, TOLD, options=options)

    def test_answers_are_left_out(self):
        config = message(MessageType.GET_CONFIG_REPLY, 5, bytes(4))
        refused = message(MessageType.ERROR, 3, bytes(4))
        echo = message(MessageType.ECHO_REQUEST, 6, b"")
        speech = greeted().controller(BARRIER).switch(BARRIER_REPLY, config, echo, FEATURES, refused).controller(echo)
        speech.switch(message(MessageType.ECHO_REPLY, 6, b""), BARRIER_REPLY, PACKET)
        self.assert_recorded(speech.packets, [
            *GREETED, record(SLICE_BYTES, 7, BARRIER, 1), record(SWITCH_BYTES, 8, echo), record(SLICE_BYTES, 9, echo, 1),
            record(SWITCH_BYTES, 10, PACKET)], TOLD, *(
                f"left out: {count} (answers to the controller)"
                for count in ("1 ERROR", "1 ECHO_REPLY", "1 FEATURES_REPLY", "1 GET_CONFIG_REPLY", "2 BARRIER_REPLY")))

    def test_buffers_are_told(self):
        out = message(MessageType.PACKET_OUT, 7, struct.pack(">IHH", 5, 1, 0))
        speech = greeted().controller(flow_mod(7), flow_mod(0xFFFFFFFF), out)
        messages = [record(SLICE_BYTES, 7, spelled, 1) for spelled in (flow_mod(7), flow_mod(0xFFFFFFFF), out)]
        self.assert_recorded(speech.packets, [*GREETED, *messages], TOLD, "messages that name a packet by the switch's buffer: 2")

    def test_messages_in_pieces(self):
        half = len(FEATURES) // 2
        speech = Speech().switch(FEATURES[:half]).controller(HELLO[:3]).switch(FEATURES[half:]).controller(HELLO[3:])
        self.assert_recorded(speech.packets, [
            record(SWITCH_UP, 2), record(SWITCH_BYTES, 5, FEATURES), record(SLICE_UP, 5, slot=1), record(SLICE_BYTES, 6, HELLO, 1)], TOLD)

    def test_ends(self):
        down = [record(SLICE_DOWN, 7, slot=1), record(SWITCH_DOWN, 7)]
        for by_switch in (True, False):
            for flags in (FIN | ACK, RST | ACK):
                spelled, _lines = self.convert(greeted().put(by_switch, flags=flags).packets, *self.OPTIONS)
                kinds = [(kind, moment) for kind, moment, *_rest in records_of(spelled)][len(GREETED) :]
                self.assertIn(kinds, ([(SWITCH_DOWN, 7)], [(kind, moment) for kind, moment, *_rest in records_of(recording(*down))]))

    def test_a_switch_that_connects_again(self):
        first = greeted().put(True, flags=FIN | ACK).put(False, flags=FIN | ACK)
        second = Speech(Talk("10.0.0.9:40001", "10.0.0.5:6653")).switch(FEATURES)
        spelled, lines = self.convert([*first.packets, *second.packets], *self.OPTIONS)
        up = [(kind, switch) for kind, _moment, _data, _slot, switch in records_of(spelled) if kind in (SWITCH_UP, SLICE_UP, SWITCH_DOWN)]
        self.assertEqual(up, [(SWITCH_UP, 0), (SLICE_UP, 0), (SWITCH_DOWN, 0), (SWITCH_UP, 1), (SLICE_UP, 1)])
        self.assertEqual(lines, [TOLD, "packet 10: switch 1, slot 1: 10.0.0.9:40001 to 10.0.0.5:6653"])

    def test_without_features(self):
        self.assert_recorded(
            Speech().switch(HELLO).controller(HELLO, ASKED).packets, [record(SWITCH_UP, 2), record(SWITCH_BYTES, 3, HELLO)], TOLD,
            "slot 1: no connection is recorded, since no switch sent its features")

    def test_faults(self):
        def assert_fault(packets, text):
            self.capture.write_bytes(pcap(timed(packets)))
            outcome = run_tool("from-pcap", *self.OPTIONS, self.capture, self.recording)
            self.assertEqual((outcome.status, outcome.err), (1, f"flowvisor-tool: {self.capture}: {text}\n"))

        assert_fault(switch_talk().opening(), "nobody connects to port 6653 in the capture; connections begin: 1 to 10.0.0.1:6633")
        call = Talk("10.0.0.9:40000", "10.0.0.5:6653").syn()
        assert_fault([call], "the capture has no connection to the controller's port that both sides took up")
        gap = greeted().packets[:-1] + [Talk("10.0.0.9:40000", "10.0.0.5:6653").from_server(24, ECHO, seen=8)]
        assert_fault(gap, "packet 7: its side sent bytes before it that aren't in the capture")

    def test_words(self):
        for words in (["--slice", "0=10.0.0.5:1"], ["--attach", "1=0"]):
            self.assertEqual(run_tool("from-pcap", *self.OPTIONS, *words, self.capture, self.recording).status, 2)
        for slice_ in ("bob", "32", ""):
            self.assertEqual(run_tool("from-pcap", "--switch-port", "1", "--direct", slice_, self.capture, self.recording).status, 2)

    @needs_program
    def test_the_program_opens_the_slice(self):
        self.convert(greeted().controller(BARRIER).packets, *self.OPTIONS)
        report = run_program("replay", self.policy, self.recording).stdout.decode()
        self.assertIn("3 0 to bob 0100000800000000\n5 0 to bob 01060020", report)
        self.assertIn("6 0 lane 0112000801000000\n", report)


class Dropped(Converted):
    def assert_dropped(self, types, left, *lines):
        packets, _expected = small_run()
        spelled, told = self.convert(packets, *OPTIONS, "--drop", types)
        kinds = (SWITCH_BYTES, SLICE_BYTES)
        self.assertEqual([(kind, data) for kind, _moment, data, _slot, _switch in records_of(spelled) if kind in kinds], left)
        self.assertEqual(told[3:], list(lines))

    def test_types(self):
        features = features_reply(0xFF000001, 0xA1)
        hello = bytes.fromhex("0100000800000001")
        all_left = [(SWITCH_BYTES, hello + features), (SLICE_BYTES, hello), (SLICE_BYTES, hello), (SLICE_BYTES, ECHO), (SWITCH_BYTES, ECHO)]
        self.assert_dropped("PACKET_IN", all_left, "left out: 0 PACKET_IN")
        self.assert_dropped("ECHO_REQUEST", all_left[:3], "left out: 2 ECHO_REQUEST")
        self.assert_dropped("0", [(SWITCH_BYTES, features), *all_left[3:]], "left out: 3 HELLO")
        self.assert_dropped("echo_request,0,200", [(SWITCH_BYTES, features)], "left out: 3 HELLO", "left out: 2 ECHO_REQUEST", "left out: 0 200")

    def test_connections_stay(self):
        packets, expected = small_run()
        spelled, _told = self.convert(packets, *OPTIONS, "--drop", ",".join(map(str, range(22))))
        without = [row for row in records_of(expected) if row[0] not in (SWITCH_BYTES, SLICE_BYTES)]
        self.assertEqual(list(records_of(spelled)), without)

    def test_with_direct(self):
        speech = greeted().controller(BARRIER).switch(BARRIER_REPLY, PACKET)
        spelled, told = self.convert(speech.packets, *Direct.OPTIONS, "--drop", "HELLO,PACKET_IN")
        self.assertEqual([data for _kind, _moment, data, *_rest in records_of(spelled) if data], [FEATURES, ASKED, BARRIER])
        self.assertEqual(told, [TOLD, "left out: 1 BARRIER_REPLY (answers to the controller)", "left out: 2 HELLO", "left out: 1 PACKET_IN"])

    def test_words(self):
        for types in ("", "HELLO,", "NOTHING", "256", "-1", "1 2"):
            outcome = run_tool("from-pcap", *OPTIONS, f"--drop={types}", self.capture, self.recording)
            self.assertEqual(outcome.status, 2)
            self.assertIn(f"argument --drop: {types!r} isn't message types", outcome.err)


if __name__ == "__main__":
    unittest.main()
