"""`flowvisor-tool show` of captures: a line for each message, and what is said of connections that aren't there whole."""
import pathlib
import re
import tempfile
import unittest

from running import EXAMPLES, run_tool

from from_pcap_cases import OPTIONS, POLICY, small_run
from made_captures import ECHO, HELLO, pcap, switch_talk, timed
from watched import SWITCH, Scene

from devices.messages import Kind
from devices.traffic import ACK, FIN, RST
from sunworsted import message

FEATURES = (
    "FEATURES_REPLY xid=0xff000001 datapath_id=00000000000000a1 n_buffers=256 n_tables=1 capabilities=0 "
    "actions=output+set_vlan_vid+set_vlan_pcp+strip_vlan+set_dl_src+set_dl_dst+set_nw_src+set_nw_dst+set_nw_tos+set_tp_src+"
    "set_tp_dst+enqueue"
)
SMALL_RUN = f"""\
2 1ms switch 10.0.0.9:40000 up
4 3ms to switch 10.0.0.9:40000 HELLO xid=0x00000001
5 4ms from switch 10.0.0.9:40000 HELLO xid=0x00000001
5 4ms from switch 10.0.0.9:40000 {FEATURES}
7 6ms alice 10.0.0.1:50000 up
9 8ms to alice 10.0.0.1:50000 HELLO xid=0x00000001
10 9ms from alice 10.0.0.1:50000 HELLO xid=0x00000001
13 12ms bob 10.0.0.1:50001 up
14 13ms to bob 10.0.0.1:50001 HELLO xid=0x00000001
15 14ms from bob 10.0.0.1:50001 HELLO xid=0x00000001
16 15ms from bob 10.0.0.1:50001 ECHO_REQUEST xid=0x00000002 data=aabbccdd
17 16ms alice 10.0.0.1:50000 ended by the controller
19 18ms from switch 10.0.0.9:40000 ECHO_REQUEST xid=0x00000002 data=aabbccdd
end 19
"""
LATE = "was open before the capture began: which switch it is isn't known where it doesn't send its features again"


class Captures(unittest.TestCase):
    def setUp(self):
        place = tempfile.TemporaryDirectory()
        self.addCleanup(place.cleanup)
        self.folder = pathlib.Path(place.name)
        self.policy = self.folder / "policy.toml"
        self.policy.write_text(POLICY)

    def show(self, capture, *words):
        """What is shown of a capture, without numbers and timestamps, and the status."""
        path = self.folder / "capture"
        path.write_bytes(capture)
        return run_tool("show", *words, path)

    def told(self, packets):
        """The same of packets of one switch, each without its number and timestamp, and without its name."""
        outcome = self.show(pcap(timed(packets)), "--switch-port", "6633")
        self.assertEqual((outcome.status, outcome.err), (0, ""))
        return [line.partition("ms ")[2].replace("switch 10.0.0.9:40000 ", "") for line in outcome.out.splitlines()[:-1]]

    def test_the_small_run(self):
        capture = pcap(timed(small_run()[0]))
        named = self.show(capture, "--switch-port", "6633", "--policy", self.policy)
        self.assertEqual((named.status, named.out, named.err), (0, SMALL_RUN, ""))
        slots = self.show(capture, *OPTIONS).out
        self.assertEqual(slots, SMALL_RUN.replace("alice", "slot 0").replace("bob", "slot 1"))
        switch = [line for line in SMALL_RUN.splitlines() if "switch" in line or line.startswith("end")]
        self.assertEqual(self.show(capture, "--switch-port", "6633").out.splitlines(), switch)
        self.assertEqual(self.show(capture, "--switch-port", "1").out, "end 19\n")

    def test_ends(self):
        talk = switch_talk()
        for flags, side, text in (
            (FIN | ACK, talk.from_client, "ended by the switch"), (FIN | ACK, talk.from_server, "ended by the proxy"),
            (RST, talk.from_client, "reset by the switch"), (RST | ACK, talk.from_server, "reset by the proxy"),
        ):
            self.assertEqual(self.told([*talk.opening(), side(0, b"", flags)]), ["up", text])
        self.assertEqual(self.told([talk.syn(), talk.from_server(-1, b"", RST | ACK)]), ["refused by the proxy"])
        again = switch_talk(first_of_client=77)
        self.assertEqual(self.told([*talk.opening(), again.syn()]), ["up", "ended: another connection has its ports"])

    def test_a_capture_that_begins_late(self):
        talk = switch_talk()
        said = [talk.from_client(0, HELLO + ECHO), talk.from_server(0, HELLO, seen=20)]
        echo = "from ECHO_REQUEST xid=0x00000002 data=aabbccdd"
        self.assertEqual(self.told(said), [LATE, "from HELLO xid=0x00000001", echo, "to HELLO xid=0x00000001"])
        self.assertEqual(self.told([talk.from_client(4, (HELLO + ECHO)[4:])]), [LATE, "from 4 bytes of no whole message", echo])
        self.assertEqual(self.told([talk.from_client(4, bytes(30))]), [LATE, "from 30 bytes of no whole message"])
        self.assertEqual(self.told([talk.from_client(4, b"", FIN | ACK), talk.from_client(4, b"", RST)]), [])

    def test_bytes_that_are_missing(self):
        talk = switch_talk()
        behind = [*talk.opening(HELLO), talk.from_client(8 + 1000, ECHO)]
        self.assertEqual(self.told(behind), [
            "up", "from HELLO xid=0x00000001", "from 1000 bytes are missing", "from ECHO_REQUEST xid=0x00000002 data=aabbccdd"])
        self.assertEqual(self.told([*talk.opening(HELLO[:5])]), ["up", "from 5 bytes of a message that isn't whole"])

    def test_a_length_that_cannot_be(self):
        talk = switch_talk()
        self.assertEqual(self.told([*talk.opening(HELLO + bytes.fromhex("0102000400000001") + bytes(9))]), [
            "up", "from HELLO xid=0x00000001", "from 17 bytes of a length of 4 that can't be"])

    def test_another_version(self):
        talk = switch_talk()
        told = self.told([*talk.opening(bytes.fromhex("0400000800000001")), talk.from_client(8, bytes.fromhex("0163000800000001"))])
        self.assertEqual(told, [
            "up", "from HELLO xid=0x00000001 version=4", "from type 99 xid=0x00000001 malformed (no such type): 0163000800000001"])

    def test_captures_that_cannot_be_read(self):
        capture = pcap(timed(small_run()[0]))
        outcome = self.show(capture[:-3], "--switch-port", "6633")
        self.assertEqual((outcome.status, len(outcome.out.splitlines())), (1, 4))
        self.assertTrue(outcome.err.endswith("packet 19: the capture is cut off before this packet's end\n"), outcome.err)
        outcome = self.show(bytes.fromhex("a1b2c3d4") + bytes(20))
        self.assertTrue(outcome.err.endswith("capture: the capture is of pcap's version 0.0, and 2.4 is read\n"), outcome.err)

    def test_words(self):
        for words, text in (
            (["--slice", "carol=10.0.0.5:1"], "'carol' is no slot, and a name needs --policy"),
            (["--switch-port", "x"], "'x' isn't [ADDRESS:]PORT"),
        ):
            outcome = self.show(pcap(timed(small_run()[0])), *words)
            self.assertEqual((outcome.status, outcome.out), (2, ""))
            self.assertIn(text, outcome.err)

    def test_what_to_pcap_writes(self):
        """The messages of a report with its recording, made a capture, are those that are shown of both."""
        path = self.folder / "capture"
        report, recording = EXAMPLES / "web-session.report", EXAMPLES / "web-session.rec"
        run_tool("to-pcap", report, "--recording", recording, path)
        slices = ["--slice", "0=10.0.2.1:6653", "--slice", "1=10.0.2.2:6653"]
        lines = re.findall(
            r"^\d+ \d+ms (from|to) (?:switch|slot \d) [\d.:]+ (.*)$",
            run_tool("show", "--switch-port", "10.0.0.1:6653", *slices, path).out, re.MULTILINE)
        of_report = re.findall(r"^\d+ 0 (?:lane|to \w+) (.*)$", run_tool("show", report).out, re.MULTILINE)
        of_recording = re.findall(r"^\d+ 0 \d+ms from (?:switch|slot \d) (.*)$", run_tool("show", recording).out, re.MULTILINE)
        self.assertEqual([text for direction, text in lines if direction == "to"], of_report)
        said = [text for text in of_recording if text not in ("up", "down")]
        self.assertEqual([text for direction, text in lines if direction == "from"], said)

    def test_bounded_lines(self):
        """What was sent is taken as it comes."""
        scene = Scene()
        for _each in range(3000):
            scene.from_switch(message(Kind.ECHO_REQUEST, 1, bytes(4)))
        outcome = self.show(scene.capture())
        self.assertEqual((outcome.status, outcome.out.count("ECHO_REQUEST")), (0, 3000))
        self.assertIn(f"datapath_id={SWITCH:016x}", outcome.out)


if __name__ == "__main__":
    unittest.main()
