"""`flowvisor-tool compare`: what a proxy sent, in captures that are built here, beside reports of their recordings."""
import pathlib
import re
import tempfile
import unittest

from running import EXAMPLES, run_tool

import drawn_recordings
from made_captures import pcap, timed
from from_pcap_cases import POLICY, SLICES, small_run
from plain_desk.policy_file import read_policy
from plain_desk.recording import read_records
from plain_desk.report import report_lines

COUNT_OF_RECORDINGS, COUNT_OF_MESSAGES = 8, 120
PROXY = ["--switch-port", "10.0.0.1:6653"]
ADDRESSES = [f"10.0.2.{slot}:6653" for slot in (1, 2, 3)]


def options_of(names):
    """The addresses of slices' controllers in captures of to-pcap."""
    return [*PROXY, *(word for name, address in zip(names, ADDRESSES) for word in ("--slice", f"{name}={address}"))]


class Compared(unittest.TestCase):
    def setUp(self):
        place = tempfile.TemporaryDirectory()
        self.addCleanup(place.cleanup)
        self.recording, self.report, self.capture = (pathlib.Path(place.name) / name for name in ("recording", "report", "capture"))

    def run_whole(self, *words):
        outcome = run_tool(*words)
        self.assertEqual((outcome.status, outcome.err), (0, ""))
        return outcome.out

    def compare(self, options, status=0):
        outcome = run_tool("compare", *options, self.capture, self.report)
        self.assertEqual((outcome.status, outcome.err), (status, ""))
        return outcome.out.splitlines()


class Recordings(Compared):
    """Of drawn recordings captures are made, of these recordings, and of these reports."""

    def test_the_same(self):
        policy = read_policy(drawn_recordings.POLICY)
        names = [one.name for one in policy.slices]
        for seed in range(COUNT_OF_RECORDINGS):
            with self.subTest(seed=seed):
                self.recording.write_bytes(drawn_recordings.RecordingMaker(seed).recording(COUNT_OF_MESSAGES))
                self.write_report(policy)
                self.run_whole("to-pcap", self.report, "--recording", self.recording, self.capture)
                self.run_whole("from-pcap", *options_of(range(len(names))), self.capture, self.recording)
                self.write_report(policy)
                *lines, last = self.compare(options_of(names))
                self.assertEqual(last, f"the same: {len(lines)} connections")
                self.assertTrue(all(line.endswith(" as in the report") for line in lines))
                self.assertEqual(sum(bool(re.match(r"packet \d+: switch [012]: ", line)) for line in lines), 3)

    def write_report(self, policy):
        lines = report_lines(policy, read_records(self.recording.read_bytes(), len(policy.slices)))
        self.report.write_text("".join(f"{line}\n" for line in lines))


class Differences(Compared):
    """The shipped session, with changes in its report."""

    LINES = (EXAMPLES / "web-session.report").read_text().splitlines()
    OPTIONS = options_of(["alice", "bob"])
    SWITCH, ALICE, BOB = (
        "packet 1: switch 0: 47 messages as in the report", "packet 12: switch 0, alice: 45 messages as in the report",
        "packet 16: switch 0, bob: 1 message as in the report",
    )

    def setUp(self):
        super().setUp()
        self.run_whole("to-pcap", EXAMPLES / "web-session.report", "--recording", EXAMPLES / "web-session.rec", self.capture)

    def compared(self, lines, status=0):
        self.report.write_text("".join(f"{line}\n" for line in lines))
        return self.compare(self.OPTIONS, status)

    def place(self, start):
        """Where the first line stands that begins so."""
        return next(place for place, line in enumerate(self.LINES) if line.startswith(start))

    def changed(self, place, *lines):
        return [*self.LINES[:place], *lines, *self.LINES[place + 1 :]]

    def test_none(self):
        self.assertEqual(self.compared(self.LINES), [self.SWITCH, self.ALICE, self.BOB, "the same: 3 connections"])

    def test_another_message_to_a_slice(self):
        place = self.place("11 0 to alice 010a")
        line = self.LINES[place]
        found = self.compared(self.changed(place, line[:-2] + "ff"), 1)
        self.assertEqual([found[0], *found[-2:]], [self.SWITCH, self.BOB, "different: 1 of 3 connections"])
        self.assertEqual(found[1], "packet 12: switch 0, alice: message 4 differs")
        self.assertRegex(found[2], r"\A  captured, packet \d+: PACKET_IN .* buffer_id=1 ")
        self.assertRegex(found[3], r"\A  reported, event 11: PACKET_IN .* buffer_id=1 ")
        self.assertEqual(found[4], "  byte 71 is 0x00, and 0xff in the report")

    def test_an_order_of_two_slices(self):
        """What is sent for one slice may come before what is for another, but not before what is for itself."""
        flow = self.LINES[self.place("10 0 lane 010e")]
        other = flow.replace("lane 010e005000000000", "lane 010e005001000000")
        self.assertNotEqual(flow, other)
        place = self.place("10 0 lane 010e")
        moved = [*self.LINES[:place], *self.LINES[place + 1 : -1], flow.replace("10 0", "99 0"), self.LINES[-1]]
        self.assertIn("packet 1: switch 0: message 6 differs", self.compared(moved, 1))
        self.assertEqual(
            self.compared([*self.LINES[:place], other, *self.LINES[place:]])[0], f"{self.SWITCH}; the report has 1 more behind them")
        own = self.place("2 0 lane 0112")
        moved = [*self.LINES[:own], *self.LINES[own + 1 : place + 1], self.LINES[own], *self.LINES[place + 1 :]]
        self.assertEqual(self.compared(moved)[0], self.SWITCH)

    def test_more_and_fewer_messages(self):
        echo = "89 0 to alice 0103000800000000"
        self.assertEqual(self.compared([*self.LINES[:-1], echo, self.LINES[-1]])[1], f"{self.ALICE}; the report has 1 more behind them")
        place = max(place for place, line in enumerate(self.LINES) if " to alice " in line)
        found = self.compared(self.changed(place), 1)
        self.assertEqual(found[1], "packet 12: switch 0, alice: message 45 differs")
        self.assertEqual(found[3], "  reported: no more messages")

    def test_connections_of_one_alone(self):
        without_bob = [line for line in self.LINES if " to bob " not in line]
        self.assertIn("packet 16: switch 0, bob: the report has no such connection", self.compared(without_bob, 1))
        again = [*self.LINES[:-1], "99 0 to bob 0100000800000000", "99 3 lane 01000008ff000000", "99 3 close alice", self.LINES[-1]]
        found = self.compared(again, 1)
        self.assertEqual(found[-4:], [
            "switch 0, bob: the capture lacks the connection that begins with event 99",
            "switch 3: the capture lacks the connection that begins with event 99",
            "switch 3, alice: the capture lacks the connection that begins with event ?", "different: 3 of 6 connections"])

    def test_a_message_that_is_cut_off(self):
        """The proxy's last segment has the front of a message."""
        packets, _recording = small_run()
        self.capture.write_bytes(pcap(timed(packets)))
        hello = "0100000800000000"
        lines = [f"0 0 lane {hello}", f"1 0 to alice {hello}", f"2 0 to bob {hello}", "end 3"]
        self.report.write_text("".join(f"{line}\n" for line in lines))
        found = self.compare(["--switch-port", "6633", "--slice", "alice=10.0.0.5:6653", "--slice", "bob=10.0.0.6:6654"], 1)
        self.assertEqual(found[0], "packet 1: switch 0: message 1 differs")
        self.assertIn("  byte 7 is 0x01, and 0x00 in the report", found)

    def test_words(self):
        self.report.write_text((EXAMPLES / "web-session.report").read_text())
        for options, why in (
            (PROXY, "--policy or --slice alice=ADDRESS:PORT must say where the controller of alice listens"),
            (self.OPTIONS[:4], "--policy or --slice bob=ADDRESS:PORT must say where the controller of bob listens"),
            (["--switch-port", "6654", *self.OPTIONS[2:]],
             f"{self.capture}: nobody connects to port 6654 in the capture; connections begin: 1 to 10.0.0.1:6653, 1 to 10.0.2.1:6653, 1 to 10.0.2.2:6653"),
        ):
            outcome = run_tool("compare", *options, self.capture, self.report)
            self.assertEqual((outcome.status, outcome.out, outcome.err), (1, "", f"flowvisor-tool: {why}\n"))
        policy = self.recording
        policy.write_text(POLICY)
        words = [*PROXY, "--policy", policy, "--slice", "eve=10.0.0.9:1"]
        self.assertEqual(run_tool("compare", *words, self.capture, self.report).status, 2)
        for line in ("3 1 lane 0102000800000000", "3 1 close alice", "3 1 to alice 0100000800000000", "3 1 down"):
            self.report.write_text(f"{line}\nend 4\n")
            outcome = run_tool("compare", *self.OPTIONS, self.capture, self.report)
            self.assertEqual(outcome.err, f"flowvisor-tool: {self.report}: event 3: switch 1 isn't greeted before it\n")
        self.report.write_text("0 0 lane 010000\nend 1\n")
        outcome = run_tool("compare", *self.OPTIONS, self.capture, self.report)
        self.assertEqual(outcome.err, f"flowvisor-tool: {self.report}: event 0: 010000 is no message\n")
        self.report.write_text("0 0 lane 0100000800000000\n")
        self.assertIn("the report is cut off", run_tool("compare", *self.OPTIONS, self.capture, self.report).err)

    def test_a_policy_names_the_slices(self):
        policy = self.recording
        policy.write_text(POLICY)
        packets, _recording = small_run()
        self.capture.write_bytes(pcap(timed(packets)))
        hello = "0100000800000001"
        self.report.write_text(f"0 0 lane {hello}\n1 0 to alice {hello}\n2 0 to bob {hello}\nend 3\n")
        for options in (["--policy", policy], ["--policy", policy, *SLICES]):
            found = self.compare(["--switch-port", "6633", *options])
            self.assertEqual(found[-1], "the same: 3 connections")


if __name__ == "__main__":
    unittest.main()
