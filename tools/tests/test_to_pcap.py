"""`flowvisor-tool to-pcap`: captures of reports and recordings, read back by from-pcap's own readers, and by tshark where it is."""
import pathlib
import shutil
import subprocess
import tempfile
import unittest

from running import EXAMPLES, run_tool
from sunworsted import features_reply, message, record, recording

from flowvisor_tool.captures import packets_of
from flowvisor_tool.openflow.framing import Frames
from flowvisor_tool.recordings import Kind, events_of, records_of
from flowvisor_tool.reports import What, lines_of
from flowvisor_tool.segments import ACK, FIN, SYN, datagram_of, segment_of

NAMES = ("first-packet", "web-session")
HELLO = message(0, 0, b"")
CONTROLLERS = ["--slice", "0=10.0.2.1:6653", "--slice", "1=10.0.2.2:6653"]


def segments_of(path):
    """The TCP segments of a capture."""
    with open(path, "rb") as file:
        return [(packet, segment_of(packet, datagram_of(packet))) for packet in packets_of(file)]


def messages_of(path):
    """The messages of a capture in their order, each with the time in milliseconds, and the two addresses."""
    frames, found = {}, []
    for packet, segment in segments_of(path):
        ends = segment.source, segment.destination
        for spelled in frames.setdefault(ends, Frames()).messages(segment.payload):
            addresses = tuple(".".join(map(str, end[0])) for end in ends)
            found.append((int(packet.time * 1000), *addresses, spelled))
    return found


def report_of(name):
    with open(EXAMPLES / f"{name}.report", "rb") as file:
        return list(lines_of(file, name))


def events_in(path):
    """The events of a recording."""
    with open(path, "rb") as file:
        events = list(events_of(records_of(file, path)))
    return [(event.record.kind, event.record.switch, event.record.slot, event.record.moment, event.message) for event in events]


class Captures(unittest.TestCase):
    def setUp(self):
        place = tempfile.TemporaryDirectory()
        self.addCleanup(place.cleanup)
        self.folder = pathlib.Path(place.name)
        self.capture = self.folder / "capture"

    def convert(self, *words):
        outcome = run_tool("to-pcap", *words, self.capture)
        self.assertEqual((outcome.status, outcome.err), (0, ""))
        return outcome.out.splitlines()

    def file(self, name, data):
        path = self.folder / name
        path.write_bytes(data)
        return path

    def assert_fault(self, text, *words):
        outcome = run_tool("to-pcap", *words, self.capture)
        self.assertEqual((outcome.status, outcome.out, outcome.err), (1, "", f"flowvisor-tool: {text}\n"))
        self.assertFalse(self.capture.exists())

    def test_a_report_has_its_messages_at_its_events(self):
        addresses = {None: "10.0.1.1", "alice": "10.0.2.1", "bob": "10.0.2.2"}
        for name in NAMES:
            self.convert(EXAMPLES / f"{name}.report")
            lines = [line for line in report_of(name) if line.what is What.MESSAGE]
            expected = [(line.event, "10.0.0.1", addresses[line.slice_name], line.message) for line in lines]
            self.assertEqual(messages_of(self.capture), expected)

    def test_a_recording_has_its_messages_at_its_moments(self):
        for name in NAMES:
            self.convert(EXAMPLES / f"{name}.rec")
            expected = [
                (moment, "10.0.1.1" if kind == Kind.SWITCH_BYTES else f"10.0.2.{slot + 1}", "10.0.0.1", spelled)
                for kind, _switch, slot, moment, spelled in events_in(EXAMPLES / f"{name}.rec") if spelled is not None
            ]
            self.assertEqual(messages_of(self.capture), expected)

    def test_both_are_read_back_as_the_recording(self):
        for name in NAMES:
            lines = self.convert(EXAMPLES / f"{name}.report", "--recording", EXAMPLES / f"{name}.rec")
            self.assertRegex(lines[1], r"^packet \d+: switch 0, slot 0 \(alice\): 10\.0\.0\.1:40001 to 10\.0\.2\.1:6653$")
            again = self.folder / "again"
            outcome = run_tool("from-pcap", "--switch-port", "10.0.0.1:6653", *CONTROLLERS, self.capture, again)
            self.assertEqual((outcome.status, outcome.err), (0, ""))
            self.assertEqual(events_in(again), events_in(EXAMPLES / f"{name}.rec"))

    def test_numbers_fit_together(self):
        """Each side's next byte is where its last segment ended, and where the other side says that it has all before."""
        self.convert(EXAMPLES / "web-session.report", "--recording", EXAMPLES / "web-session.rec")
        after = {}
        for _packet, segment in segments_of(self.capture):
            ends = segment.source, segment.destination
            self.assertEqual(segment.sequence, after.get(ends, 0))
            if segment.flags & ACK:
                self.assertEqual(segment.acknowledgement, after[ends[::-1]])
            after[ends] = segment.sequence + segment.size + bool(segment.flags & (SYN | FIN))

    def test_long_messages_take_several_segments(self):
        long = message(2, 7, bytes(range(256)) * 255)
        text = f"0 3 lane {long.hex()}\n1 3 to a {HELLO.hex()}\n2 3 down\nend 3\n"
        self.convert(self.file("report", text.encode()))
        self.assertEqual([spelled for *_rest, spelled in messages_of(self.capture)], [long, HELLO])
        self.assertLessEqual(max(segment.size for _packet, segment in segments_of(self.capture)), 1460)

    def test_ends_in_a_report(self):
        """A second HELLO to a slice is of another connection, and `down` ends all of the switch."""
        hello = HELLO.hex()
        text = f"0 0 lane {hello}\n1 0 to a {hello}\n2 0 to a {hello}\n3 0 close b\n4 0 down\n5 0 lane {hello}\nend 6\n"
        lines = self.convert(self.file("report", text.encode()))
        self.assertEqual([line.split(": ", 1)[1] for line in lines[:-1]], [
            "switch 0: 10.0.1.1:40000 to 10.0.0.1:6653", "switch 0, slot 0 (a): 10.0.0.1:40001 to 10.0.2.1:6653",
            "switch 0, slot 0 (a): 10.0.0.1:40002 to 10.0.2.1:6653", "switch 0, slot 1 (b): 10.0.0.1:40003 to 10.0.2.2:6653",
            "switch 0: 10.0.1.1:40004 to 10.0.0.1:6653"])
        ends = [int(packet.time * 1000) for packet, segment in segments_of(self.capture) if segment.flags & FIN]
        self.assertEqual(ends, [2, 2, 3, 3, 4, 4, 4, 4])

    def test_ends_in_a_recording(self):
        path = self.file("recording", recording(
            record(Kind.SWITCH_UP, 0), record(Kind.SWITCH_BYTES, 1, features_reply(1, 0xA1)), record(Kind.SLICE_UP, 2),
            record(Kind.SLICE_DOWN, 3), record(Kind.SLICE_UP, 4, slot=1), record(Kind.SWITCH_DOWN, 5)))
        self.convert(path)
        ends = [(int(packet.time * 1000), segment.source[0][2]) for packet, segment in segments_of(self.capture) if segment.flags & FIN]
        self.assertEqual(ends, [(3, 2), (3, 0), (5, 1), (5, 0), (5, 0), (5, 2)])

    def test_faults(self):
        report, other = EXAMPLES / "web-session.report", EXAMPLES / "first-packet.rec"
        self.assert_fault(f"{report}: isn't the report of the recording: at event 4 alice isn't connected", report, "--recording", other)
        report = EXAMPLES / "first-packet.report"
        cut = self.file("cut", report.read_bytes()[:-6])
        cut_off = "the report is cut off: its last line, with the number of events, is missing"
        self.assert_fault(f"{cut}: {cut_off}", cut)
        self.assert_fault(f"{cut}: {cut_off}", cut, "--recording", other)
        more = self.file("more", report.read_bytes().replace(b"end 5", b"end 6"))
        self.assert_fault(f"{more}: isn't the report of the recording, which has 5 events", more, "--recording", other)
        late = self.file("late", recording(record(Kind.SWITCH_UP, 1 << 63)))
        self.assert_fault(f"{late}: {1 << 63}ms is later than a capture can hold", late)
        self.assert_fault(f"{self.folder / 'none'}: No such file or directory", self.folder / "none")
        empty = self.file("empty", b"")
        self.assert_fault(f"{empty}: torn record at 0", report, "--recording", empty)
        outcome = run_tool("to-pcap", report, report)
        self.assertEqual((outcome.status, outcome.err), (1, f"flowvisor-tool: {report}: can't be written: it is read\n"))

    def test_words(self):
        self.assertEqual(run_tool("to-pcap", EXAMPLES / "first-packet.report").status, 2)
        path = EXAMPLES / "first-packet.rec"
        self.assertEqual(run_tool("to-pcap", path, "--recording", path, self.capture).status, 2)
        self.assertFalse(self.capture.exists())

    @unittest.skipUnless(shutil.which("tshark"), "tshark isn't installed")
    def test_tshark_shows_the_messages(self):
        self.convert(EXAMPLES / "web-session.report", "--recording", EXAMPLES / "web-session.rec")
        self.assertEqual(self.tshark("openflow_1_0.type", "-Y", "openflow_v1"), [str(spelled[1]) for *_rest, spelled in messages_of(self.capture)])
        # The packets within packet-ins have numbers of their own, of which tshark thinks something too.
        self.assertEqual(self.tshark("tcp.analysis.flags", "-Y", "tcp.analysis.flags and openflow_1_0.type != 10"), [])
        self.assertEqual(set(self.tshark("tcp.checksum.status", "-o", "tcp.check_checksum:TRUE")), {"1"})
        self.assertEqual(set(self.tshark("ip.checksum.status", "-o", "ip.check_checksum:TRUE")), {"1"})

    def tshark(self, field, *options):
        """The values of a field in the packets that have it."""
        words = ["tshark", "-r", self.capture, "-Y", field, *options, "-T", "fields", "-E", "occurrence=f", "-e", field]
        return subprocess.run(words, capture_output=True, text=True, check=True).stdout.split()


if __name__ == "__main__":
    unittest.main()
