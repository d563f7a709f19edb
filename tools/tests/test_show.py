"""`flowvisor-tool show`: reports and recordings in lines for people."""
import pathlib
import resource
import subprocess
import tempfile
import unittest

from running import EXAMPLES, SCRIPT, run_script, run_tool
from sunworsted import features_reply, message, packet_in, record, recording, tcp_packet

from flowvisor_tool.recordings import Kind, events_of, records_of
from flowvisor_tool.reports import lines_of

REPORT = """\
0 0 lane HELLO xid=0xff000000
0 0 lane FEATURES_REQUEST xid=0xff000001
1 0 lane SET_CONFIG xid=0xff000002 flags=frag_normal miss_send_len=65535
1 0 lane FLOW_MOD xid=0xff000003 command=delete match=any priority=0 cookie=0x0 idle_timeout=0 hard_timeout=0 buffer_id=none \
out_port=NONE flags=0
1 0 lane BARRIER_REQUEST xid=0xff000004
2 0 to alice HELLO xid=0x00000000
3 0 to bob HELLO xid=0x00000000
4 0 to alice PACKET_IN xid=0x00000000 buffer_id=none total_len=54 in_port=1 reason=no_match packet=54 bytes: \
00:00:00:00:00:01 > 00:00:00:00:00:02, tcp, 10.0.0.1:1024 > 10.0.0.2:80
end 5
"""
HELLO_0 = bytes.fromhex("0000000800000001")
SHORT = bytes.fromhex("0102000400000001")


class Folder(unittest.TestCase):
    """Tests with a folder of their own."""

    def setUp(self):
        place = tempfile.TemporaryDirectory()
        self.addCleanup(place.cleanup)
        self.folder = pathlib.Path(place.name)

    def file(self, name, data):
        path = self.folder / name
        path.write_bytes(data)
        return path

    def assert_fault(self, path, text):
        outcome = run_tool("show", path)
        self.assertEqual((outcome.status, outcome.err), (1, f"flowvisor-tool: {path}: {text}\n"))
        return outcome.out


class Reports(Folder):
    def test_example(self):
        outcome = run_tool("show", EXAMPLES / "first-packet.report")
        self.assertEqual((outcome.status, outcome.out, outcome.err), (0, REPORT, ""))

    def test_a_line_for_each_line(self):
        path = EXAMPLES / "web-session.report"
        shown = run_tool("show", path).out.splitlines()
        told = path.read_text().splitlines()
        self.assertEqual(len(shown), len(told))
        for left, right in zip(shown, told):
            self.assertEqual(left.split()[:3], right.split()[:3])

    def test_ends(self):
        text = b"1 15 close a-slice_1\n5 0 down\nend 6\n"
        self.assertEqual(run_tool("show", self.file("report", text)).out.encode(), text)

    def test_malformed_messages_are_told(self):
        outcome = run_tool("show", self.file("report", b"0 0 lane 01\n0 0 to a 010a000900000001ff\nend 1\n"))
        self.assertEqual(outcome.out.splitlines(), [
            "0 0 lane malformed (length 1, less than 8): 01",
            "0 0 to a PACKET_IN xid=0x00000001 malformed (length 9, less than 18): 010a000900000001ff", "end 1"])

    def test_faults(self):
        cut_off = "the report is cut off: its last line, with the number of events, is missing"
        self.assertEqual(self.assert_fault(self.file("cut", b"0 0 down\n"), cut_off), "0 0 down\n")
        self.assert_fault(self.file("empty", b""), cut_off)
        for other in (b"# text\n", b"0 16 down\n", b"0 0 lane 0\n", b"0 0 to A 01\n", bytes(300_000)):
            self.assert_fault(self.file("other", other), "is neither a report nor a recording")
        self.assert_fault(self.file("second", b"0 0 down\n0 0 up\nend 1\n"), "line 2 is none of a report")
        self.assert_fault(self.file("behind", b"end 0\nend 0\n"), "line 2 stands behind the end of the report")

    def test_faults_of_the_system(self):
        self.assert_fault(self.folder / "none", "No such file or directory")
        self.assert_fault(self.folder, "Is a directory")

    def test_nobody_to_tell(self):
        with open("/dev/full", "w") as nowhere:
            words = [SCRIPT, "show", EXAMPLES / "web-session.report"]
            outcome = subprocess.run(words, stdout=nowhere, stderr=subprocess.PIPE, text=True, check=False)
        self.assertEqual((outcome.returncode, outcome.stderr), (1, "flowvisor-tool: standard output: No space left on device\n"))

    def test_words(self):
        self.assertEqual(run_tool("show").status, 2)
        self.assertEqual(run_tool("show", "--help").status, 0)

    def test_reader_of_a_pipe_goes(self):
        shell = ["sh", "-c", f'"{SCRIPT}" show "{EXAMPLES}/web-session.report" | head -n 1']
        done = subprocess.run(shell, capture_output=True, text=True, check=False)
        self.assertEqual((done.stdout, done.stderr), ("0 0 lane HELLO xid=0xff000000\n", ""))


def events(*records):
    """What the events of a recording are: the numbers of their records, and the messages."""
    with tempfile.TemporaryFile() as file:
        file.write(recording(*(record(*parts) for parts in records)))
        file.seek(0)
        return [(event.record.moment, event.message) for event in events_of(records_of(file, "file"))]


class Recordings(Folder):
    UP, FEATURES = (Kind.SWITCH_UP, 0), (Kind.SWITCH_BYTES, 1, features_reply(1, 0xA1))

    def test_lines(self):
        path = self.file("recording", recording(
            record(Kind.SWITCH_UP, 0), record(Kind.SWITCH_BYTES, 1, features_reply(1, 0xA1)[:20]),
            record(Kind.SWITCH_BYTES, 2, features_reply(1, 0xA1)[20:] + packet_in(0, 1, tcp_packet(80))),
            record(Kind.SLICE_UP, 3, slot=1), record(Kind.SLICE_BYTES, 4, message(18, 42, b""), 1), record(Kind.SLICE_DOWN, 5, slot=1),
            record(Kind.SWITCH_DOWN, 6),
        ))
        outcome = run_tool("show", path)
        self.assertEqual((outcome.status, outcome.err), (0, ""))
        lines = outcome.out.splitlines()
        self.assertEqual(lines[0], "0 0 0ms from switch up")
        self.assertTrue(lines[1].startswith("1 0 2ms from switch FEATURES_REPLY xid=0x00000001 datapath_id=00000000000000a1 "))
        self.assertTrue(lines[2].startswith("2 0 2ms from switch PACKET_IN "))
        self.assertEqual(lines[3:], [
            "3 0 3ms from slot 1 up", "4 0 4ms from slot 1 BARRIER_REQUEST xid=0x0000002a", "5 0 5ms from slot 1 down",
            "6 0 6ms from switch down", "end 7"])

    def test_as_many_events_as_the_report(self):
        for name in ("first-packet", "web-session"):
            shown = run_tool("show", EXAMPLES / f"{name}.rec").out.splitlines()
            with open(EXAMPLES / f"{name}.report", "rb") as file:
                *_lines, end = lines_of(file, name)
            self.assertEqual(shown[-1], f"end {end.event}")

    def test_connections_that_are_closed_make_no_events(self):
        hello = message(0, 1, b"")
        early = events(self.UP, (Kind.SLICE_UP, 2), (Kind.SLICE_BYTES, 3, hello), self.FEATURES, (Kind.SLICE_BYTES, 4, hello))
        self.assertEqual([moment for moment, _message in early], [0, 2, 1])
        for bad in (HELLO_0, SHORT):
            closed = events(self.UP, self.FEATURES, (Kind.SLICE_UP, 2), (Kind.SLICE_BYTES, 3, bad + hello), (Kind.SLICE_BYTES, 4, hello),
                            (Kind.SLICE_DOWN, 5), (Kind.SLICE_UP, 6), (Kind.SLICE_BYTES, 7, hello))
            self.assertEqual([moment for moment, _message in closed], [0, 1, 2, 3, 5, 6, 7])
        ended = events(self.UP, self.FEATURES, (Kind.SLICE_UP, 2), (Kind.SWITCH_BYTES, 3, SHORT + hello), (Kind.SLICE_BYTES, 4, hello),
                       (Kind.SWITCH_BYTES, 5, hello), (Kind.SWITCH_DOWN, 6), (Kind.SWITCH_UP, 7), (Kind.SWITCH_BYTES, 8, hello))
        self.assertEqual([moment for moment, _message in ended], [0, 1, 2, 3, 6, 7, 8])

    def test_faults(self):
        magic, up = recording(), record(Kind.SWITCH_UP, 0)
        for data, text in (
            (magic + up + up, "not open at 24"), (magic + record(Kind.SWITCH_DOWN, 0), "not open at 8"),
            (magic + up + record(Kind.SLICE_BYTES, 0), "not open at 24"), (magic + up + record(Kind.SLICE_UP, 0) * 2, "not open at 40"),
            (magic + up[:15], "torn record at 8"), (magic + record(Kind.SWITCH_BYTES, 0, b"abc")[:-1], "torn record at 8"),
            (magic + record(6, 0), "bad record at 8"), (magic + record(Kind.SWITCH_UP, 0, slot=1), "bad record at 8"),
            (magic + record(Kind.SWITCH_UP, 0, switch=16), "bad record at 8"), (magic + record(Kind.SWITCH_UP, 0, b"a"), "bad record at 8"),
            (magic + record(Kind.SLICE_UP, 0, slot=32), "bad record at 8"), (magic + up[:3] + b"\1" + up[4:], "bad record at 8"),
        ):
            self.assert_fault(self.file("recording", data), text)

    def test_bounded_memory(self):
        """Of 200 MiB there is never more than a record in memory."""
        path = self.folder / "large"
        piece = message(2, 1, bytes(65_000)) * 250
        with open(path, "wb") as file:
            file.write(recording(record(Kind.SWITCH_UP, 0)))
            for moment in range(13):
                file.write(record(Kind.SWITCH_BYTES, moment, piece))
        self.assertGreater(path.stat().st_size, 200 << 20)

        def limit():
            resource.setrlimit(resource.RLIMIT_AS, (160 << 20, 160 << 20))

        outcome = run_script("show", path, preexec_fn=limit)
        self.assertEqual((outcome.returncode, outcome.stderr), (0, ""))
        self.assertEqual(outcome.stdout.splitlines()[-1], f"end {1 + 13 * 250}")


if __name__ == "__main__":
    unittest.main()
