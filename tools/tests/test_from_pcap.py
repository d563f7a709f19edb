"""`flowvisor-tool from-pcap`: captures are built here, and each recording is compared byte for byte.

What can't be read must be reported with its packet, end with status 1 (with 2 where words have no form), and leave the
folder as it was. The cases run in this process, and a few runs are of the script by itself.
"""
import contextlib
import os
import pathlib
import resource
import signal
import subprocess
import tempfile
import time
import unittest
import unittest.mock

# The first, since it puts the folder of the tools on the path.
from running import SCRIPT, run_script, run_tool

import cases_of_captures
import cases_of_connections
import cases_of_switches
import cases_of_words
from from_pcap_cases import OPTIONS, POLICY, SLICES, SLICES_6, one, records_of, small_run, small_run_6
from made_captures import ECHO, HELLO, ethernet, pcap, pcap_packet, switch_talk, timed
from program import needs_program, run_program
from sunworsted import SLICE_BYTES, SLICE_DOWN, SLICE_UP, SWITCH_BYTES, SWITCH_DOWN, SWITCH_UP, record

from flowvisor_tool import from_pcap

NAME = "flowvisor-tool: "
MISSPELLED = "flowvisor-tool from-pcap: error: argument "
# In seconds.
LONGEST_WAIT = 60


def is_accepted(spelled):
    """Whether each record fits those before it."""
    up = {}  # of each switch that is up, the slots that are
    for kind, _moment, data, slot, switch in records_of(spelled):
        is_right = switch < 16 and (not data or kind in (SWITCH_BYTES, SLICE_BYTES)) and (kind >= SLICE_UP or slot == 0)
        if kind == SWITCH_UP:
            is_right = is_right and switch not in up
            up[switch] = set()
        elif kind in (SWITCH_BYTES, SWITCH_DOWN):
            is_right = is_right and switch in up
            up = {other: slots for other, slots in up.items() if kind == SWITCH_BYTES or other != switch}
        else:
            is_right = is_right and switch in up and (slot in up[switch]) == (kind != SLICE_UP)
            if is_right:
                up[switch] = up[switch] - {slot} if kind == SLICE_DOWN else up[switch] | {slot}
        if not is_right:
            return False
    return True


class Cases(unittest.TestCase):
    """Each case, in a folder with a recording of before."""

    def setUp(self):
        place = tempfile.TemporaryDirectory()
        self.addCleanup(place.cleanup)
        self.addCleanup(os.chdir, os.getcwd())
        self.folder = pathlib.Path(place.name)
        os.chdir(self.folder)

    def try_case(self, case):
        """Converts the capture of a case."""
        pathlib.Path("policy.toml").write_text(case.policy)
        pathlib.Path("capture").write_bytes(case.capture)
        pathlib.Path("recording").write_bytes(b"as before")
        outcome = run_tool("from-pcap", *(OPTIONS if case.options is None else case.options), "capture", "recording")
        written = pathlib.Path("recording").read_bytes()
        if isinstance(case.expected, str):
            self.assertEqual((outcome.status, outcome.out, written), (case.status, "", b"as before"), outcome.err)
            self.assert_told(case, outcome.err)
        else:
            self.assertEqual((outcome.status, outcome.err), (0, ""))
            self.assertEqual(list(records_of(written)), list(records_of(case.expected)))
            self.assertEqual(written, case.expected)
            self.assertTrue(is_accepted(written))
        self.assertEqual({path.name for path in self.folder.iterdir()}, {"capture", "policy.toml", "recording"})

    def assert_told(self, case, text):
        """The one line that tells what is wrong; of words without a form, the last one."""
        *usage, line = text.splitlines(keepends=True)
        if case.status == 2:
            self.assertTrue(line.startswith(MISSPELLED + case.expected), line)
        else:
            self.assertEqual(usage, [])
            self.assertTrue(any(line.startswith(f"{NAME}{source}{case.expected}") for source in ("capture: ", "policy.toml: ", "")), line)

    def try_all(self, *groups):
        for group in groups:
            for case in group():
                with self.subTest(case.name):
                    self.try_case(case)

    def try_rows(self, *groups):
        """Groups of names, packets behind the three first ones of a switch, and records."""
        for group in groups:
            for name, packets, records in group():
                with self.subTest(name):
                    self.try_case(one(name, [*switch_talk().opening(), *packets], record(SWITCH_UP, 2), *records))

    def test_captures(self):
        cases = cases_of_captures
        self.try_all(cases.formats, cases.links, cases.internet, cases.fragments, cases.unfit_headers, cases.large)

    def test_damaged_captures(self):
        cases = cases_of_captures
        self.try_all(cases.damaged_files, cases.damaged_blocks, cases.cut_packets, cases.cut_blocks)
        for group in (cases.cut_at_ends, cases.cut_beside_ends, cases.cut_in_syns):
            self.try_all(lambda group=group: (cases.cut_by_a_byte(*row) for row in group()))

    def test_bytes_and_ends(self):
        cases = cases_of_connections
        self.try_rows(cases.sequences, cases.ends, cases.misplaced_ends)
        self.try_all(
            cases.wrapped, cases.behind_resets, cases.uncounted, cases.probes_behind_ends, cases.parts_of_milliseconds, cases.missing,
            cases.unanswered_calls,
        )

    def test_beginnings(self):
        cases = cases_of_connections
        self.try_all(
            cases.openings, cases.controllers_answers, cases.remains_before, cases.refused_calls, cases.ports_again,
            cases.beginnings_missing,
        )

    def test_switches(self):
        cases = cases_of_switches
        self.try_all(
            cases.taken_up, cases.sessions, cases.attributions, cases.misfits, cases.translated, cases.features, cases.hidden_features,
            cases.numbers,
        )

    def test_switches_that_have_ended(self):
        cases = cases_of_switches
        self.try_all(
            cases.calls_over_ends, cases.calls_over_only_ends, cases.calls_over_one_end, cases.calls_behind_ends,
            cases.calls_behind_known_ends, cases.calls_behind_only_ends, cases.calls_behind_two_ends, cases.calls_beside_ends,
            cases.calls_behind_ends_and_beginnings, cases.calls_behind_half_open, cases.calls_over_beginnings,
        )

    def test_words(self):
        self.try_all(cases_of_words.options)


# What is printed of the connections of the small run.
TOLD = [
    "packet 1: switch 0: 10.0.0.9:40000 to 10.0.0.1:6633",
    "packet 6: switch 0, slot 0: 10.0.0.1:50000 to 10.0.0.5:6653",
    "packet 12: switch 0, slot 1: 10.0.0.1:50001 to 10.0.0.6:6654",
]


class SmallRun(unittest.TestCase):
    """The small run, in a folder of its own."""

    def setUp(self):
        place = tempfile.TemporaryDirectory()
        self.addCleanup(place.cleanup)
        self.folder = pathlib.Path(place.name)
        self.capture, self.written = self.folder / "capture", self.folder / "new"
        packets, self.expected = small_run()
        self.whole = pcap(timed(packets))
        self.capture.write_bytes(self.whole)

    def assert_nothing_written(self):
        self.assertEqual({path.name for path in self.folder.iterdir()}, {"capture"})


class Runs(SmallRun):
    """Runs of the script by itself."""

    def convert(self, *words, largest_file=resource.RLIM_INFINITY, memory=resource.RLIM_INFINITY, **options):
        """Runs the script, where files, and all that it has in memory, have at most so many bytes."""

        def limit():
            resource.setrlimit(resource.RLIMIT_FSIZE, (largest_file, largest_file))
            resource.setrlimit(resource.RLIMIT_AS, (memory, memory))

        return run_script("from-pcap", *words, preexec_fn=limit, **options)

    def test_what_is_told(self):
        outcome = self.convert(*OPTIONS, self.capture, self.written)
        self.assertEqual(outcome.stdout.splitlines(), [*TOLD, f"{len(self.expected)} bytes"])
        self.assertEqual(self.written.read_bytes(), self.expected)

    def test_what_is_told_of_ipv6(self):
        self.capture.write_bytes(pcap(timed(small_run_6()[0])))
        told = self.convert("--switch-port", "6633", *SLICES_6, self.capture, self.written).stdout
        self.assertTrue(told.startswith("packet 1: switch 0: [fd00::9]:40000 to [fd00::1]:6633\n"), told)

    def test_files_that_cannot_be(self):
        def assert_refused(capture, written, text):
            outcome = self.convert(*OPTIONS, capture, written)
            self.assertEqual((outcome.returncode, outcome.stderr), (1, f"{NAME}{text}\n"))

        missing = "No such file or directory"
        assert_refused(self.folder / "none", self.written, f"{self.folder / 'none'}: {missing}")
        assert_refused(self.capture, self.capture, f"{self.capture}: can't be written: it is read")
        self.assertEqual(self.capture.read_bytes(), self.whole)
        assert_refused(self.capture, self.folder / "none" / "new", f"{self.folder / 'none' / 'new'}: {missing}")
        self.assert_nothing_written()
        pipe, loop, turned = self.folder / "pipe", self.folder / "loop", self.folder / "turned"
        os.mkfifo(pipe)
        loop.symlink_to(turned)
        turned.symlink_to(loop)
        for path in (pipe, self.folder):
            assert_refused(self.capture, path, f"{path}: can't be written: it is no file")
        outcome = self.convert(*OPTIONS, self.capture, loop)
        self.assertEqual((outcome.returncode, outcome.stderr.count("\n")), (1, 1))
        self.assertTrue(loop.is_symlink() and pipe.is_fifo())

    def test_refused_and_no_file_before(self):
        self.assertEqual(self.convert("--switch-port", "1", self.capture, self.written).returncode, 1)
        self.assert_nothing_written()

    def test_no_room(self):
        outcome = self.convert(*OPTIONS, self.capture, self.written, largest_file=100)
        self.assertEqual((outcome.returncode, outcome.stderr), (1, f"{NAME}{self.written}: File too large\n"))
        self.assert_nothing_written()

    def test_nobody_to_tell(self):
        words = [SCRIPT, "from-pcap", *OPTIONS, self.capture, self.written]
        with open("/dev/full", "w") as nowhere:
            outcome = subprocess.run(words, stdout=nowhere, stderr=subprocess.PIPE, text=True, check=False)
        self.assertEqual((outcome.returncode, outcome.stderr), (1, f"{NAME}standard output: No space left on device\n"))
        self.assert_nothing_written()

    def test_standard_output_is_closed(self):
        words = [SCRIPT, "from-pcap", *OPTIONS, self.capture, self.written]
        closed = subprocess.run(["sh", "-c", 'exec "$@" >&-', "sh", *words], capture_output=True, text=True, check=False)
        self.assertEqual((closed.returncode, closed.stderr), (1, f"{NAME}standard output is closed\n"))
        self.assert_nothing_written()

    def test_nowhere_to_say_what_is_wrong(self):
        for port, status in (("70000", 2), ("1", 1)):
            words = [SCRIPT, "from-pcap", "--switch-port", port, self.capture, self.written]
            with open("/dev/null") as unwritable:
                outcome = subprocess.run(words, stdout=subprocess.PIPE, stderr=unwritable, check=False)
            self.assertEqual((outcome.returncode, outcome.stdout), (status, b""))
            closed = subprocess.run(["sh", "-c", 'exec "$@" 2>&-', "sh", *words], stdout=subprocess.PIPE, check=False)
            self.assertEqual((closed.returncode, closed.stdout), (status, b""))

    def test_a_name_of_255_characters(self):
        longest = self.folder / ("n" * 255)
        self.assertEqual(self.convert(*OPTIONS, self.capture, longest).returncode, 0)
        self.assertEqual(longest.read_bytes(), self.expected)

    def test_little_memory(self):
        """Captures of few bytes that tell of very many that they have cut off."""
        talk = switch_talk()
        before = pcap(timed([*talk.opening(), talk.from_server(0, HELLO)]))
        huge = pcap_packet(4, ethernet(talk.from_client(0, ECHO, length=0)), full=0xFFFFFFFF)
        size = 65_535 - 40
        starts = range(0, 9000 * size, size)
        many = b"".join(pcap_packet(4, ethernet(talk.from_client(at, length=65_535)), full=14 + 65_535) for at in starts)
        for packets in (huge, many):
            self.capture.write_bytes(before + packets)
            outcome = self.convert(*OPTIONS, self.capture, self.written, memory=1 << 29)
            self.assertEqual(outcome.stderr, f"{NAME}{self.capture}: packet 5: the capture has cut off its bytes\n")

    def test_interrupted(self):
        def listen():
            signal.signal(signal.SIGINT, signal.SIG_DFL)

        pipe = self.folder / "pipe"
        os.mkfifo(pipe)
        words = [SCRIPT, "from-pcap", *OPTIONS, pipe, self.written]
        with subprocess.Popen(words, stdout=subprocess.PIPE, stderr=subprocess.PIPE, preexec_fn=listen) as process:
            try:
                with open(self.opened(pipe, process), "wb"):
                    process.send_signal(signal.SIGINT)
                # The pipe is closed by now: that wakes a read that began just as the signal came.
                told = process.communicate(timeout=LONGEST_WAIT)
            finally:
                process.kill()
        self.assertEqual((process.returncode, *told), (130, b"", b""))
        self.assertFalse(self.written.exists())

    def opened(self, pipe, process):
        """A pipe, opened for writing once the process reads it."""
        for _ in range(LONGEST_WAIT * 100):
            with contextlib.suppress(OSError):  # it has no reader yet
                return os.open(pipe, os.O_WRONLY | os.O_NONBLOCK)
            self.assertIsNone(process.poll(), "it has ended before it read the pipe")
            time.sleep(0.01)
        self.fail("it doesn't read the pipe")

    def test_slices_without_a_connection(self):
        switch, alice, bob = TOLD
        elsewhere = ["--slice", "3=10.0.0.8:6633", "--slice", "2=[fd00::7]:1", "--slice", "2=10.0.0.7:1", "--slice", "1=10.0.0.8:1"]
        for options, told in (
            ([], [switch, "no slice: neither --policy nor --slice gives a controller's address"]),
            ([*SLICES[:2], "--slice", "1=10.0.0.6:6655"], [switch, alice, "slot 1: no connection to 10.0.0.6:6655 is recorded"]),
            ([*SLICES, "--slice", "1=10.0.0.8:1"], [switch, alice, bob]),
            (elsewhere, [
                switch, "slot 1: no connection to 10.0.0.8:1 is recorded",
                "slot 2: no connection to [fd00::7]:1 or 10.0.0.7:1 is recorded", "slot 3: no connection to 10.0.0.8:6633 is recorded"]),
        ):
            outcome = run_tool("from-pcap", "--switch-port", "6633", *options, self.capture, self.written)
            self.assertEqual((outcome.status, outcome.err), (0, ""))
            self.assertEqual(outcome.out.splitlines(), [*told, f"{self.written.stat().st_size} bytes"])

    def test_words(self):
        for words in (["--switch", "6633", self.capture, self.written], [self.capture, self.written], ["--switch-port", "1"]):
            self.assertEqual(run_tool("from-pcap", *words).status, 2)

    def test_help_that_nobody_reads(self):
        read, write = os.pipe()
        os.close(read)
        with open(write, "wb") as unread:
            outcome = subprocess.run([SCRIPT, "from-pcap", "--help"], stdout=unread, stderr=subprocess.PIPE, check=False)
        self.assertEqual(outcome.stderr, b"")

    def test_more_bytes_than_replay_takes(self):
        for limit, text in ((len(self.expected), ""), (len(self.expected) - 1, "packet 19: the recording would pass the ")):
            with unittest.mock.patch.object(from_pcap, "LARGEST_RECORDING", limit):
                outcome = run_tool("from-pcap", *OPTIONS, self.capture, self.written)
            self.assertEqual(outcome.status, 1 if text else 0)
            self.assertIn(text, outcome.err)


# What the proxy answers in the small run, with the match of all headers in its flow-mod.
REPORT = f"""\
0 0 lane 01000008ff000000
0 0 lane 01050008ff000001
2 0 lane 0109000cff0000020000ffff
2 0 lane 010e0048ff000003003820ff{"00" * 44}0003{"00" * 6}ffffffffffff0000
2 0 lane 01120008ff000004
3 0 to alice 0100000800000000
5 0 to bob 0100000800000000
7 0 to bob 0103000c00000002aabbccdd
9 0 lane 0103000c00000002aabbccdd
end 10
"""


@needs_program
class Replays(SmallRun):
    def test_the_small_run(self):
        run_tool("from-pcap", *OPTIONS, self.capture, self.written)
        (self.folder / "policy.toml").write_text(POLICY)
        replay = run_program("replay", self.folder / "policy.toml", self.written)
        self.assertEqual((replay.returncode, replay.stdout.decode()), (0, REPORT))


if __name__ == "__main__":
    unittest.main()
