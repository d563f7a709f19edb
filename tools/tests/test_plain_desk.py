"""`tools/plain-desk`: the stored run, rules that this doesn't reach, and drawn recordings beside the program's reports."""
import contextlib
import io
import pathlib
import re
import struct
import tempfile
import unittest

import drawn_recordings
from drawn_divisions import DivisionMaker
from policies import PolicyMaker
from program import needs_program, run_program
from running import EXAMPLES, Outcome
from sunworsted import (
    SLICE_BYTES, SLICE_DOWN, SLICE_UP, SWITCH_BYTES, SWITCH_UP, features_reply, message, record, recording,
)

from plain_desk import command
from plain_desk.policy_file import PolicyRefused, read_policy
from plain_desk.policy_print import policy_lines
from plain_desk.recording import read_records
from plain_desk.report import report_lines

PLAIN_RUN = EXAMPLES / "plain-run"
SLICES = """version = 1
[[slice]]
name = "alice"
controller = "127.0.0.1:6633"
rate = 1
burst = 2
[[slice]]
name = "bob"
controller = "127.0.0.1:6634"
"""
# The same slice writes port 80 of what comes by port 1, and port 22 of what comes by port 2.
TWO_PORTS = SLICES.replace("rate = 1\nburst = 2\n", "") + "".join(
    f'[[rule]]\npriority = 1\nwrite = "alice"\nin_port = {in_port}\ndl_type = 0x0800\nnw_proto = 6\ntp_dst = {port}\n'
    for in_port, port in [(1, 80), (2, 22)]
)
OPENING = [
    record(SWITCH_UP, 0), record(SWITCH_BYTES, 0, features_reply(0xFF000001, 0xA1, [1, 2, 3])), record(SLICE_UP, 0),
]
EVENTS_OF_OPENING = 3
COUNT_OF_RECORDINGS, COUNT_OF_POLICIES, COUNT_OF_DIVISIONS, COUNT_OF_MESSAGES = 40, 400, 400, 120


def run(*words):
    """Runs the command in this process."""
    out, err = io.StringIO(), io.StringIO()
    with contextlib.redirect_stdout(out), contextlib.redirect_stderr(err):
        status = command.main([str(word) for word in words])
    return Outcome(status, out.getvalue(), err.getvalue())


def replayed(policy, *records):
    """The lines of a report behind the opening, without the numbers of switches."""
    accepted = read_policy(policy.encode())
    lines = report_lines(accepted, read_records(recording(*OPENING, *records), len(accepted.slices)))
    return [re.sub(" 0 ", " ", line, count=1) for line in lines if not re.match(f"[0-{EVENTS_OF_OPENING - 1}] ", line)]


def asked(kind, xid, body=b"", moment=0):
    return record(SLICE_BYTES, moment, message(kind, xid, body))


def told(kind, xid, body=b""):
    return record(SWITCH_BYTES, 0, message(kind, xid, body))


class StoredRuns(unittest.TestCase):
    def test_the_plain_run(self):
        outcome = run("replay", PLAIN_RUN / "plain-run.toml", PLAIN_RUN / "plain-run.rec")
        self.assertEqual(outcome, Outcome(0, (PLAIN_RUN / "plain-run.report").read_text(), ""))

    def test_the_examples(self):
        for name in ("first-packet", "web-session"):
            outcome = run("replay", EXAMPLES / "two-slices.toml", EXAMPLES / f"{name}.rec")
            self.assertEqual(outcome, Outcome(0, (EXAMPLES / f"{name}.report").read_text(), ""))

    def test_rounds(self):
        self.assertEqual(run("gen", 1, 0), Outcome(0, "events 4\nlane 5 108\nalice 1 8\nbob 1 8\n", ""))


class Statuses(unittest.TestCase):
    def setUp(self):
        place = tempfile.TemporaryDirectory()
        self.addCleanup(place.cleanup)
        self.folder = pathlib.Path(place.name)

    def file(self, data):
        path = self.folder / "file"
        path.write_bytes(data)
        return path

    def test_words(self):
        for words in ([], ["check"], ["check", ""], ["check", "-p"], ["replay", "p"], ["gen", "01", "1"], ["gen", "1", "1000001"]):
            self.assertEqual(run(*words), Outcome(1, "", command.USAGE + "\n"))

    def test_policies(self):
        self.assertEqual(run("check", self.file(SLICES.encode())), Outcome(0, "ok 2 0\n", ""))
        self.assertEqual(run("check", self.file(b"version = 3")), Outcome(2, "", "policy: bad value version\n"))
        self.assertEqual(run("check", self.folder / "none"), Outcome(4, "", "read fault\n"))
        self.assertEqual(run("check", self.file(bytes((1 << 20) + 1))), Outcome(7, "", "too large\n"))

    def test_recordings(self):
        policy = EXAMPLES / "two-slices.toml"
        for data, told_of in [
            (b"", "torn record at 0"), (bytes(8), "bad record at 0"), (recording(bytes(10)), "torn record at 8"),
            (recording(record(SLICE_UP, 0, slot=2)), "bad record at 8"), (recording(record(SLICE_UP, 0)), "not open at 8"),
        ]:
            self.assertEqual(run("replay", policy, self.file(data)), Outcome(3, "", f"recording: {told_of}\n"))


PORT_FAULTS = (
    ("port = 1", "bad value port"),
    ("rule = 1\nport = 1", "bad value rule"),
    ("port = 1\nzone = 1", "unknown key zone"),
    ("port = [{ zone = 1, in_port = 2 }]", "unknown key port.0.in_port"),
    ("port = [{}]", "missing port.0.slice"),
    ("port = [{ slice = 1 }]", "bad value port.0.slice"),
    ("port = [{ slice = 'bob', switch = 'A1' }]", "bad value port.0.switch"),
    ("port = [{ slice = 'carol', shown = 65281 }]", "bad value port.0.shown"),
    ("port = [{ slice = 'carol', shown = 9 }]", "missing port.0.physical"),
    ("port = [{ slice = 'carol', shown = 9, physical = 2 }, {}]", "port 0 names no slice"),
    ("rule = [{ priority = 1, write = 'carol' }]\nport = [{}]", "rule 0 names no slice"),
    ("port = [{ slice = 'bob', shown = 9, physical = 2 }, { slice = 'bob', shown = 2, physical = 5 }]", "port 1 is named twice"),
)


class PortTables(unittest.TestCase):
    """Policies of version 2."""

    slices = "slice = [{ name = 'alice', controller = 'c' }, { name = 'bob', controller = 'c' }]"

    def read(self, text, version=2):
        return read_policy(f"version = {version}\n{text}\n{self.slices}\n".encode(), 2)

    def test_first_faults(self):
        for text, wanted in PORT_FAULTS:
            with self.subTest(text), self.assertRaisesRegex(PolicyRefused, f"^{wanted}$"):
                self.read(text)

    def test_version_1_has_none(self):
        with self.assertRaisesRegex(PolicyRefused, "^unknown key port$"):
            self.read("port = []", version=1)
        with self.assertRaisesRegex(PolicyRefused, "^bad value version$"):
            self.read("", version=3)

    def test_at_most_1024(self):
        tables = [f"{{ slice = 'bob', shown = {number}, physical = {number} }}" for number in range(1025)]
        self.assertEqual(len(self.read(f"port = [{', '.join(tables[1:])}]").swaps), 1024)
        with self.assertRaisesRegex(PolicyRefused, "^too many ports 1025$"):
            self.read(f"port = [{', '.join(tables)}]")

    def test_print_and_back(self):
        swaps = "{ slice = 'bob', switch = '00000000000000a1', shown = 9, physical = 2 }, { slice = 'bob', shown = 3, physical = 3 }"
        policy = self.read(f"port = [{swaps}]")
        lines = list(policy_lines(policy))
        self.assertEqual(lines[0], "version = 2")
        self.assertEqual(read_policy("\n".join(lines).encode(), 2), policy)
        self.assertEqual(next(policy_lines(self.read("port = []"))), "version = 1")


class Rules(unittest.TestCase):
    """What the stored run doesn't show."""

    def test_moments_dont_go_back(self):
        lines = replayed(SLICES, asked(18, 1, moment=1000), asked(18, 2, moment=0), asked(18, 3, moment=999))
        self.assertEqual(lines[:2], ["3 lane 0112000800000000", "4 lane 0112000800000001"])
        self.assertEqual(lines[2:], ["5 to alice 0101001400000003000100050112000800000003", "end 6"])

    def test_the_length_of_packets_is_that_of_the_connection(self):
        lines = replayed(SLICES, asked(9, 1, bytes.fromhex("00000014")), record(SLICE_DOWN, 0), record(SLICE_UP, 0), asked(7, 2))
        self.assertEqual(lines[-2:], ["6 to alice 0108000c0000000200000080", "end 7"])

    def flow_mod(self, port):
        """An ADD of what comes by port 1 for port 80, which is made to go to port 22 and is sent to a port."""
        match = bytes.fromhex("0038204e0001" + "00" * 16 + "08000006" + "00" * 12 + "0050")
        fields = bytes.fromhex("00" * 8 + "0000" * 3 + "000a" + "ffffffff" + "ffff" + "0000")
        return match, fields, bytes.fromhex("000a000800160000") + bytes.fromhex(f"00000008{port:04x}0000")

    def test_the_controller_sees_by_which_port_packets_came(self):
        match, fields, actions = self.flow_mod(0xFFFD)
        lines = replayed(TWO_PORTS, asked(14, 5, match + fields + actions))
        self.assertTrue(lines[0].startswith("3 to alice 0101004c0000000500020006010e0058"), lines[0])
        match, fields, actions = self.flow_mod(2)
        sent = message(14, 0, match + fields[:-2] + b"\0\1" + actions)
        self.assertEqual(replayed(TWO_PORTS, asked(14, 5, match + fields + actions)), [f"3 lane {sent.hex()}", "end 4"])

    def test_an_error_for_what_is_done_still_comes(self):
        error = bytes.fromhex("00010001")
        lines = replayed(SLICES, asked(18, 7), told(19, 0), told(19, 0), told(1, 0, error), told(1, 0, error))
        self.assertEqual(lines[1:], ["4 to alice 0113000800000007", "6 to alice 0101001400000007000100010112000800000007", "end 8"])

    def test_the_last_4096_requests_are_remembered(self):
        requests = [asked(18, number, moment=number) for number in range(4097)]
        lines = replayed(TWO_PORTS, *requests, told(19, 0), told(19, 1))
        self.assertEqual(lines[4097:], ["4101 to alice 0113000800000001", "end 4102"])

    def test_no_more_than_1364_ports_are_known(self):
        ports = [told(12, 0, struct.pack(">B7xH46x", 0, number)) for number in range(1363, 1367)]
        records = [OPENING[0], record(SWITCH_BYTES, 0, features_reply(0xFF000001, 0xA1, range(1, 1363))), OPENING[2]]
        policy = read_policy((SLICES + '[[rule]]\npriority = 1\nwrite = "alice"').encode())
        lines = list(report_lines(policy, read_records(recording(*records, *ports), 2)))
        self.assertEqual([line.split()[0] for line in lines if " alice 010c" in line], ["3", "4"])

    def test_a_stream_begins_anew(self):
        echo = message(2, 9, b"")
        lines = replayed(
            SLICES, record(SLICE_BYTES, 0, echo[:5]), record(SLICE_DOWN, 0), record(SLICE_UP, 0), record(SLICE_BYTES, 0, echo)
        )
        self.assertEqual(lines, ["4 to alice 0100000800000000", "5 to alice 0103000800000009", "end 6"])

    def test_after_the_end_of_a_switch_a_slice_is_closed(self):
        ended = record(SWITCH_BYTES, 0, bytes.fromhex("0102000700000000"))
        lines = replayed(SLICES, ended, told(2, 1), record(SLICE_DOWN, 0), record(SLICE_UP, 0), asked(2, 1))
        self.assertEqual(lines, ["3 down", "5 close alice", "end 6"])

    def test_a_slice_that_comes_before_the_opening_is_closed(self):
        records = [OPENING[0], record(SLICE_UP, 0), OPENING[1], asked(2, 1)]
        policy = read_policy(SLICES.encode())
        lines = list(report_lines(policy, read_records(recording(*records), 2)))
        self.assertEqual([line for line in lines if "lane" not in line], ["1 0 close alice", "end 3"])


class Agreement(unittest.TestCase):
    """The program says the same."""

    def setUp(self):
        place = tempfile.TemporaryDirectory()
        self.addCleanup(place.cleanup)
        self.policy, self.inner, self.recording = (pathlib.Path(place.name) / name for name in ("policy", "inner", "recording"))

    def agrees(self, *words):
        """Compares both, and gives what both say."""
        own, program = run(*words), run_program(*words)
        self.assertEqual(own, Outcome(program.returncode, program.stdout.decode(), program.stderr.decode()))
        return own

    @needs_program
    def test_drawn_recordings(self):
        self.policy.write_bytes(drawn_recordings.POLICY)
        for seed in range(COUNT_OF_RECORDINGS):
            with self.subTest(seed=seed):
                self.recording.write_bytes(drawn_recordings.RecordingMaker(seed).recording(COUNT_OF_MESSAGES))
                self.assertEqual(self.agrees("replay", self.policy, self.recording).status, 0)

    @needs_program
    def test_drawn_policies(self):
        statuses = set()
        for seed in range(COUNT_OF_POLICIES):
            with self.subTest(seed=seed):
                self.policy.write_bytes(PolicyMaker(seed).policy())
                statuses.add(self.agrees("check", self.policy).status)
        self.assertEqual(statuses, {0, 2})

    @needs_program
    def test_drawn_divisions(self):
        lines = set()
        for seed in range(COUNT_OF_DIVISIONS):
            with self.subTest(seed=seed):
                outer, name, inner = DivisionMaker(seed).division()
                self.policy.write_bytes(outer)
                self.inner.write_bytes(inner)
                lines.add(self.agrees("flatten", self.policy, name, self.inner).err)
        self.assertTrue({"", "nest: no slice\n", "policy: slice 1 is a duplicate\n", "nest: rule 0 has no writer\n"} <= lines, lines)

    @needs_program
    def test_rounds(self):
        for seed in (0, 7, 2**64 - 1):
            self.agrees("gen", str(seed), "300")


class Drawing(unittest.TestCase):
    def test_drawn_recordings_reach_much(self):
        """That they have messages for all, errors of many kinds, and ends."""
        policy = read_policy(drawn_recordings.POLICY)
        lines = [
            line for seed in range(4) for line in report_lines(
                policy, read_records(drawn_recordings.RecordingMaker(seed).recording(COUNT_OF_MESSAGES), len(policy.slices))
            )
        ]
        errors = {line.split()[-1][16:24] for line in lines if re.search(r"to \w+ 0101", line)}
        self.assertTrue({"00010005", "00010008", "00020004", "00020006", "00030002"} <= errors, errors)
        for word in ("lane 010e", "lane 010d", "lane 0110", "to alice 010a", "to bob 010a", "to carol 010a", "to alice 0111", "close"):
            self.assertTrue(any(word in line for line in lines), word)


class Divisions(unittest.TestCase):
    OUTER = """version = 1
slice = [{ name = "a", controller = "c" }, { name = "h", controller = "c" }, { name = "b", controller = "c" }]
rule = [
  { priority = 9, write = "h", read = ["b", "a"], in_port = 1 }, { priority = 8, write = "b", read = ["a", "h"], in_port = 2 },
  { priority = 7, read = ["h"], in_port = 3 }, { priority = 7, write = "h", in_port = 1, switch = "00000000000000a1" },
]
"""
    INNER = """version = 1
slice = [{ name = "x", controller = "c", rate = 1, burst = 1, quota = 1 }, { name = "h", controller = "c", rate = 9, burst = 9, quota = 9 }]
rule = [
  { priority = 1, write = "h", in_port = 1, dl_vlan = 5 }, { priority = 2, write = "x", read = ["h"], dl_vlan = 6, switch = "00000000000000a2" },
]
"""

    def setUp(self):
        place = tempfile.TemporaryDirectory()
        self.addCleanup(place.cleanup)
        self.outer, self.inner = (pathlib.Path(place.name) / name for name in ("outer", "inner"))
        self.outer.write_text(self.OUTER)

    def flatten(self, inner, name="h"):
        self.inner.write_text(inner)
        return run("flatten", self.outer, name, self.inner)

    def test_rules_and_readers(self):
        out = self.flatten(self.INNER).out
        self.assertEqual(re.findall(r'name = "(\w)"', out), ["a", "b", "x", "h"])
        rules = [" ".join(rule.split("\n")[1:]).strip() for rule in out.split("[[rule]]")[1:]]
        self.assertEqual(rules, [
            'switch = "00000000000000a2" priority = 4 write = "x" read = ["a", "b", "h"] in_port = 1 dl_vlan = 6',
            'priority = 3 write = "h" read = ["a", "b"] in_port = 1 dl_vlan = 5',
            'priority = 2 write = "b" read = ["a"] in_port = 2',
            "priority = 1 in_port = 3",
            'switch = "00000000000000a1" priority = 0 write = "h" in_port = 1 dl_vlan = 5',
        ])

    def test_refusals(self):
        for inner, line in [
            (self.INNER.replace("rate = 9", "rate = 1000"), "nest: rate 1001"),
            (self.INNER.replace("burst = 9, quota = 9", "burst = 1000, quota = 4096"), "nest: burst 1001"),
            (self.INNER.replace("quota = 9", "quota = 1024"), "nest: quota 1025"),
            (self.INNER.replace('write = "h", ', ""), "nest: rule 0 has no writer"),
            (self.INNER.replace('name = "x"', 'name = "b"').replace('write = "x"', 'write = "b"'), "policy: slice 2 is a duplicate"),
            ("version = 3", "policy: bad value version"),
        ]:
            self.assertEqual(self.flatten(inner), Outcome(2, "", line + "\n"))
        self.assertEqual(self.flatten("version = 3", "x"), Outcome(2, "", "nest: no slice\n"))


class Policies(unittest.TestCase):
    def test_the_first_fault_is_told(self):
        for text, told_of in [
            ("version = 1", "missing slice"), ("version = 1\nzz = 1\nb = 1\nslice = []", "unknown key b"),
            (SLICES + "[[rule]]\nwrite = 1", "missing rule.0.priority"),
            (SLICES + '[[rule]]\npriority = 1\nread = ["bob", "bob"]\ntp_dst = 1', "rule 0 improper read"),
            (SLICES + '[[rule]]\npriority = 1\nwrite = "eve"\ntp_dst = 1', "rule 0 names no slice"),
            (SLICES.replace("bob", "alice") + "[[rule]]\npriority = 1\ntp_dst = 1", "rule 0 improper tp_dst"),
            (SLICES + '[[rule]]\npriority = 1\nwrite = "bob"\n[[rule]]\npriority = 2\nwrite = "alice"', "rules 1 and 0 overlap"),
        ]:
            with self.assertRaises(PolicyRefused) as refused:
                read_policy(text.encode())
            self.assertEqual(str(refused.exception), told_of)


if __name__ == "__main__":
    unittest.main()
