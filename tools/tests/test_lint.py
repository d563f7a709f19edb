"""`flowvisor-tool lint`: its verdict against that of `flowvisor check`, and what it says of each kind of mistake."""
import pathlib
import re
import socket
import tempfile
import unittest
import unittest.mock

from drawn_divisions import DivisionMaker
from policies import PolicyMaker
from program import needs_program, run_program
from running import EXAMPLES, run_tool

from flowvisor_tool import lint
from flowvisor_tool.packet_sets import packets_of
from flowvisor_tool.policy_text import read_policy
from flowvisor_tool.toml_reader import Position

COUNT, COUNT_OF_DIVISIONS = 2500, 200
TOP = 'version = 1\n[[slice]]\nname = "alice"\ncontroller = "c:1"\n[[slice]]\nname = "bob"\ncontroller = "c:2"\n'


# The line of `flowvisor check` for a fault, and what is said of the same here.
SAME_FAULTS = (
    (r"not TOML", r"not TOML"),
    (r"missing (version|slice)", r"{0} is missing"),
    (r"missing (slice|rule|port)\.(\d+)\.(\w+)", r"{0} {1} has no {2}: it is"),
    (r"bad value version", r"version is .*, but must be 1 or 2"),
    (r"bad value (slice|rule|port)", r"{0} must be tables|{0} is empty"),
    (r"bad value (slice|rule|port)\.(\d+)\.(\w+)", r"{0} {1}: {2} is .*, but must be"),
    (r"unknown key (slice|rule|port)\.(\d+)\.(.*)", r"{0} {1} has no key {2}"),
    (r"unknown key (.*)", r"a policy has no key {0}"),
    (r"rule (\d+) improper read", r"rule {0}: .* stands (twice under read|under write too)"),
    (r"rule (\d+) improper (\w+)", r"rule {0}: {1} needs .* beside it"),
    (r"rule (\d+) names no slice", r"rule {0}: .* is no slice's name"),
    (r"rules (\d+) and (\d+) overlap", r"rule {1} .*, overlaps rule {0} .*: .* is in both"),
    (r"slice (\d+) is a duplicate", r"slice {0}: the name .* is that of slice"),
    (r"port (\d+) names no slice", r"port {0}: .* is no slice's name"),
    (r"port (\d+) is named twice", r"port {0} .* names .* names it too, on a common switch"),
    (r"too many (slices|rules|ports) (\d+)", r"there are {1} {0}, but at most"),
    (r"too many write rules (\d+)", r"stands under write in {0} rules, but"),
)


def same_fault(line):
    """A pattern of what is said here of the fault that a line of `flowvisor check` names."""
    for theirs, ours in SAME_FAULTS:
        match = re.fullmatch("policy: " + theirs, line, re.DOTALL)
        if match:
            return ours.format(*map(re.escape, match.groups()))
    return None


def told(text):
    """What is printed of a policy: faults and warnings, each with its line and column."""
    reading = read_policy(text.encode())
    findings = [*reading.faults, *lint.warnings_of(reading)]
    return [f"{found.position.line}:{found.position.column} {found.text}" for found in sorted(findings)]


def told_of_ports(text):
    """What is printed of a policy of version 2, as it will be accepted."""
    return [f"{found.position.line}:{found.position.column} {found.text}" for found in read_policy(text.encode(), 2).faults]


def port_table(name, shown, physical, switch=""):
    """A port table, perhaps with the line of its switch."""
    return f'[[port]]\nslice = "{name}"\n{switch}shown = {shown}\nphysical = {physical}\n'


def is_accepted(data):
    return not read_policy(data).faults


def many_slices(count):
    return "version = 1\n" + "".join(f'[[slice]]\nname = "s{slot}"\ncontroller = "c{slot}:1"\n' for slot in range(count))


@needs_program
class Agreement(unittest.TestCase):
    """What is accepted here is accepted there, and the other way round."""

    def setUp(self):
        place = tempfile.TemporaryDirectory()
        self.addCleanup(place.cleanup)
        self.policy = pathlib.Path(place.name) / "policy.toml"

    def check(self, data):
        """Whether both accept a policy; where both refuse it, the fault that the program names is named here too."""
        self.policy.write_bytes(data)
        theirs = run_program("check", self.policy)
        ours = "\n".join(fault.text for fault in read_policy(data).faults)
        self.assertEqual(not ours, theirs.returncode == 0, data)
        if theirs.returncode == 2:
            self.assertRegex(ours, same_fault(theirs.stderr.decode().removesuffix("\n")), data)
        return theirs.returncode == 0

    def test_drawn_policies(self):
        maker = PolicyMaker(20)
        accepted = sum(self.check(maker.policy()) for _ in range(COUNT))
        self.assertGreater(accepted, COUNT // 10)
        self.assertLess(accepted, COUNT * 9 // 10)

    def test_changes_of_the_example(self):
        maker = PolicyMaker(21)
        example = (EXAMPLES / "two-slices.toml").read_text()
        for _ in range(COUNT // 5):
            self.check(maker.mutated(example).encode())

    def test_limits(self):
        for count in (32, 33):
            self.assertEqual(self.check(many_slices(count).encode()), count == 32)
        for count in (2048, 2049):
            self.assertEqual(self.check((TOP + "[[rule]]\npriority = 1\n" * count).encode()), count == 2048)
        for count in (256, 257):
            self.assertEqual(self.check((TOP + '[[rule]]\npriority = 1\nwrite = "bob"\n' * count).encode()), count == 256)
        for size in (1 << 20, (1 << 20) + 1):
            self.assertEqual(self.check((TOP + "#" * (size - len(TOP))).encode()), size == 1 << 20)

    def test_other_bytes(self):
        for data in (b"", b"\xff", TOP.encode() + b"# \xc3\x28", TOP.encode("utf-16"), b"\xef\xbb\xbf" + TOP.encode()):
            self.check(data)


class PortTables(unittest.TestCase):
    """What is printed of policies of version 2."""

    top = TOP.replace("version = 1", "version = 2")

    def assert_told(self, text, *wanted):
        self.assertEqual(told_of_ports(text), list(wanted))

    def test_all_at_once(self):
        self.assert_told(
            self.top + port_table("alcie", 9, 65281) + '[[port]]\nslcie = "bob"\nshown = 1\nphysical = 2\n',
            '9:9 port 0: "alcie" is no slice\'s name; is alice meant?',
            "11:12 port 0: physical is 65281, but must be a number from 0 to 65280",
            "12:1 port 1 has no slice: it is the name of a slice, a text",
            "13:1 port 1 has no key slcie; is slice meant?",
        )

    def test_a_number_twice(self):
        switches = [f'switch = "00000000000000a{number}"\n' for number in range(2)]
        accepted = [port_table("alice", 9, 2, switches[0]), port_table("alice", 2, 5, switches[1]), port_table("bob", 9, 2)]
        self.assert_told(self.top + "".join(accepted))
        self.assert_told(
            self.top + "".join(accepted) + port_table("alice", 5, 7),
            "22:1 port 3 (line 22) names 5 for alice, but port 1 (line 13) names it too, on a common switch",
        )

    def test_versions(self):
        self.assert_told("port = []\n" + TOP, "1:1 a policy has no key port; with version = 2 it may have")
        self.assertEqual(told("port = []\n" + TOP), ["1:1 a policy has no key port; with version = 2 it may have"])
        self.assert_told(TOP.replace("= 1", "= 3", 1), "1:11 version is 3, but must be 1 or 2")
        many = "".join(port_table("alice", number, number) for number in range(1025))
        self.assert_told(self.top + many, "4104:1 there are 1025 ports, but at most 1024 may be")

    def test_a_table_that_exchanges_nothing(self):
        reading = read_policy((self.top + port_table("alice", 3, 3)).encode(), 2)
        self.assertEqual([found.text for found in lint.warnings_of(reading)], ["port 0 (line 8) exchanges nothing: shown and physical are both 3"])


class Faults(unittest.TestCase):
    def assert_told(self, text, *wanted):
        self.assertEqual(told(text), list(wanted))

    def test_all_at_once(self):
        self.assert_told(
            TOP + '[[rule]]\npriorty = 1\nnw_dst = "10.1/16"\nread = ["alic"]\n[[rule]]\npriority = 1\ndl_vlan = 4096\n',
            "8:1 rule 0 has no priority: it is a number from 0 to 4294967295",
            "9:1 rule 0 has no key priorty; is priority meant?",
            "10:1 rule 0: nw_dst needs dl_type 0x0800 or 0x0806 beside it, but dl_type is missing",
            '10:10 rule 0: nw_dst is "10.1/16", but must be an address as "10.1.0.7", '
            'or with a length from 1 to 32 as "10.1.0.0/16"',
            '11:9 rule 0: "alic" is no slice\'s name; is alice meant?',
            "14:11 rule 1: dl_vlan is 4096, but must be a number from 0 to 4095, or 65535",
        )

    def test_top(self):
        self.assert_told(
            "versoin = 1\n",
            "1:1 a policy has no key versoin; is version meant?",
            "1:1 slice is missing: a policy has at least one table [[slice]]",
            "1:1 version is missing: a policy has the line version = 1",
        )
        self.assert_told(TOP.replace("version = 1", "version = 3"), "1:11 version is 3, but must be 1 or 2")
        self.assert_told(
            'version = 1\n[slice]\nname = "alice"\n', "2:1 slice must be tables, each under a header [[slice]] with two brackets"
        )
        self.assert_told("version = 1\nslice = []\n", "2:9 slice is empty, but there must be at least one slice")

    def test_slices(self):
        self.assert_told(
            'version = 1\n[[slice]]\nname = "Alice"\nrate = 0\n[[rule]]\npriority = 1\nwrite = "Alice"\n',
            "2:1 slice 0 has no controller: it is a text of 1 to 255 bytes",
            '3:8 slice 0: name is "Alice", but must be a text of 1 to 32 of a to z, 0 to 9, _ and -',
            "4:8 slice 0: rate is 0, but must be a number from 1 to 1000000",
        )
        self.assert_told(TOP.replace("bob", "alice"), "6:8 slice 1: the name alice is that of slice 0 (line 2)")

    def test_needs(self):
        rule = "[[rule]]\npriority = 1\n"
        needs = "9:1 rule 0: dl_vlan_pcp needs dl_vlan 0 to 4095 beside it, but dl_vlan is"
        self.assert_told(TOP + "[[rule]]\ndl_vlan_pcp = 1\npriority = 1\n", f"{needs} missing")
        self.assert_told(TOP + "[[rule]]\ndl_vlan_pcp = 1\npriority = 1\ndl_vlan = 0xffff\n", f"{needs} 0xffff")
        text = TOP + rule + "dl_type = 0x0800\nnw_proto = 47\ntp_dst = 80\n"
        self.assert_told(text, "12:1 rule 0: tp_dst needs nw_proto 1, 6 or 17 beside it, but nw_proto is 47")
        text = TOP + rule + "dl_type = 65536\nnw_proto = 6\n"
        self.assert_told(text, "10:11 rule 0: dl_type is 65536, but must be a number from 0 to 65535")

    def test_readers(self):
        self.assert_told(
            TOP + '[[rule]]\npriority = 1\nwrite = "alice"\nread = ["bob", "alice",\n "bob"]\n',
            '11:16 rule 0: "alice" stands under write too; it reads what it writes anyway',
            '12:2 rule 0: "bob" stands twice under read',
        )

    def test_not_toml(self):
        text = TOP + '[[rule]\npriority = x\n[[rule]]\npriority = 1\nwrite = alice\nread = ["bob"]\n'
        self.assert_told(
            text,
            "8:7 not TOML: ']]' is missing behind a header",
            "9:12 not TOML: x is no value; a text stands in quotes, and a number has no leading zero",
            "12:9 not TOML: alice is no value; a text stands in quotes, and a number has no leading zero",
        )
        (fault,) = read_policy(b"a = 1\n\xc3\xa9\xff").faults
        self.assertEqual((fault.position, fault.text), (Position(2, 2), "not TOML: a byte that isn't UTF-8"))

    def test_counts(self):
        self.assert_told(many_slices(33), "98:1 there are 33 slices, but at most 32 may be")
        found = told(TOP + '[[rule]]\npriority = 1\nwrite = "bob"\ndl_type = 1\n' * 257)
        self.assertIn("1032:1 bob stands under write in 257 rules, but may in at most 256", found)


class Overlaps(unittest.TestCase):
    def test_both_rules_and_a_packet(self):
        text = TOP + (
            '[[rule]]\npriority = 1\nwrite = "alice"\ndl_type = 2048\nnw_proto = 6\ntp_src = 80\nnw_src = "10.1.0.0/16"\n'
            '[[rule]]\nswitch = "00000000000000a1"\npriority = 2\nwrite = "bob"\ndl_type = 2048\nnw_src = "10.0.0.0/8"\n'
            "[[rule]]\npriority = 9\nin_port = 65534\n"
        )
        overlaps = "overlaps rule 1 (line 15), of bob: tcp,nw_src=10.1.0.0,tp_src=80 on switch 00000000000000a1 is in both"
        self.assertEqual(
            told(text),
            [
                f"8:1 rule 0 (line 8), of alice, {overlaps}",
                "8:1 rule 0 (line 8), of alice, overlaps rule 2 (line 21), nobody's: "
                "tcp,in_port=LOCAL,nw_src=10.1.0.0,tp_src=80 is in both",
                "15:1 rule 1 (line 15), of bob, overlaps rule 2 (line 21), nobody's: "
                "ip,in_port=LOCAL,nw_src=10.0.0.0 on switch 00000000000000a1 is in both",
            ],
        )

    def test_the_packet_is_in_both(self):
        """Of drawn policies each packet that is printed is read again, and lies in both rules."""
        maker = PolicyMaker(22)
        overlap = re.compile(r"rule (\d+) .*overlaps rule (\d+) [^:]*: (\S+)(?: on switch (\w+))? is in both")
        count = 0
        for _ in range(COUNT // 2):
            reading = read_policy(maker.policy())
            rules = {rule.index: rule for rule in reading.policy.rules}
            for later, earlier, packet, switch in overlap.findall("\n".join(found.text for found in reading.faults)):
                for rule in (rules[int(later)], rules[int(earlier)]):
                    self.assertTrue(rule.pattern.covers(packets_of(packet).pattern))
                    self.assertTrue(rule.pattern.holds_on(int(switch, 16) if switch else None))
                    count += 1
        self.assertGreater(count, 100)


class Warnings(unittest.TestCase):
    def assert_warned(self, text, *wanted):
        self.assertTrue(is_accepted(text.encode()))
        self.assertEqual(told(text), list(wanted))

    def test_a_hidden_rule(self):
        rule = '[[rule]]\npriority = {}\nwrite = "alice"\ndl_type = 2048\n'
        text = TOP + rule.format(1) + 'nw_dst = "10.1.0.0/16"\n' + rule.format(2) + 'nw_dst = "10.0.0.0/8"\n'
        self.assert_warned(text, "8:1 rule 0 (line 8) never applies: rule 1 (line 13) comes before it and has all of its packets")
        self.assert_warned(text.replace("priority = 2", "priority = 0"))

    def test_bits_behind_a_prefix(self):
        text = TOP + '[[rule]]\npriority = 1\ndl_type = 2048\nnw_src = "10.1.2.3/16"\nnw_dst = "10.1.2.3/32"\n'
        why = "whose bits behind the first 16 don't count"
        self.assert_warned(text, f'11:10 rule 0: nw_src is "10.1.2.3/16", {why}: it is "10.1.0.0/16"')

    def test_controllers(self):
        for controller, why in (
            ("c:0", "has the port 0, but a port is a number from 1 to 65535"),
            ("c:x", "has the port x, but a port is a number from 1 to 65535"),
            ("c", "has no port, so that it can never be dialled: it is written as host:port"),
            ("300.0.0.1:1", "has the host 300.0.0.1, which is no IPv4 address"),
            ("[::g]:1", "has the host ::g, which is no IPv6 address"),
            ("fd00::5:6633", "has an IPv6 address without brackets: it is written as [fd00::5]:6633"),
            ("a b:1", "has the host 'a b', which is neither an address nor a name"),
        ):
            self.assert_warned(TOP.replace("c:2", controller), f'7:14 slice 1: the controller "{controller}" {why}')
        for controller in ("127.0.0.1:6633", "[fd00::5]:65535", "c-1.example.org.:1", "localhost:06633"):
            self.assert_warned(TOP.replace("c:2", controller))

    def test_a_reader_of_one_of_two_rules(self):
        rule = '[[rule]]\npriority = {}\nwrite = "alice"\n{}dl_type = 2048\n'
        reads = 'read = ["bob"]\n'
        web = "nw_proto = 6\ntp_dst = 80\n"
        missed = "8:1 bob reads rule 0 (line 8), but not rule 1 (line 13), which comes before it and has some of its packets, as tcp,tp_dst=80"
        self.assert_warned(TOP + rule.format(1, reads) + rule.format(2, "") + web, missed)
        self.assert_warned(
            TOP + rule.format(1, "") + rule.format(2, reads) + web,
            "12:1 bob reads rule 1 (line 12), but not rule 0 (line 8), which comes behind it and has packets in common with it, as tcp,tp_dst=80")
        both = TOP + rule.format(1, reads) + rule.format(2, reads) + web
        self.assert_warned(both)
        never = "13:1 rule 1 (line 13) never applies: rule 0 (line 8) comes before it and has all of its packets"
        self.assert_warned(TOP + rule.format(3, reads) + rule.format(2, "") + web, never)
        self.assert_warned(TOP + rule.format(1, reads) + rule.format(2, "").replace("2048", "2054"))
        self.assert_warned(TOP + rule.format(1, reads).replace("alice", "bob").replace('"bob"]', '"alice"]') + rule.format(0, reads).replace("2048", "1"))

    def test_one_controller_for_two(self):
        self.assert_warned(TOP.replace("c:2", "C:1"), "7:14 slice 1: the controller is that of slice 0 (line 2) too")


class Divisions(unittest.TestCase):
    """A policy that divides a slice of another one."""

    OUTER = TOP + '[[rule]]\npriority = 1\nwrite = "alice"\nin_port = 1\n[[rule]]\npriority = 1\nwrite = "bob"\nin_port = 2\n'
    INNER = 'version = 1\n[[slice]]\nname = "carol"\ncontroller = "c:3"\n[[rule]]\npriority = 1\nwrite = "carol"\ndl_vlan = 1\n'

    def setUp(self):
        place = tempfile.TemporaryDirectory()
        self.addCleanup(place.cleanup)
        self.outer, self.inner = (str(pathlib.Path(place.name) / name) for name in ("outer", "inner"))
        pathlib.Path(self.outer).write_text(self.OUTER)

    def lint(self, inner, name="alice"):
        """The status, and what is printed behind the file's name."""
        pathlib.Path(self.inner).write_text(inner)
        outcome = run_tool("lint", "--under", self.outer, name, self.inner)
        return outcome.status, [line.removeprefix(self.inner + ":") for line in outcome.out.splitlines()], outcome.err

    def test_accepted(self):
        self.assertEqual(self.lint(self.INNER), (0, ["accepted: 2 slices, 2 rules"], ""))

    def test_a_rule_that_meets_nothing(self):
        idle = f"5:1: warning: rule 0 (line 5) gives nothing: no rule of alice in {self.outer} has any of its packets"
        self.assertEqual(self.lint(self.INNER + "in_port = 2\n"), (0, [idle, "accepted: 2 slices, 1 rule, 1 warning"], ""))

    def test_refusals(self):
        for inner, told_of in [
            (self.INNER.replace('write = "carol"\n', ""), "5:1: fault: rule 0 (line 5) has no writer, but each rule by which a slice is divided must have one"),
            (self.INNER.replace('"c:3"', '"c:3"\nrate = 1001'), "2:1: fault: the slices have rate 1001 together, but alice has 1000 messages a second"),
            (self.INNER.replace('"c:3"', '"c:3"\nburst = 1001'), "2:1: fault: the slices have burst 1001 together, but alice has 1000 messages at once"),
            (self.INNER.replace('"c:3"', '"c:3"\nquota = 1025'), "2:1: fault: the slices have quota 1025 together, but alice has 1024 flow entries"),
            (self.INNER.replace("carol", "bob"), f"3:8: fault: slice 0: the name bob is that of slice 1 (line 5) of {self.outer}"),
        ]:
            self.assertEqual(self.lint(inner), (1, [told_of, "refused: 1 fault"], ""))

    def test_port_tables(self):
        table = '[[port]]\nslice = "{}"\nshown = 9\nphysical = 2\n'
        why = "has tables [[port]], but a slice can be divided only where no port numbers are exchanged"
        inner = self.INNER.replace("version = 1", "version = 2") + table.format("carol")
        line = inner[: inner.index("[[port]]")].count("\n") + 1
        self.assertEqual(self.lint(inner), (1, [f"{line}:1: fault: {self.inner} {why}", "refused: 1 fault"], ""))
        outer = self.OUTER.replace("version = 1", "version = 2") + table.format("alice")
        pathlib.Path(self.outer).write_text(outer)
        line = outer[: outer.index("[[port]]")].count("\n") + 1
        self.assertEqual(
            self.lint(self.INNER), (1, [f"1:1: fault: {self.outer} {why}: port 0 (line {line}) is its first", "refused: 1 fault"], ""))

    def test_limits(self):
        share = "rate = 1\nburst = 1\nquota = 1\n"
        slices = "".join(f'[[slice]]\nname = "s{slot}"\ncontroller = "c{slot}:1"\n{share}' for slot in range(32))
        status, lines, _ = self.lint("version = 1\n" + slices)
        self.assertEqual((status, lines), (1, ["188:1: fault: there are 33 slices in all, but at most 32 may be", "refused: 1 fault"]))
        rules = "".join(f'[[rule]]\npriority = 1\nwrite = "carol"\ntp_dst = {port}\nnw_proto = 6\ndl_type = 2048\n' for port in range(256))
        halves = self.OUTER.replace("in_port = 1\n", "in_port = 1\n[[rule]]\npriority = 1\nwrite = \"alice\"\nin_port = 3\n", 1)
        pathlib.Path(self.outer).write_text(halves)
        status, lines, _ = self.lint(self.INNER.split("[[rule]]")[0] + rules)
        self.assertEqual((status, lines), (1, ["2:1: fault: carol would write 512 rules, but may write at most 256", "refused: 1 fault"]))

    def test_faults_of_its_own(self):
        self.assertEqual(self.lint(self.INNER.replace("carol", "Carol", 1))[1][-1], "refused: 2 faults")

    def test_other_words(self):
        self.assertEqual(self.lint(self.INNER, "zoe"), (1, [], f"flowvisor-tool: {self.outer}: no slice of it is called zoe\n"))
        pathlib.Path(self.outer).write_text(TOP.replace("bob", "alice"))
        self.assertEqual(self.lint(self.INNER)[::2], (1, f"flowvisor-tool: {self.outer}: it isn't accepted: flowvisor-tool lint prints why\n"))

    @needs_program
    def test_as_the_program_says(self):
        for seed in range(COUNT_OF_DIVISIONS):
            with self.subTest(seed=seed):
                outer, name, inner = DivisionMaker(seed).division()
                pathlib.Path(self.outer).write_bytes(outer)
                program = run_program("flatten", self.outer, name, self.write(inner))
                self.assertEqual(self.lint(inner.decode(), name)[0] == 0, program.returncode == 0, program.stderr)

    def write(self, inner):
        pathlib.Path(self.inner).write_bytes(inner)
        return self.inner


class Command(unittest.TestCase):
    def test_accepted(self):
        outcome = run_tool("lint", EXAMPLES / "two-slices.toml")
        self.assertEqual((outcome.status, outcome.out, outcome.err), (0, "accepted: 2 slices, 2 rules\n", ""))

    def test_warnings_leave_the_verdict(self):
        with tempfile.NamedTemporaryFile("w", suffix=".toml") as file:
            file.write(TOP.replace("c:2", "c:0"))
            file.flush()
            outcome = run_tool("lint", file.name)
        self.assertEqual(outcome.status, 0)
        self.assertRegex(outcome.out, r"\A.*:7:14: warning: .*\naccepted: 2 slices, 0 rules, 1 warning\n\Z")

    def test_strict(self):
        with tempfile.NamedTemporaryFile("w", suffix=".toml") as file:
            file.write(TOP.replace("c:2", "c:0"))
            file.flush()
            self.assertEqual([run_tool("lint", *words, file.name).status for words in ([], ["--strict"])], [0, 1])
        self.assertEqual(run_tool("lint", "--strict", EXAMPLES / "two-slices.toml").status, 0)

    def test_names_that_are_resolved(self):
        hosts = {"here": None, "nowhere": socket.gaierror(-2, "Name or service not known"), "x" * 64: UnicodeError()}

        def resolve(host, port, **_):
            self.assertEqual(port, 1)
            if hosts[host] is not None:
                raise hosts[host]

        with tempfile.NamedTemporaryFile("w", suffix=".toml") as file, unittest.mock.patch("socket.getaddrinfo", resolve):
            for host, told_of in (("here", ""), ("nowhere", "Name or service not known")):
                file.seek(0)
                file.write(TOP.replace("c:1", f"{host}:1").replace("c:2", "here:1"))
                file.truncate()
                file.flush()
                out = run_tool("lint", "--resolve", file.name).out
                why = f'{file.name}:4:14: warning: slice 0: the controller "{host}:1" has the host {host}, which isn\'t resolved here: '
                self.assertEqual([line for line in out.splitlines() if "resolved" in line], [why + told_of] if told_of else [])
                self.assertNotIn("resolved", run_tool("lint", file.name).out)

    def test_refused(self):
        with tempfile.NamedTemporaryFile("w", suffix=".toml") as file:
            file.write(TOP.replace("bob", "Bob"))
            file.flush()
            outcome = run_tool("lint", file.name)
        self.assertEqual(outcome.status, 1)
        self.assertRegex(outcome.out, r"\A.*:6:8: fault: .*\nrefused: 1 fault\n\Z")

    def test_one_line_for_each(self):
        with tempfile.NamedTemporaryFile("w", suffix=".toml") as file:
            file.write(TOP + '"a\\nb" = 1\n')
            file.flush()
            outcome = run_tool("lint", file.name)
        self.assertEqual(outcome.out, f"{file.name}:8:1: fault: slice 1 has no key a\\nb\nrefused: 1 fault\n")

    def test_no_file(self):
        outcome = run_tool("lint", "no-such-file")
        self.assertEqual((outcome.status, outcome.err), (1, "flowvisor-tool: no-such-file: No such file or directory\n"))
