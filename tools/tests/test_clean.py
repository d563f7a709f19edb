"""`flowvisor-tool clean`: the plan of a change of policy, as commands of Open vSwitch and sent to a switch that listens."""
import contextlib
import pathlib
import socket
import struct
import tempfile
import threading
import unittest
import unittest.mock

from running import run_script, run_tool
from sunworsted import message

from devices.messages import Command, flow_mod, port_match
from flowvisor_tool import passive
from flowvisor_tool.openflow.framing import Frames
from flowvisor_tool.openflow.protocol import MessageType as Kind

FIRST_XID = 0xFF000005
LONGEST_WAIT = 20
HELLO = message(Kind.HELLO, 0, b"")
BARRIER_REPLY = message(Kind.BARRIER_REPLY, passive.BARRIER_XID, b"")


def deletion(place, port):
    """The message at a place of a plan, for packets to a TCP port."""
    return flow_mod(port_match(port), b"", Command.DELETE_STRICT, xid=FIRST_XID + place)


def plan_text(*messages, events=5):
    """A plan of messages, each with the number of its switch."""
    lines = [f"{switch} clean {one.hex()}" for switch, one in messages]
    return "".join(f"{line}\n" for line in (*lines, f"end {events} {len(messages)}"))


ONE = plan_text((0, deletion(0, 80)))


class Switch:
    """A switch that listens: it says some bytes at once, and others behind each message of a kind."""

    def __init__(self, at_once=HELLO, behind=None, closes_behind=None):
        self.at_once, self.behind, self.closes_behind = at_once, behind or {Kind.BARRIER_REQUEST: BARRIER_REPLY}, closes_behind
        self.heard = []
        self.listener = socket.create_server(("127.0.0.1", 0))
        self.listener.settimeout(LONGEST_WAIT)
        self.end = "127.0.0.1:%d" % self.listener.getsockname()[1]
        self.thread = threading.Thread(target=self.serve)

    def __enter__(self):
        self.thread.start()
        return self

    def __exit__(self, *_error):
        self.thread.join(LONGEST_WAIT)
        self.listener.close()

    def serve(self):
        connection, _address = self.listener.accept()
        connection.settimeout(LONGEST_WAIT)
        frames = Frames()
        with connection, contextlib.suppress(ConnectionError):
            connection.sendall(self.at_once)
            while data := connection.recv(4096):
                for heard in frames.messages(data):
                    self.heard.append(heard)
                    if heard[1] == self.closes_behind:
                        return
                    connection.sendall(self.behind.get(heard[1], b""))


class Files(unittest.TestCase):
    def setUp(self):
        place = tempfile.TemporaryDirectory()
        self.addCleanup(place.cleanup)
        self.path = pathlib.Path(place.name) / "plan"

    def clean(self, text, *options):
        self.path.write_text(text)
        return run_tool("clean", *options, self.path)

    def assert_fault(self, text, told, *options):
        outcome = self.clean(text, *(options or ("--ovs", "br0")))
        self.assertEqual((outcome.status, outcome.out, outcome.err), (1, "", f"flowvisor-tool: {self.path}: {told}\n"))


class Commands(Files):
    def test_a_command_for_each_message(self):
        outcome = self.clean(plan_text((0, deletion(0, 80)), (0, deletion(1, 22))), "--ovs", "br 0")
        self.assertEqual((outcome.status, outcome.out.splitlines()), (0, [
            "ovs-ofctl --strict del-flows 'br 0' priority=10,tcp,tp_dst=80",
            "ovs-ofctl --strict del-flows 'br 0' priority=10,tcp,tp_dst=22"]))

    def test_standard_input(self):
        outcome = run_script("clean", "--ovs", "br0", input=ONE)
        self.assertEqual((outcome.returncode, outcome.stdout), (0, "ovs-ofctl --strict del-flows br0 priority=10,tcp,tp_dst=80\n"))
        outcome = run_script("clean", "--ovs", "br0", input="end 1\n")
        self.assertEqual((outcome.returncode, outcome.stderr), (1, "flowvisor-tool: standard input: is no plan\n"))

    def test_one_of_several_switches(self):
        text = plan_text((0, deletion(0, 80)), (3, deletion(0, 22)))
        self.assert_fault(text, "is for the switches 0, 3: --switch says for which one it is taken")
        outcome = self.clean(text, "--ovs", "br0", "--switch", "3")
        self.assertEqual(outcome.out, "ovs-ofctl --strict del-flows br0 priority=10,tcp,tp_dst=22\n")
        self.assertEqual(self.clean(text, "--ovs", "br0", "--switch", "1").out, "")

    def test_nothing_to_do(self):
        self.assertEqual(self.clean("end 5 0\n", "--ovs", "br0").out, "")
        outcome = self.clean("end 5 0\n", "--to", "127.0.0.1:1")
        self.assertEqual((outcome.status, outcome.out), (0, "the plan has no message for the switch: nothing was sent\n"))

    def test_faults(self):
        cut_off = "the plan is cut off: its last line, with the number of messages, is missing"
        self.assert_fault("", cut_off)
        self.assert_fault(ONE.split("end")[0], cut_off)
        for other in ("end 5\n", "0 0 lane 01\n", "16 clean 01\n", "0 clean 0\n", "version = 1\n"):
            self.assert_fault(other, "is no plan")
        self.assert_fault("end 5 0\nend 5 0\n", "line 2 stands behind the end of the plan")
        self.assert_fault(ONE.replace("end 5 1", "end 5"), "line 2 is none of a plan")
        self.assert_fault(ONE.replace("end 5 1", "end 5 2"), "has 1 messages, and says that there are 2")
        for other in (deletion(0, 80)[:-1], flow_mod(port_match(80), b"", Command.DELETE), b"\4" + deletion(0, 80)[1:], HELLO):
            self.assert_fault(plan_text((0, other)), "line 1 has no flow-mod that deletes one entry")

    def test_words(self):
        for words in ((), ("--ovs", "a", "--to", "a:1"), ("--to", "a"), ("--to", ":1"), ("--to", "a:0"), ("--ovs", "a", "--switch", "16")):
            self.assertEqual(run_tool("clean", *words).status, 2)

    def test_show(self):
        self.path.write_text(ONE)
        outcome = run_tool("show", self.path)
        self.assertEqual((outcome.status, outcome.out.splitlines()), (0, [
            "0 clean FLOW_MOD xid=0xff000005 command=delete_strict match=tcp,tp_dst=80 priority=10 cookie=0x0 idle_timeout=0"
            " hard_timeout=0 buffer_id=none out_port=NONE flags=0", "end 5 1"]))
        self.path.write_text("end 7 0\n")
        self.assertEqual(run_tool("show", self.path).out, "end 7 0\n")


class Sent(Files):
    """A plan that is sent to a switch."""

    def send(self, switch, text=ONE):
        with switch:
            return self.clean(text, "--to", switch.end)

    def assert_refused(self, switch, told, text=ONE):
        outcome = self.send(switch, text)
        self.assertEqual((outcome.status, outcome.err), (1, f"flowvisor-tool: {switch.end}: {told}\n"))
        return outcome.out

    def test_messages_and_a_barrier(self):
        messages = [deletion(place, 1 + place) for place in range(2000)]
        switch = Switch()
        outcome = self.send(switch, plan_text(*((2, one) for one in messages)))
        self.assertEqual((outcome.status, outcome.out), (0, f"{switch.end}: done, 2000 messages\n"))
        self.assertEqual([one[1] for one in switch.heard], [Kind.HELLO, *[Kind.FLOW_MOD] * 2000, Kind.BARRIER_REQUEST])
        self.assertEqual(switch.heard[1:-1], messages)

    def test_other_messages_of_the_switch(self):
        echo, reply = message(Kind.ECHO_REQUEST, 7, b"abc"), message(Kind.ECHO_REPLY, 7, b"abc")
        other_barrier = message(Kind.BARRIER_REPLY, 7, b"")
        newer = b"\4" + message(Kind.HELLO, 0, b"elements")[1:]
        switch = Switch(newer, {Kind.FLOW_MOD: echo, Kind.BARRIER_REQUEST: other_barrier, Kind.ECHO_REPLY: BARRIER_REPLY})
        outcome = self.send(switch)
        self.assertEqual((outcome.status, outcome.out, switch.heard[-1]), (0, f"{switch.end}: done, 1 message\n", reply))

    def test_refused_messages(self):
        error = message(Kind.ERROR, FIRST_XID, struct.pack(">HH", 3, 2) + deletion(0, 80)[:64])
        switch = Switch(behind={Kind.FLOW_MOD: error, Kind.BARRIER_REQUEST: BARRIER_REPLY})
        out = self.assert_refused(switch, "refused 2 of 2 messages", plan_text((0, deletion(0, 80)), (0, deletion(1, 80))))
        self.assertEqual([line.split()[:2] for line in out.splitlines()], [["ERROR", "xid=0xff000005"]] * 2)

    def test_a_barrier_that_is_not_answered(self):
        told = "closed the connection before it had answered the barrier behind the messages"
        self.assert_refused(Switch(closes_behind=Kind.BARRIER_REQUEST), told)
        with unittest.mock.patch.object(passive, "LONGEST_SILENCE", 0.2):
            silent = Switch(behind={Kind.HELLO: b""})
            self.assert_refused(silent, "hasn't answered the barrier behind the messages within 0.2 seconds")

    def test_no_session(self):
        self.assert_refused(Switch(b"", closes_behind=Kind.HELLO), "closed the connection before it had said hello")
        self.assert_refused(Switch(b"\1" + bytes(7)), "speaks no OpenFlow")
        self.assert_refused(Switch(b"\4" + message(Kind.ECHO_REQUEST, 1, b"")[1:]), "speaks version 4 of the protocol, not 1")
        failed = message(Kind.ERROR, 1, struct.pack(">HH", 0, 0) + b"version")
        self.assertIn("HELLO_FAILED", self.send(Switch(failed)).err)
        with unittest.mock.patch.object(passive, "LONGEST_SILENCE", 0.2):
            self.assert_refused(Switch(b""), "hasn't said hello within 0.2 seconds")

    def test_nobody_listens(self):
        with socket.create_server(("127.0.0.1", 0)) as closed:
            end = "127.0.0.1:%d" % closed.getsockname()[1]
        outcome = self.clean(ONE, "--to", end)
        self.assertEqual((outcome.status, outcome.err), (1, f"flowvisor-tool: {end}: Connection refused\n"))


if __name__ == "__main__":
    unittest.main()
