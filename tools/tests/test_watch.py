"""`flowvisor-tool watch`: what is known of switches and slices, of captures that are made here."""
import contextlib
import fcntl
import gc
import os
import random
import re
import struct
import subprocess
import termios
import unittest
import unittest.mock

from running import EXAMPLES, SCRIPT, run_tool

import cases_of_captures
import cases_of_connections
import cases_of_switches
from from_pcap_cases import one, records_of, small_run, small_run_6
from made_captures import Talk, enhanced, ethernet, interface, pcap, pcap_head, pcap_packet, pcapng, section, timed
from watched import POLICY, START, SWITCH, Scene, Watched, busy_scene, policy_file

from devices.messages import Kind, any_match, flow_mod, output, packet_out, port_match
from devices.traffic import ACK, FIN, RST, SYN, Connection, Site, Wire, slice_flow_mod
from flowvisor_tool.ends import end_of
from flowvisor_tool.watching.following import KEPT, MOST_LINKS
from flowvisor_tool.watching.growing import LARGEST_PACKET
from flowvisor_tool.watching.links import MOST_HELD_BYTES, Link, State
from flowvisor_tool.watching.matching import spelled_anew
from flowvisor_tool.watching.parties import MOST_CODES, Room
from flowvisor_tool.watching.screen import LEAST_COLUMNS, lines_of, rows_of, screen_of
from flowvisor_tool.watching.world import MOST_HAPPENINGS, MOST_SWITCHES, moment_text
from sunworsted import features_reply, message, packet_in, tcp_packet

UP = [
    "switch at 10.1.0.161:20000: connected",
    "switch 00000000000000a1: sent its features, at 10.1.0.161:20000",
    "switch 00000000000000a1: alice: up: 127.0.0.1:6633",
    "switch 00000000000000a1: bob: up: 127.0.0.1:6634",
]
ALICE, BOB = 0, 1
# Bob calls port 2 his port 1.
UPLINKS = """version = 2
[[slice]]
name = "alice"
controller = "127.0.0.1:6633"
[[slice]]
name = "bob"
controller = "127.0.0.1:6634"
[[rule]]
priority = 10
write = "alice"
in_port = 1
[[rule]]
priority = 10
write = "bob"
in_port = 2
[[port]]
slice = "bob"
shown = 1
physical = 2
"""
OTHER_SWITCH = 0xB2
SEED = 20


def told_after(scene, count=len(UP)):
    """What is reported of a scene behind its beginning."""
    return scene.watched().told[count:]


class Connections(unittest.TestCase):
    def test_come_up(self):
        watched = Scene().watched()
        self.assertEqual(watched.told, UP)
        self.assertEqual([one["up"] for one in (watched.switch(), *watched.switch()["slices"])], [True] * 3)

    def test_controllers_leave(self):
        for flags, does in ((FIN | ACK, "ended"), (RST, "reset")):
            scene = Scene()
            scene.site.lose_controller(SWITCH, ALICE, flags)
            self.assertEqual(told_after(scene), [f"switch 00000000000000a1: alice: down: its controller {does} it"])
            watched = scene.watched()
            self.assertEqual((watched.slice("alice")["up"], watched.slice("bob")["up"]), (False, True))
            scene.site.connect_controller(SWITCH, ALICE)
            self.assertEqual(told_after(scene)[1:], ["switch 00000000000000a1: alice: up: 127.0.0.1:6633"])
            self.assertEqual(scene.watched().slice("alice")["connections"], 2)

    def test_the_proxy_closes(self):
        scene = Scene()
        scene.from_controller(BOB, message(Kind.HELLO, 3, b"") + bytes.fromhex("0105000300000004") + bytes(100))
        scene.link(BOB).finish(scene.link(BOB).client)
        expected = "switch 00000000000000a1: bob: down: the proxy ended it, behind a message of its controller whose length is 3"
        self.assertEqual(told_after(scene), [expected])

    def test_a_switch_leaves_and_comes_back(self):
        scene = Scene()
        scene.site.exchange(SWITCH, ALICE)
        scene.site.lose_switch(SWITCH)
        scene.wait(3)
        scene.site.connect_switch(SWITCH)
        self.assertEqual(told_after(scene), [
            "switch 00000000000000a1: down: the switch ended it",
            "switch 00000000000000a1: alice: down: the proxy ended it",
            "switch 00000000000000a1: bob: down: the proxy ended it",
            "switch at 10.1.0.161:20003: connected",
            "switch 00000000000000a1: sent its features, at 10.1.0.161:20003",
        ])
        watched = scene.watched()
        self.assertEqual(len(watched.watcher.world.switches), 1)
        self.assertEqual((watched.switch()["connections"], watched.slice("alice")["entries"]), (2, 0))
        self.assertEqual(watched.watcher.world.switches[0].sent.totals()[Kind.FEATURES_REPLY], 2)

    def test_one_switch_too_many(self):
        scene = Scene()
        talk = (bytes([10, 1, 9, 9]), 5000)
        scene.site.wire.put(talk, Site.PROXY, 9, 0, SYN)
        scene.site.wire.put(Site.PROXY, talk, 99, 10, SYN | ACK)
        scene.site.wire.put(talk, Site.PROXY, 10, 100, ACK)
        scene.site.wire.put(Site.PROXY, talk, 100, 10, FIN | ACK)
        self.assertEqual(told_after(scene)[1:], [
            "switch at 10.1.9.9:5000: down: the proxy ended it without a greeting: it has no place for another switch"])

    def call_the_proxy(self, scene, number, data=b"", flags=FIN | ACK):
        """Somebody who is no switch connects, may send something, and ends the connection."""
        link = Connection(scene.site.wire, (bytes([10, 9, number >> 8, number & 0xFF]), 5000), Site.PROXY)
        link.open()
        if data:
            link.send(link.client, data)
        link.finish(link.client, flags)

    def names(self, watched):
        return [switch["name"] for switch in watched.watcher.state()["switches"]]

    def test_who_connects_and_says_nothing_is_no_switch(self):
        scene = Scene()
        scene.site.connect_switch(OTHER_SWITCH)
        scene.site.lose_switch(OTHER_SWITCH)
        for number in range(2 * MOST_SWITCHES):
            self.call_the_proxy(scene, number, flags=(FIN | ACK, RST)[number % 2])
            scene.wait(2)
        watched = scene.watched()
        self.assertEqual(self.names(watched), ["00000000000000a1", "00000000000000b2"])
        self.assertEqual((watched.switch()["up"], watched.watcher.world.forgotten), (True, 0))
        self.assertIn("switch at 10.9.0.3:5000: down: the switch reset it", watched.told)

    def test_who_never_says_which_switch_it_is_goes_first(self):
        scene = Scene()
        scene.site.connect_switch(OTHER_SWITCH)
        scene.site.lose_switch(OTHER_SWITCH)
        for number in range(2 * MOST_SWITCHES):
            self.call_the_proxy(scene, number, b"GET / HTTP/1.1\r\n\r\n")
            scene.wait(2)
        watched = scene.watched()
        names = self.names(watched)
        self.assertEqual((names[:2], len(names)), (["00000000000000a1", "00000000000000b2"], MOST_SWITCHES))
        self.assertIn(f"at 10.9.0.{2 * MOST_SWITCHES - 1}:5000", names)
        self.assertEqual(watched.watcher.world.forgotten, 0)
        for number in range(2 * MOST_SWITCHES):
            Connection(scene.site.wire, (bytes([10, 8, 0, number]), 5000), Site.PROXY).open()
        names = self.names(scene.watched())
        self.assertEqual((names[0], len(names)), ("00000000000000a1", MOST_SWITCHES))

    def test_a_controller_of_who_was_no_switch(self):
        """The proxy's connection was taken for that of the only one there: it goes to the switch that it is told of."""
        scene = Scene(connect=False)
        link = Connection(scene.site.wire, (Site.host(OTHER_SWITCH), 5000), Site.PROXY)
        link.open()
        alice = scene.site.controllers[SWITCH, ALICE] = Connection(scene.site.wire, (Site.PROXY[0], 7), Site.ALICE)
        alice.open()
        link.finish(link.client)
        watched = scene.watched()
        self.assertEqual(self.names(watched), [])
        self.assertEqual([stray["up"] for stray in watched.watcher.state()["strays"]], [True])
        scene.site.connect_switch(SWITCH)
        scene.to_controller(ALICE, features_reply(2, SWITCH, (1,)))
        watched = scene.watched()
        self.assertEqual((watched.slice("alice")["up"], watched.watcher.state()["strays"]), (True, []))

    def test_calls_that_come_to_nothing(self):
        for answer, reason in ((RST | ACK, "nobody listens there"), (None, "has not answered")):
            scene = Scene()
            scene.site.lose_controller(SWITCH, ALICE)
            for port in (7000, 7001):
                scene.wait(5)
                caller = Site.PROXY[0], port
                scene.site.wire.put(caller, Site.ALICE, 9, 0, SYN)
                scene.site.wire.put(*((Site.ALICE, caller, 0, 10, answer) if answer else (caller, Site.ALICE, 9, 0, RST)))
            watched = scene.watched()
            expected = f"its controller ended it; was called, and {reason}"
            self.assertEqual((watched.slice("alice")["up"], watched.slice("alice")["reason"]), (False, expected))
            scene.site.connect_controller(SWITCH, ALICE)
            self.assertEqual(scene.watched().slice("alice")["reason"], "")

    def test_silence(self):
        scene = Scene()
        link = scene.link(ALICE)
        for second in range(8):
            scene.site.wire.put(link.client, link.server, link.at[link.client], link.at[link.server], ACK, bytes(8))
            scene.wait(1)
        self.assertEqual(told_after(scene), [
            "switch 00000000000000a1: alice: silent: what it or the proxy has sent isn't acknowledged for 5 seconds"])
        self.assertTrue(scene.watched().slice("alice")["silent"])
        link.at[link.client] += 8
        scene.wait(1)
        scene.from_controller(ALICE, message(Kind.ECHO_REQUEST, 1, b""))
        scene.wait(1)
        scene.to_switch(message(Kind.ECHO_REPLY, 1, b""))
        self.assertIn("switch 00000000000000a1: alice: answers again", scene.watched().told)

    def test_for_how_long_it_is_silent(self):
        """A second without a packet counts, too; a clock that is set back counts nothing."""
        scene = Scene()
        link = scene.link(ALICE)
        for wait in (1, 1, 40, 0.25, -1000):
            scene.site.wire.put(link.client, link.server, link.at[link.client], link.at[link.server], ACK, bytes(8))
            scene.wait(wait)
        watched = scene.watched()
        self.assertEqual(watched.slice("alice")["reason"], "silent for 42 s: what is sent isn't acknowledged")
        scene.from_controller(BOB, message(Kind.ECHO_REQUEST, 1, b""))
        watched = scene.watched()
        labels = 'switch="00000000000000a1",slice="alice"'
        self.assertIn(f"flowvisor_slice_silent_seconds{{{labels}}} 42\n", watched.watcher.metrics_text())

    def test_two_switches_at_once(self):
        """Both are up before any controller is called: the features that the proxy tells say which connection is whose."""
        scene = Scene(connect=False)
        for datapath in (1, 2):
            scene.site.connect_switch(datapath)
        for datapath in (2, 1):
            scene.site.connect_controller(datapath, ALICE)
        watched = scene.watched()
        self.assertEqual(watched.told[4:], [
            "switch 0000000000000002: alice: up: 127.0.0.1:6633", "switch 0000000000000001: alice: up: 127.0.0.1:6633"])
        self.assertEqual(watched.slice("alice", 0)["got"], watched.slice("alice", 1)["got"])

    def test_a_connection_whose_switch_is_not_known(self):
        scene = Scene(connect=False)
        for datapath in (1, 2):
            scene.site.connect_switch(datapath)
        scene.site.wire.put((Site.PROXY[0], 7), Site.ALICE, 9, 0, SYN)
        scene.site.wire.put(Site.ALICE, (Site.PROXY[0], 7), 99, 10, SYN | ACK)
        watched = scene.watched()
        self.assertEqual([(stray["name"], stray["up"]) for stray in watched.watcher.state()["strays"]], [("alice", True)])
        scene.site.wire.put(Site.ALICE, (Site.PROXY[0], 7), 100, 10, FIN | ACK)
        self.assertEqual(scene.watched().watcher.state()["strays"], [])


class Refusals(unittest.TestCase):
    def refused(self, error, asked, slot=ALICE, policy=POLICY):
        """What is reported of a message that is answered by an error."""
        scene = Scene()
        scene.site.refused(SWITCH, slot, error, asked)
        watched = scene.watched(policy)
        name = ("alice", "bob")[slot]
        start = f"switch 00000000000000a1: {name}: refused: "
        self.assertTrue(watched.told[-1].startswith(start), watched.told[-1])
        self.assertEqual(watched.slice(name)["refusals"][-1][1], watched.told[-1].removeprefix(start))
        self.assertEqual(sum(count for _code, count in watched.slice(name)["refused"]), 1)
        return watched.told[-1].removeprefix(start)

    def test_outside_the_slice(self):
        start = "FLOW_MOD add {} priority=10 actions=output:2: OFPET_FLOW_MOD_FAILED OFPFMFC_EPERM: "
        self.assertEqual(
            self.refused((3, 2), flow_mod(port_match(22), output(2))),
            start.format("tcp,tp_dst=22") + "it is outside alice: rule 1 (line 19), of bob, has all of its packets")
        self.assertEqual(
            self.refused((3, 2), flow_mod(port_match(443), output(2))),
            start.format("tcp,tp_dst=443") + "it is outside alice: no rule has any of its packets")
        self.assertEqual(
            self.refused((3, 2), flow_mod(any_match(), output(2)), BOB).rpartition(": ")[2], "the switch refuses it")

    def test_by_rate_and_quota(self):
        asked = flow_mod(port_match(80), output(2))
        self.assertTrue(self.refused((1, 5), asked).endswith(
            "OFPET_BAD_REQUEST OFPBRC_EPERM: its rate of 1000 messages a second is used up"))
        self.assertTrue(self.refused((3, 0), asked).endswith("its quota of 1024 entries is used up, or the switch's table is full"))
        with policy_file(POLICY.read_text().replace('name = "alice"', 'name = "alice"\nrate = 7\nquota = 0x10')) as path:
            self.assertTrue(self.refused((1, 5), asked, policy=path).endswith("its rate of 7 messages a second is used up"))
            self.assertIn("its quota of 16 entries is used up", self.refused((3, 0), asked, policy=path))

    def test_packets_of_others(self):
        told = self.refused((1, 5), packet_out(tcp_packet(22), output(2)))
        self.assertTrue(told.startswith("[PACKET_OUT xid=0x00000007 length="), told)
        self.assertTrue(told.endswith(",tp_src=1024,tp_dst=22: rule 1 (line 19), of bob, has it"), told)
        self.assertTrue(self.refused((1, 5), packet_out(tcp_packet(80), output(2))).endswith("is used up"))

    def test_ports(self):
        with policy_file(POLICY.read_text().replace('write = "alice"', 'write = "alice"\nin_port = 1')) as path:
            told = self.refused((2, 4), flow_mod(port_match(80), output(1) + output(9)), policy=path)
            self.assertTrue(told.endswith("OFPBAC_BAD_OUT_PORT: port 9 isn't one to which alice may send: its ports are 1 by rule 0 (line 12)"), told)
            told = self.refused((2, 4), packet_out(tcp_packet(80), output(0xFFFA)), policy=path)
            self.assertTrue(told.endswith("port NORMAL isn't one to which alice may send: its ports are 1 by rule 0 (line 12)"), told)

    def test_ports_of_its_own(self):
        def match(port):
            return (0x3820FE).to_bytes(4) + port.to_bytes(2) + bytes(34)

        with policy_file(UPLINKS) as path:
            told = self.refused((3, 2), flow_mod(match(2), output(1)), BOB, path)
            self.assertTrue(told.endswith("it is outside bob: rule 0 (line 8), of alice, has all of its packets"), told)
            told = self.refused((2, 4), flow_mod(match(1), output(1) + output(2)), BOB, path)
            self.assertTrue(told.endswith("port 2 isn't one to which bob may send: its ports are 1 by rule 1 (line 12)"), told)

    def test_messages_that_are_cut(self):
        for kind, most in ((Kind.PACKET_OUT, 16), (Kind.FLOW_MOD, 80)):
            for size in range(8, most + 1):
                for error in ((1, 5), (1, 6), (2, 4), (3, 2)):
                    self.refused(error, message(kind, 3, bytes(size - 8)))

    def test_what_else_is_answered(self):
        self.assertEqual(
            self.refused((1, 8), packet_out(b"", output(2))).partition(": ")[2],
            "OFPET_BAD_REQUEST OFPBRC_BUFFER_UNKNOWN: no packet is held under this buffer's number")
        self.assertEqual(self.refused((77, 5), message(Kind.VENDOR, 3, bytes(8))).partition(": ")[2], "77 5")
        scene = Scene()
        scene.to_controller(ALICE, message(Kind.ERROR, 3, struct.pack(">HH", 1, 6)))
        self.assertEqual(scene.watched().told[-1], "switch 00000000000000a1: alice: refused: OFPET_BAD_REQUEST OFPBRC_BAD_LEN")

    def test_many_are_told_by_their_number(self):
        scene = Scene()
        for number in range(50):
            scene.site.refused(SWITCH, ALICE, (3, 2), flow_mod(port_match(443), b"", xid=number))
        told = told_after(scene)
        self.assertEqual(told[5:], ["switch 00000000000000a1: alice: 45 messages more refused in this second"])
        self.assertEqual(scene.watched().slice("alice")["refused"], [("OFPET_FLOW_MOD_FAILED OFPFMFC_EPERM", 50)])

    def test_as_many_codes_as_there_are(self):
        scene = Scene()
        for code in range(1000):
            scene.to_controller(ALICE, message(Kind.ERROR, 1, struct.pack(">HH", code, code)))
        refused = dict(scene.watched().slice("alice")["refused"])
        self.assertEqual((len(refused), refused["other errors"]), (MOST_CODES + 1, 1000 - MOST_CODES))


class Counts(unittest.TestCase):
    def test_messages_a_second(self):
        scene = Scene()
        scene.wait(1)
        for slot, count in ((ALICE, 7), (BOB, 2)):
            for _each in range(count):
                scene.site.exchange(SWITCH, slot)
        watched = scene.watched()
        self.assertEqual(dict(watched.switch()["sent"]), {"PACKET_IN": 9})
        self.assertEqual(dict(watched.switch()["got"]), {"FLOW_MOD": 9})
        self.assertEqual(dict(watched.slice("alice")["sent"]), {"FLOW_MOD": 7})
        self.assertEqual(dict(watched.slice("bob")["got"]), {"PACKET_IN": 2})
        alice = watched.slice("alice")
        self.assertEqual((alice["rated"], alice["flow_mods"], alice["pieces"], alice["entries"]), (7, 7, 7, 7))
        scene.wait(20)
        scene.site.exchange(SWITCH, BOB)
        self.assertEqual(sum(scene.watched().slice("alice")["plot"][0]) * 5, 2 + 7)

    def test_entries(self):
        scene = Scene()
        scene.to_switch(slice_flow_mod(80, 1, 0) * 3 + slice_flow_mod(80, 2, 1) + slice_flow_mod(22, 2, 1 << 24))
        self.assertEqual(self.entries(scene), (2, 1))
        # The switch may spell what is free in another way.
        free = struct.pack(">IH", 0x00FF_FFFF & ~0x0038204F ^ 0x00FF_FFFF | 0x3F << 8 | 0xFF << 24, 9)
        removed = free + port_match(80)[6:] + struct.pack(">QHBxIIHxxQQ", 0, 1, 0, 1, 0, 0, 5, 500)
        scene.from_switch(message(Kind.FLOW_REMOVED, 0, removed))
        self.assertEqual(self.entries(scene), (1, 1))
        scene.from_switch(message(Kind.ERROR, 1, struct.pack(">HH", 3, 0) + slice_flow_mod(80, 2, 1)[:64]))
        scene.from_switch(message(Kind.ERROR, 9, struct.pack(">HH", 3, 0) + slice_flow_mod(22, 2, 9)[:64]))
        self.assertEqual(self.entries(scene), (0, 1))

    def entries(self, scene):
        watched = scene.watched()
        return watched.slice("alice")["entries"], watched.slice("bob")["entries"]

    def test_no_more_entries_than_the_quota(self):
        scene = Scene()
        for number in range(1100):
            scene.to_switch(slice_flow_mod(80, number, number))
        alice = scene.watched().slice("alice")
        self.assertEqual((alice["entries"], alice["entries_at_least"]), (1024, True))

    def see_with_room(self, scene, most):
        """A scene is watched with room for so many entries, which are never more."""
        watched = Watched()
        world = watched.watcher.world
        world.room = Room(most)
        for part in scene.parts:
            watched.watcher.feed(part)
            self.assertEqual(sum(len(switch.entries) for switch in world.switches), most - world.room.entries)
            self.assertGreaterEqual(world.room.entries, 0)
        return watched

    def book(self, scene, datapath, numbers):
        """A switch is sent flow-mods of alice."""
        link = scene.site.switches[datapath]
        for number in numbers:
            link.send(link.server, slice_flow_mod(80, number, number))

    def test_all_switches_have_one_room_for_entries(self):
        def lose(scene):
            scene.site.lose_switch(SWITCH)

        def forget(scene):
            scene.site.connect_switch(0xC3)

        for remove in (lose, forget):
            scene = Scene()
            scene.wait(1)
            scene.site.connect_switch(OTHER_SWITCH)
            self.book(scene, SWITCH, range(3))
            self.book(scene, OTHER_SWITCH, range(4))
            with unittest.mock.patch("flowvisor_tool.watching.world.MOST_SWITCHES", 2):
                watched = self.see_with_room(scene, 5)
                alices = [watched.slice("alice", place) for place in (0, 1)]
                self.assertEqual([(one["entries"], one["entries_at_least"]) for one in alices], [(3, False), (2, True)])
                remove(scene)
                self.book(scene, OTHER_SWITCH, range(10, 20))
                watched = self.see_with_room(scene, 5)
            (other,) = (switch for switch in watched.watcher.world.switches if switch.datapath == OTHER_SWITCH)
            self.assertEqual((len(other.entries), other.slices[ALICE].entries_at_least), (5, True))

    def test_an_entry_that_is_refused_gives_its_room_back(self):
        scene = Scene()
        scene.site.connect_switch(OTHER_SWITCH)
        self.book(scene, SWITCH, range(5))
        scene.from_switch(message(Kind.ERROR, 1, struct.pack(">HH", 3, 0) + slice_flow_mod(80, 1, 1)[:64]))
        self.book(scene, OTHER_SWITCH, range(3))
        watched = self.see_with_room(scene, 5)
        self.assertEqual([watched.slice("alice", place)["entries"] for place in (0, 1)], [4, 1])

    def test_a_connection_gives_its_room_back_where_its_switch_was_there_before(self):
        scene = Scene()
        self.book(scene, SWITCH, range(2))
        link = scene.site.switches[SWITCH] = Connection(scene.site.wire, (Site.host(SWITCH), 9), Site.PROXY)
        link.open()
        self.book(scene, SWITCH, range(2))
        self.assertEqual(self.see_with_room(scene, 5).watcher.world.room.entries, 1)
        scene.from_switch(features_reply(1, SWITCH, (1,)))
        self.assertEqual(self.see_with_room(scene, 5).watcher.world.room.entries, 5)
        self.book(scene, SWITCH, range(9))
        self.assertEqual(self.see_with_room(scene, 5).slice("alice")["entries"], 5)

    def test_packets_for_nobody(self):
        scene = Scene()
        scene.from_switch(packet_in(0, 3, tcp_packet(443)))
        probe = bytes.fromhex("0180c200000e00000000000188cc0000") + bytes(36) + b"FVSL" + bytes(4)
        scene.from_switch(packet_in(0, 1, tcp_packet(80)) + packet_in(0, 1, probe))
        watched = scene.watched()
        self.assertEqual(watched.switch()["nobody"], 1)
        packet = "tcp,in_port=3,dl_src=00:00:00:00:00:01,dl_dst=00:00:00:00:00:02,nw_src=10.0.0.1,nw_dst=10.0.0.2,tp_src=1024,tp_dst=443"
        nearest = "nearest is rule 0 (line 12), not by tp_dst = 80"
        self.assertEqual(watched.told[-1], f"switch 00000000000000a1: a packet for nobody: {packet}; {nearest}")

    def test_matches_are_spelled_as_the_proxy_does(self):
        every = struct.pack(">I36x", 0x003820FF)
        for match in (every, port_match(80), bytes(40)):
            self.assertEqual(spelled_anew(match), match)
        # A port means nothing without its protocol.
        for match in (any_match(), b"\xff" * 40, struct.pack(">I34xH", 0x003FFF7F, 80)):
            self.assertEqual(spelled_anew(match), every)


class Lacking(unittest.TestCase):
    """Captures that begin late, and that lack some of what was sent."""

    def test_a_capture_that_begins_late(self):
        scene = Scene()
        for _each in range(20):
            scene.site.exchange(SWITCH, ALICE)
        scene.site.exchange(SWITCH, BOB)
        watched = Watched()
        self.assertIsNone(watched.see(scene.parts[0] + b"".join(scene.parts[60:])))
        self.assertEqual(sorted(watched.told), [
            "switch at 10.1.0.161:20000: alice: was connected before the capture began: 127.0.0.1:6633",
            "switch at 10.1.0.161:20000: bob: was connected before the capture began: 127.0.0.1:6634",
            "switch at 10.1.0.161:20000: was connected before the capture began",
        ])
        self.assertFalse(watched.switch()["known"])
        self.assertTrue(watched.slice("alice")["entries_at_least"])
        self.assertEqual(watched.watcher.follower.unread(), 0)

    def test_that_begins_within_a_message(self):
        scene = Scene()
        scene.wait(1)
        scene.site.exchange(SWITCH, ALICE, 40)
        capture = scene.capture()
        whole = scene.watched().slice("alice")["flow_mods"]
        self.assertEqual(whole, 40)
        # The first 100 bytes of the segment with the flow-mods aren't there.
        link = scene.link(ALICE)
        first = link.at[link.server] - 40 * 80 + 100
        sent = b"".join(slice_flow_mod(80, number, number) for number in range(40))
        parts = []
        wire = Wire(parts.append, START)
        wire.put(link.server, link.client, first, link.at[link.client], ACK, sent[100:])
        watched = Watched()
        self.assertIsNone(watched.see(b"".join(parts)))
        (stray,) = watched.watcher.world.strays.values()
        self.assertEqual((stray.sent.totals()[Kind.FLOW_MOD], watched.watcher.follower.unread()), (38, 60))
        self.assertGreater(len(capture), 0)

    def test_a_switch_that_is_known_by_what_a_controller_is_told(self):
        scene = Scene(connect=False)
        scene.site.connect_switch(SWITCH)
        late = scene.parts[0], len(scene.parts)
        scene.from_switch(message(Kind.ECHO_REQUEST, 5, b""))
        scene.site.connect_controller(SWITCH, ALICE)
        watched = Watched()
        self.assertIsNone(watched.see(late[0] + b"".join(scene.parts[late[1] :])))
        self.assertEqual(watched.switch()["name"], "00000000000000a1")
        self.assertTrue(watched.slice("alice")["up"])

    def test_bytes_that_are_missing(self):
        for place in ("switch", "proxy"):
            scene = Scene()
            link = scene.link()
            source = link.client if place == "switch" else link.server
            scene.wait(1)
            link.send(source, message(Kind.ECHO_REQUEST, 1, b"") * 3)
            link.lose(source, 5000)
            scene.wait(1)
            for _each in range(100):
                link.send(source, message(Kind.ECHO_REPLY, 1, bytes(90)))
            scene.wait(3)
            scene.from_switch(message(Kind.ECHO_REQUEST, 5, b""))
            watched = scene.watched()
            self.assertEqual(watched.watcher.follower.missing(), 5000)
            tally = watched.watcher.world.switches[0]
            totals = (tally.sent if place == "switch" else tally.got).totals()
            self.assertEqual((totals[Kind.ECHO_REPLY], watched.watcher.follower.unread()), (100, 0))

    def test_segments_in_another_order(self):
        draws = random.Random(SEED)
        for _each in range(30):
            talk = Talk("10.1.0.161:5000", "10.0.0.1:6653")
            echoes = b"".join(message(Kind.ECHO_REQUEST, number, bytes(number % 50)) for number in range(40))
            cuts = sorted(draws.sample(range(1, len(echoes)), 20))
            spans = list(zip([0, *cuts], [*cuts, len(echoes)]))
            packets = [talk.from_client(first, echoes[first : last + draws.randrange(9)]) for first, last in spans]
            packets += draws.sample(packets, 8)
            for place in range(len(packets) - 4):
                if draws.random() < 0.5:
                    packets[place], packets[place + 3] = packets[place + 3], packets[place]
            watched = Watched()
            self.assertIsNone(watched.see(pcap(timed([*talk.opening(), *packets]))))
            self.assertEqual(watched.watcher.world.switches[0].sent.totals()[Kind.ECHO_REQUEST], 40)
            self.assertEqual((watched.watcher.follower.missing(), watched.watcher.follower.unread()), (0, 0))

    def test_a_packet_that_is_a_little_older(self):
        """It is of the second before: neither a gap is given up by that, nor a connection forgotten that has just ended."""
        scene = Scene()
        link, alice = scene.link(), scene.link(ALICE)
        at, echo = link.at[link.client], message(Kind.ECHO_REQUEST, 1, b"")
        scene.wait(1.0001)
        scene.site.wire.put(link.client, link.server, at + len(echo), link.at[link.server], ACK, echo)
        alice.finish(alice.server)
        scene.wait(-0.0002)
        scene.from_controller(BOB, echo)
        scene.wait(0.0004)
        scene.site.wire.put(link.client, link.server, at, link.at[link.server], ACK, echo)
        alice.send(alice.client, echo)
        watched = scene.watched()
        self.assertEqual(watched.told[len(UP) :], ["switch 00000000000000a1: alice: down: its controller ended it"])
        self.assertEqual(watched.watcher.follower.missing(), 0)
        self.assertEqual(watched.watcher.world.switches[0].sent.totals()[Kind.ECHO_REQUEST], 2)

    def test_packets_that_were_cut(self):
        scene = Scene()
        cut = []
        for part in scene.parts[1:]:
            head, packet = part[:16], part[16:]
            seconds, ticks, size, full = struct.unpack("<IIII", head)
            cut.append(struct.pack("<IIII", seconds, ticks, min(size, 60), full) + packet[:60])
        watched = Watched()
        self.assertIsNone(watched.see(scene.parts[0] + b"".join(cut)))
        self.assertGreater(watched.watcher.follower.missing(), 0)
        self.assertTrue(watched.switch()["up"])


class Forms(unittest.TestCase):
    def test_in_any_pieces(self):
        scene = Scene()
        scene.site.exchange(SWITCH, ALICE, 5)
        scene.site.lose_controller(SWITCH, BOB)
        wanted = scene.watched()
        for size in (1, 7, 100, 4096):
            watched = Watched()
            self.assertIsNone(watched.see(scene.capture(), size))
            self.assertEqual((watched.told, watched.watcher.state()), (wanted.told, wanted.watcher.state()))

    def test_the_cases_of_from_pcap(self):
        """The same connections in each form of capture, on each kind of link."""
        given = [("alice", end_of("10.0.0.5:6653")), ("bob", end_of("10.0.0.6:6654"))]
        given_6 = [("alice", end_of("[fd00::5]:6653")), ("bob", end_of("[fd00::6]:6654"))]
        cases = [*cases_of_captures.formats(), *cases_of_captures.links()]
        runs = [case for case in cases if isinstance(case.expected, bytes) and len(list(records_of(case.expected))) == 9]
        for case in runs:
            with self.subTest(case.name):
                watched = Watched(switch_port=(None, 6633), given=given_6 if case.name.startswith("IPv6") else given)
                problem = watched.see(case.capture)
                self.assertIsNone(problem)
                self.assertEqual(watched.told[-1], "switch 00000000000000a1: alice: down: its controller ended it")
                self.assertEqual((watched.slice("alice")["up"], watched.slice("bob")["up"]), (False, True))
        self.assertGreater(len(runs), 50)

    def test_moments(self):
        self.assertEqual(moment_text(START + 0.25), "2023-11-14T22:13:20.250Z")
        for time in (1e300, -1e300, float("inf"), float("nan")):
            self.assertEqual(moment_text(time), "an unknown time")


class Hostile(unittest.TestCase):
    """What nobody means well by never ends it by an exception, and is kept in bounds."""

    def see(self, capture):
        given = [("alice", end_of("10.0.0.5:6653")), ("bob", end_of("10.0.0.6:6654"))]
        watched = Watched(switch_port=(None, 6633), given=given)
        watched.see(capture, 5000)
        watched.watcher.state()
        watched.watcher.metrics_text()
        return watched

    def test_all_that_from_pcap_is_tried_with(self):
        groups = []
        of_connections = cases_of_connections, ("sequences", "ends", "misplaced_ends")
        for module, rows in ((cases_of_captures, ()), of_connections, (cases_of_switches, ())):
            for name in vars(module):
                function = getattr(module, name)
                if getattr(function, "__module__", None) == module.__name__ and callable(function):
                    groups.append((function, name in rows))
        count = 0
        for function, is_rows in groups:
            try:
                cases = list(function())
            except TypeError:
                continue
            for case in cases:
                if is_rows:
                    case = one(*case[:2])
                if hasattr(case, "capture"):
                    self.see(case.capture)
                    count += 1
        self.assertGreater(count, 400)

    def test_damaged_bytes(self):
        draws = random.Random(SEED)
        packets = small_run()[0] + small_run_6()[0]
        for whole in (pcap(timed(packets)), pcapng(timed(packets))):
            for _each in range(300):
                damaged = bytearray(whole)
                for _damage in range(draws.choice((1, 3, 30))):
                    damaged[draws.randrange(len(damaged))] = draws.choice((0, 1, 0xFF, draws.randrange(256)))
                self.see(bytes(damaged))

    def test_messages_drawn_at_random(self):
        draws = random.Random(SEED)
        for _each in range(60):
            scene = Scene()
            for _message in range(60):
                kind, size = draws.randrange(24), draws.choice((0, 3, 4, 8, 24, 40, 64, 80, 120))
                said = bytearray(message(kind, draws.choice((0, 1, 1 << 24)), draws.randbytes(size)))
                if draws.random() < 0.05:
                    said[draws.randrange(4)] = draws.randrange(256)
                source = draws.choice((scene.from_switch, scene.to_switch))
                if draws.random() < 0.5:
                    draws.choice((scene.from_controller, scene.to_controller))(draws.randrange(2), bytes(said))
                else:
                    source(bytes(said))
                scene.wait(draws.choice((0, 0, 0.3, 2)))
            scene.watched().watcher.metrics_text()

    def test_bytes_without_any_sense(self):
        draws = random.Random(SEED)
        for data in (b"\x01" * 60000, b"\x01\x01" * 30000, bytes(60000), draws.randbytes(60000)):
            scene = Scene()
            scene.link().lose(scene.link().client, 10)
            for _each in range(80):
                scene.from_switch(data)
            scene.watched()

    def test_many_connections(self):
        parts = []
        wire = Wire(parts.append, START)
        for number in range(3 * MOST_LINKS):
            switch = bytes([10, 2, number >> 8, number & 0xFF]), 1000
            wire.put(switch, Site.PROXY, 1, 0, SYN)
            wire.put(Site.PROXY, switch, 1, 2, SYN | ACK)
            wire.time += 1e-3
        watched = Watched()
        self.assertIsNone(watched.see(b"".join(parts)))
        self.assertLessEqual(len(watched.watcher.follower.links), MOST_LINKS)
        self.assertLessEqual(len(watched.watcher.follower.sides), 2 * MOST_LINKS)
        self.assertLessEqual(len(watched.watcher.world.switches), MOST_SWITCHES)
        self.assertLessEqual(len(watched.watcher.world.happenings), MOST_HAPPENINGS)

    def test_calls_push_no_connection_out_that_is_up(self):
        """So with a few that are up, and with as many as there is room for but for a quarter, or for one."""
        for up in (3, MOST_LINKS * 7 // 8, MOST_LINKS - 1):
            scene = Scene()
            for number in range(up - 3):
                Connection(scene.site.wire, (bytes([10, 3, number >> 8, number & 0xFF]), 1000), Site.BOB).open()
            scene.wait(10)
            for number in range(2 * MOST_LINKS):
                talk = bytes([10, 2, number >> 8, number & 0xFF]), 1000
                scene.site.wire.put(talk, Site.PROXY, 1, 0, SYN)
                if number == 9:  # one of them has ended
                    scene.site.wire.put(Site.PROXY, talk, 0, 2, RST | ACK)
                scene.wait(1e-3)
            watched = scene.watched()
            links = list(watched.watcher.follower.links)
            self.assertLessEqual(len(links), MOST_LINKS)
            self.assertEqual(sum(link.state is State.UP for link in links), up)
            self.assertEqual([one["up"] for one in (watched.switch(), *watched.switch()["slices"])], [True] * 3)
            self.assertIn(number, [int.from_bytes(link.client[0][2:], "big") for link in links if link.state is State.CALLED])

    def test_connections_that_are_over_are_freed_without_a_collection(self):
        scene = Scene()
        for _time in range(100):
            scene.site.lose_controller(SWITCH, ALICE)
            scene.site.connect_controller(SWITCH, ALICE)
            scene.wait(KEPT)
        gc.collect()
        gc.disable()
        try:
            watched = scene.watched()
            self.assertEqual(watched.slice("alice")["connections"], 101)
            links = [one for one in gc.get_objects() if isinstance(one, Link)]
        finally:
            gc.enable()
        self.assertLessEqual(len(links), len(watched.watcher.follower.links))

    def test_clocks_that_are_set(self):
        scene = Scene()
        for step in (1e6, -5e5, 1e8, -1e8, 0, 2, -3):
            scene.wait(step)
            scene.site.exchange(SWITCH, ALICE)
        watched = scene.watched()
        self.assertEqual(watched.slice("alice")["flow_mods"], 7)

    def test_much_out_of_order(self):
        scene = Scene()
        link = scene.link()
        for number in range(5000):
            at = link.at[link.client] + 2000 * (5000 - number)
            scene.site.wire.put(link.client, link.server, at, link.at[link.server], ACK, bytes(1000))
        watched = scene.watched()
        for one_link in watched.watcher.follower.links:
            self.assertLessEqual(len(one_link.peer.held), 64)

    def test_long_segments_behind_gaps(self):
        """A segment may be longer than an IPv4 packet says, which has a length of 0 then; each is behind a gap of its own."""
        talk = Talk("10.1.0.161:5000", "10.0.0.1:6653")
        for sizes in ((1, LARGEST_PACKET - 100), (LARGEST_PACKET - 100, 1), (1, 1, LARGEST_PACKET - 100, 1), (100_000,) * 3):
            watched = Watched()
            watched.watcher.feed(pcap(timed(talk.opening())))
            at, most = 100, 0
            for moment, size in enumerate(sizes, 3):
                watched.watcher.feed(pcap_packet(moment, ethernet(talk.from_client(at, bytes(size), length=0))))
                at += size + 100
                (link,) = watched.watcher.follower.links
                self.assertEqual(link.peer.held_bytes, sum(len(payload) for _place, _size, payload in link.peer.held))
                self.assertLessEqual(link.peer.held_bytes, MOST_HELD_BYTES)
                most = max(most, link.peer.held_bytes)
            self.assertEqual((most > 0, watched.watcher.follower.unreadable), (True, 0))

    def test_the_largest_packet(self):
        for record in (pcap_packet, enhanced):
            for size, fault in ((LARGEST_PACKET, None), (LARGEST_PACKET + 1, "the capture is damaged here: a length is out of range")):
                head = pcap_head() if record is pcap_packet else section() + interface()
                self.assertEqual(Watched().see(head + record(0, bytes(size))), fault and f"packet 1: {fault}")


class Screens(unittest.TestCase):
    def test_of_the_shipped_run(self):
        scene = Scene()
        scene.wait(1)
        scene.site.exchange(SWITCH, ALICE)
        scene.site.refused(SWITCH, BOB, (3, 2), flow_mod(port_match(80), output(2)))
        with policy_file(POLICY.read_text()) as path:
            capture = path.parent / "run.pcap"
            capture.write_bytes(scene.capture())
            outcome = run_tool("watch", "--to-end", path, capture)
            self.assertEqual((outcome.status, outcome.err), (0, ""))
            lines = outcome.out.splitlines()
            self.assertEqual(lines[2:10], [
                "switch 00000000000000a1  10.1.0.161:20000  up since 22:13:20 (1s)",
                "  from it 1/s (PACKET_IN 1)   to it 1/s (FLOW_MOD 1)",
                "  alice  127.0.0.1:6633  up since 22:13:20 (1s)",
                "    from it 1/s (FLOW_MOD 1)   to it 1/s (PACKET_IN 1)",
                "    flow-mods 1, as 1 to the switch; messages refused 0; entries 1 of 1024; rate 1 of 1000/s",
                "  bob  127.0.0.1:6634  up since 22:13:20 (1s)",
                "    from it 1/s (FLOW_MOD 1)   to it 1/s (ERROR 1)",
                "    flow-mods 1, as 0 to the switch; messages refused 1 (1 OFPET_FLOW_MOD_FAILED OFPFMFC_EPERM); "
                "entries 0 of 1024; rate 1 of 1000/s",
            ])
            log = run_tool("watch", "--to-end", "--log", path, capture).out.splitlines()
            self.assertEqual([line.partition(" ")[2] for line in log[:4]], UP)
            self.assertEqual(log[0].partition(" ")[0], "2023-11-14T22:13:20.000Z")
            self.assertEqual(len(log), 5)

    def test_rows_are_wrapped(self):
        """No line is longer than the terminal has columns, and none loses or cuts a number."""
        state = busy_scene().watched().watcher.state()
        words = [re.findall(r"\w+", row) for row in rows_of(state)]
        for columns in (60, 80, 132):
            lines = screen_of(state, columns, 1000).split("\n")
            self.assertLessEqual(max(map(len, lines)), columns)
            self.assertEqual(re.findall(r"\w+", " ".join(lines)), sum(words, []))
        screen = screen_of(state, 80, 1000)
        self.assertIn("1000/s", screen)
        self.assertIn("rule 0 (line", screen)
        self.assertIn("OFPET_FLOW_MOD_FAILED OFPFMFC_EPERM", screen)

    def test_all_types_and_codes_are_shown(self):
        scene = Scene()
        scene.wait(1)
        kinds = Kind.ECHO_REQUEST, Kind.ECHO_REPLY, Kind.PACKET_OUT, Kind.FLOW_MOD, Kind.STATS_REQUEST, Kind.BARRIER_REQUEST
        for kind in kinds:
            scene.from_controller(ALICE, message(kind, 1, bytes(80)))
        for code in range(6):
            scene.to_controller(ALICE, message(Kind.ERROR, 1, struct.pack(">HH", 99, code)))
        rows = list(rows_of(scene.watched().watcher.state()))
        (rates,) = (row for row in rows if "ECHO_REQUEST" in row and "ECHO_REPLY" in row)
        self.assertIn(f"from it 6/s ({', '.join(f'{kind.name} 1' for kind in kinds)})", rates)
        (counts,) = (row for row in rows if "99 0" in row and "entries" in row)
        self.assertIn(f"; messages refused 6 ({', '.join(f'1 99 {code}' for code in range(6))}); ", counts)

    def test_lines_of_a_row(self):
        for row, columns, lines in (
            ("", 80, [""]),
            ("  entries 40 of 1024; rate 42 of 1,000/s", 30, ["  entries 40 of 1024; rate 42", "      of 1,000/s"]),
            ("a packet: tcp,in_port=3,tp_src=1024,tp_dst=443", 30, ["a packet: tcp,in_port=3,", "    tp_src=1024,tp_dst=443"]),
            ("  flow-mods 40, as 1,000", 20, ["  flow-mods 40, as", "      1,000"]),
            ("1" * 50, 30, ["1" * 30, "    " + "1" * 20]),
            ("a " * 20, 1, ["a " * (LEAST_COLUMNS // 2 - 1) + "a", "    " + "a " * 7 + "a", "    a a"]),
        ):
            self.assertEqual(lines_of(row, columns), lines)

    def test_before_the_first_packet(self):
        watched = Watched()
        scene = Scene()
        for data in (b"", scene.parts[0]):
            watched.watcher.feed(data)
            self.assertEqual(screen_of(watched.watcher.state(), 80, 24).split("\n")[0], "policy.toml  no packet yet  0 packets")
        watched.watcher.feed(scene.parts[1])
        self.assertEqual(watched.watcher.state()["time"], moment_text(START))

    def test_how_it_is_captured(self):
        outcome = run_tool("watch", "--how", POLICY)
        self.assertEqual(outcome.status, 0)
        start = "tcpdump -i any -s 0 -B 65536 --immediate-mode -U -w - "
        alice, bob = (f"(host 127.0.0.1 and tcp port {port})" for port in (6633, 6634))
        self.assertTrue(outcome.out.startswith(f"{start}'tcp port 6653 or {alice} or {bob}' | flowvisor-tool watch "), outcome.out)
        own = run_tool("watch", "--how", "--log", "--switch-port", "10.0.0.1:6633", POLICY).out
        self.assertTrue(own.startswith(f"{start}'(host 10.0.0.1 and tcp port 6633) or {alice} or {bob}' | "), own)
        self.assertTrue(own.endswith(f"flowvisor-tool watch --switch-port 10.0.0.1:6633 --log {POLICY} -\n"), own)

    def test_the_unit_captures_so(self):
        unit = re.sub(r"\s*\\\n\s*", " ", (EXAMPLES / "flowvisor-watch.service").read_text())
        how = run_tool("watch", "--how", "--log", "--http", "127.0.0.1:9653", POLICY).out
        wanted = how.rstrip().replace(str(POLICY), "/etc/flowvisor/policy.toml").replace("flowvisor-tool", "/usr/local/bin/flowvisor-tool")
        # The options may stand in any order.
        self.assertEqual(sorted(re.search(r'sh -c "(.*)"$', unit, re.MULTILINE)[1].split()), sorted(wanted.split()))

    def test_on_a_terminal_there_is_one_screen(self):
        scene = Scene()
        for number in range(100):
            scene.site.packet_for_nobody(SWITCH, 1000 + number)
            scene.wait(1)
        terminal, other = os.openpty()
        fcntl.ioctl(other, termios.TIOCSWINSZ, struct.pack("HHHH", 24, 80, 0, 0))
        with policy_file(POLICY.read_text()) as path:
            capture = path.parent / "run.pcap"
            capture.write_bytes(scene.capture())
            with subprocess.Popen([SCRIPT, "watch", "--to-end", path, capture], stdout=other) as process:
                os.close(other)
                drawn = b""
                with contextlib.suppress(OSError):  # EIO tells the end of a terminal
                    while data := os.read(terminal, 4096):
                        drawn += data
                self.assertEqual(process.wait(), 0)
            os.close(terminal)
        lines = drawn.decode().rpartition("\x1b[H\x1b[2J")[2].rstrip().split("\r\n")
        self.assertEqual(len(lines), 23)
        self.assertLessEqual(max(map(len, lines)), 80)
        self.assertTrue(lines[2].startswith("switch 00000000000000a1  10.1.0.161:20000  up since 22:13:20 (1m"), lines[2])
        self.assertRegex(lines[-1], r"\.\. and \d+ lines more")

    def test_what_cannot_be_watched(self):
        for words, status, text in (
            ((POLICY, EXAMPLES / "none"), 1, "No such file or directory"),
            ((POLICY, EXAMPLES / "web-session.rec"), 1, "the capture is neither pcap nor pcapng"),
            ((EXAMPLES / "web-session.rec",), 1, "it isn't accepted: flowvisor-tool lint prints why"),
            (("--http", "10.0.0.1:80", POLICY), 2, "10.0.0.1 isn't this machine's own address; --public serves there"),
            (("--http", "localhost:80", POLICY), 2, "'localhost:80' isn't ADDRESS:PORT"),
            (("--slice", "carol=10.0.0.1:80", POLICY), 2, "'carol' is neither a slice's name in the policy nor a slot"),
        ):
            outcome = run_tool("watch", "--to-end", *words)
            self.assertEqual((outcome.status, outcome.err.rstrip().endswith(text)), (status, True), outcome.err)

    def test_a_capture_that_is_cut_off(self):
        scene = Scene()
        with policy_file(POLICY.read_text()) as path:
            capture = path.parent / "run.pcap"
            capture.write_bytes(scene.capture()[:-5])
            outcome = run_tool("watch", "--to-end", path, capture)
            self.assertEqual(outcome.status, 1)
            self.assertIn("the capture is cut off before this packet's end", outcome.err)
            self.assertIn("switch 00000000000000a1  10.1.0.161:20000  up", outcome.out)


if __name__ == "__main__":
    unittest.main()
