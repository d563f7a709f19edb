"""What passes between switches, the proxy and controllers, as the packets of a capture (pcap of raw IP)."""

import functools
import ipaddress
import itertools
import struct

from devices.messages import Kind, any_match, flow_mod, output, port_match
from flowvisor_tool.segments import ACK, FIN, RST, SYN
from sunworsted import features_reply, message, packet_in, tcp_packet

HEAD = bytes.fromhex("d4c3b2a1") + struct.pack("<HHiIII", 2, 4, 0, 0, 262144, 101)
RECORD = struct.Struct("<IIII")
IP_AND_TCP = struct.Struct(">BBHIHH4s4sHHIIBBHI")
HELLO = message(Kind.HELLO, 0, b"")
WEB, SHELL = 80, 22
# How many different exchanges there are of a slice, before they come once more.
VARIANTS = 2048


def end_of(text):
    """An address and a port."""
    address, _colon, port = text.rpartition(":")
    return ipaddress.IPv4Address(address).packed, int(port)


class Wire:
    """A capture that is written packet by packet; `time` is that of the next packet, in seconds."""

    def __init__(self, write, time):
        self.write = write
        self.time = time
        self.messages = 0
        write(HEAD)

    def put(self, source, destination, sequence, acknowledgement, flags, data=b""):
        """A TCP segment."""
        size = IP_AND_TCP.size + len(data)
        head = IP_AND_TCP.pack(
            0x45, 0, size, 7 << 16, 0x4006, 0, source[0], destination[0], source[1], destination[1],
            sequence & 0xFFFFFFFF, acknowledgement & 0xFFFFFFFF, 0x50, flags, 1000, 0,
        )
        self.write(RECORD.pack(int(self.time), int(self.time % 1 * 10**6), size, size) + head + data)


class Connection:
    """A TCP connection: who calls, who is called, and how much each has sent."""

    def __init__(self, wire, client, server):
        self.wire, self.client, self.server = wire, client, server
        self.at = {client: 1_000_001, server: 2_000_001}

    def open(self):
        """Both sides agree to it."""
        first, second = self.at[self.client], self.at[self.server]
        self.wire.put(self.client, self.server, first - 1, 0, SYN)
        self.wire.put(self.server, self.client, second - 1, first, SYN | ACK)
        self.wire.put(self.client, self.server, first, second, ACK)

    def send(self, source, data, count=1, flags=ACK):
        """One side sends bytes, which the other one acknowledges."""
        destination = self.server if source == self.client else self.client
        self.wire.put(source, destination, self.at[source], self.at[destination], flags, data)
        self.at[source] += len(data)
        self.wire.put(destination, source, self.at[destination], self.at[source], ACK)
        self.wire.messages += count

    def lose(self, source, count):
        """Bytes of a side aren't in the capture."""
        self.at[source] += count

    def finish(self, source, flags=FIN | ACK):
        """One side ends it, or resets it."""
        destination = self.server if source == self.client else self.client
        self.wire.put(source, destination, self.at[source], self.at[destination], flags)
        if not flags & RST:
            self.wire.put(destination, source, self.at[destination], self.at[source] + 1, FIN | ACK)


def slice_flow_mod(port, number, xid):
    """A flow-mod of the slice to which this TCP port belongs; its priority goes by its number."""
    return flow_mod(port_match(port), output(2), priority=number & 0xFFFF, xid=xid)


@functools.lru_cache(maxsize=4 * VARIANTS)
def said(slot, first, count):
    """Packet-ins of a slice's packets, the flow-mods that answer them, and those that the switch is sent."""
    numbers = range(first, first + count)
    port = SHELL if slot else WEB
    return (
        b"".join(packet_in(0, 1, tcp_packet(port, 1024 + number % 60_000)) for number in numbers),
        b"".join(slice_flow_mod(port, number, number & 0xFFFFFF) for number in numbers),
        b"".join(slice_flow_mod(port, number, slot << 24 | number & 0xFFFFFF) for number in numbers),
    )


class Site:
    """Switches at a proxy with two slices, of the shipped policy, whose controllers are alice's and bob's."""

    PROXY, ALICE, BOB = end_of("10.0.0.1:6653"), end_of("127.0.0.1:6633"), end_of("127.0.0.1:6634")

    def __init__(self, wire):
        self.wire = wire
        self.ports = itertools.cycle(range(20_000, 60_000))
        self.numbers = itertools.count()
        self.switches = {}
        self.controllers = {}

    def connect_switch(self, datapath):
        """A switch connects, and is set up."""
        self.switches[datapath] = link = Connection(self.wire, (self.host(datapath), next(self.ports)), self.PROXY)
        link.open()
        link.send(self.PROXY, HELLO + message(Kind.FEATURES_REQUEST, 0xFF000001, b""), 2)
        link.send(link.client, HELLO + features_reply(0xFF000001, datapath, (1, 2, 3)), 2)
        link.send(self.PROXY, flow_mod(any_match(), b"", command=3, xid=0xFF000003))

    @staticmethod
    def host(datapath):
        """The address of a switch."""
        return bytes([10, 1, datapath >> 8 & 0xFF, datapath & 0xFF])

    def connect_controller(self, datapath, slot):
        """The proxy connects to a slice's controller for a switch, which asks what that is."""
        server = self.BOB if slot else self.ALICE
        self.controllers[datapath, slot] = link = Connection(self.wire, (self.PROXY[0], next(self.ports)), server)
        link.open()
        link.send(link.client, HELLO)
        link.send(server, HELLO + message(Kind.FEATURES_REQUEST, 2, b""), 2)
        link.send(link.client, features_reply(2, datapath, (1, 2, 3)))

    def lose_controller(self, datapath, slot, flags=FIN | ACK):
        """A controller ends its connection."""
        link = self.controllers.pop((datapath, slot))
        link.finish(link.server, flags)

    def lose_switch(self, datapath):
        """A switch ends its connection, and the proxy those of its slices."""
        link = self.switches.pop(datapath)
        link.finish(link.client)
        for slot in (0, 1):
            if controller := self.controllers.pop((datapath, slot), None):
                controller.finish(controller.client)

    def exchange(self, datapath, slot, count=1):
        """Packets come up, and each is answered by a flow-mod: four messages each."""
        switch, controller = self.switches[datapath], self.controllers[datapath, slot]
        packets, asked, sent = said(slot, next(self.numbers) % VARIANTS * count, count)
        switch.send(switch.client, packets, count)
        controller.send(controller.client, packets, count)
        controller.send(controller.server, asked, count)
        switch.send(self.PROXY, sent, count)

    def refused(self, datapath, slot, error, asked):
        """A controller's message is answered by an error."""
        controller = self.controllers[datapath, slot]
        controller.send(controller.server, asked)
        xid = int.from_bytes(asked[4:8], "big")
        controller.send(controller.client, message(Kind.ERROR, xid, struct.pack(">HH", *error) + asked[:64]))

    def packet_for_nobody(self, datapath, port=443):
        """A packet comes up that no rule has."""
        switch = self.switches[datapath]
        switch.send(switch.client, packet_in(0, 1, tcp_packet(port)))
