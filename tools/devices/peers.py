"""Switches and controllers that speak to the proxy, on one event loop."""

import asyncio
import socket
import struct

from devices.messages import Kind, number_of_echo, number_of_packet_in, slot_and_number
from devices.numbers import Numbers
from sunworsted import features_reply, message

PORTS = (1, 2, 3)


class Peer(asyncio.Protocol):
    """One end of a connection: what comes is handed on message by message."""

    def __init__(self):
        self.transport = None
        self.coming = bytearray()
        self.closed = asyncio.get_running_loop().create_future()

    def connection_made(self, transport):
        self.transport = transport
        # asyncio asks for it only where the socket names TCP, as those don't that `create_server` of `socket` accepts.
        # Without it small messages wait for the other end's acknowledgement of those before, so for what it sends next.
        transport.get_extra_info("socket").setsockopt(socket.IPPROTO_TCP, socket.TCP_NODELAY, 1)

    def connection_lost(self, error):
        if not self.closed.done():
            self.closed.set_result(error)

    @property
    def is_closed(self):
        return self.closed.done()

    def send(self, data):
        self.transport.write(data)

    def reset(self):
        """Ends the connection by a reset, which the other end's next read reports as an error."""
        at_once = struct.pack("ii", 1, 0)
        self.transport.get_extra_info("socket").setsockopt(socket.SOL_SOCKET, socket.SO_LINGER, at_once)
        self.transport.abort()

    def data_received(self, data):
        coming = self.coming
        coming += data
        at = 0
        while len(coming) - at >= 8:
            size = max(8, coming[at + 2] << 8 | coming[at + 3])
            if len(coming) - at < size:
                break
            self.hear(coming[at + 1], coming[at : at + size])
            at += size
        del coming[:at]

    def hear(self, kind, frame):
        """A message came."""


class Switch(Peer):
    """A switch, which tells what it is once it is asked, and ends where the proxy ends its connection."""

    def __init__(self, datapath):
        super().__init__()
        self.datapath = datapath
        self.exchanges = {}
        self.echoes = Numbers(f"echoes of switch {datapath}")
        self.prepared = asyncio.get_running_loop().create_future()

    def hear(self, kind, frame):
        match kind:
            case Kind.FLOW_MOD:
                self.hear_flow_mod(frame)
            case Kind.ECHO_REPLY:
                self.echoes.take(number_of_echo(frame))
            case Kind.FEATURES_REQUEST:
                self.send(message(Kind.HELLO, 1, b""))
                self.send(features_reply(struct.unpack_from(">I", frame, 4)[0], self.datapath, PORTS))
            case Kind.BARRIER_REQUEST if not self.prepared.done():
                self.prepared.set_result(None)

    def hear_flow_mod(self, frame):
        told = slot_and_number(frame)
        if told is not None and told[0] in self.exchanges:
            self.exchanges[told[0]].hear_flow_mod(told[1])


class Link(Peer):
    """A controller's end of a connection to one switch, which asks what that is."""

    def __init__(self, controller):
        super().__init__()
        self.controller = controller
        self.datapath = None
        self.exchange = None
        self.errors = 0

    def connection_made(self, transport):
        super().connection_made(transport)
        self.send(message(Kind.HELLO, 1, b""))
        self.send(message(Kind.FEATURES_REQUEST, 2, b""))

    def hear(self, kind, frame):
        match kind:
            case Kind.PACKET_IN if self.exchange:
                self.exchange.packets.take(number_of_packet_in(frame))
            case Kind.ECHO_REPLY if self.exchange:
                self.exchange.echoes.take(number_of_echo(frame))
            case Kind.FEATURES_REPLY:
                self.datapath = struct.unpack_from(">Q", frame, 8)[0]
                self.controller.came.put_nowait(self)
            case Kind.ERROR:
                self.errors += 1


class End(Peer):
    """A controller's end of a connection, which doesn't ask which switch it is."""

    def __init__(self, controller):
        super().__init__()
        self.controller = controller

    def connection_made(self, transport):
        super().connection_made(transport)
        self.controller.came.put_nowait(self)


class Raw(End):
    """A controller's end that says nothing by itself, and keeps what comes."""

    def __init__(self, controller):
        super().__init__(controller)
        self.taken = bytearray()
        self.changed = asyncio.Event()

    def data_received(self, data):
        self.taken += data
        self.changed.set()

    def connection_lost(self, error):
        super().connection_lost(error)
        self.changed.set()


class Controller:
    """What listens for the proxy's connections for the slice at one slot."""

    def __init__(self, slot, end=Link, receive_buffer=None):
        self.slot = slot
        self.end = end
        self.receive_buffer = receive_buffer
        self.came = asyncio.Queue()
        self.server = None
        self.port = None

    async def listen(self):
        loop = asyncio.get_running_loop()
        listening = socket.create_server(("127.0.0.1", 0), backlog=1000)
        if self.receive_buffer is not None:
            listening.setsockopt(socket.SOL_SOCKET, socket.SO_RCVBUF, self.receive_buffer)
        self.server = await loop.create_server(lambda: self.end(self), sock=listening)
        self.port = listening.getsockname()[1]

    async def next_link(self, seconds=30):
        """The next connection that is made."""
        return await asyncio.wait_for(self.came.get(), seconds)
