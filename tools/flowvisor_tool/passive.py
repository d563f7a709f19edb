"""A session of OpenFlow 1.0 with a switch that listens for controllers: messages are sent, and it says that it has done them."""
import selectors
import socket

from .faults import Fault
from .openflow.framing import Frames
from .openflow.messages import message_text
from .openflow.protocol import HEADER, VERSION, Header, MessageType

# Seconds that the switch may be silent.
LONGEST_SILENCE = 10
# Those of a plan begin at 0xff000005.
HELLO_XID, BARRIER_XID = 1, 2
PIECE = 1 << 16


class Refused(Fault):
    """The switch answered messages with errors."""

    def __init__(self, end, errors, messages):
        super().__init__(f"refused {errors} of {messages} messages", end_text(end))


def end_text(end):
    host, port = end
    return f"[{host}]:{port}" if ":" in host else f"{host}:{port}"


def spelled(kind, xid, body=b""):
    """A message."""
    return HEADER.pack(VERSION, kind, HEADER.size + len(body), xid) + body


def send(end, messages):
    """Sends messages to the switch at an end, and gives the errors with which it answers them before it answers a barrier."""
    try:
        connection = socket.create_connection(end, LONGEST_SILENCE)
    except TimeoutError:
        raise Fault("can't be connected to", end_text(end)) from None
    with connection:
        connection.setblocking(False)
        return Session(connection, end).run(messages)


class Session:
    """What is sent and what has come on a connection to a switch."""

    def __init__(self, connection, end):
        self.connection, self.end = connection, end
        self.frames = Frames()
        self.waiting = b""  # to be sent
        self.errors = []
        self.is_greeted = self.is_done = False

    def run(self, messages):
        """Says hello and, once the switch has, sends the messages and a barrier; the errors that come before its reply."""
        self.waiting = spelled(MessageType.HELLO, HELLO_XID)
        with selectors.DefaultSelector() as selector:
            selector.register(self.connection, selectors.EVENT_READ)
            while not self.is_greeted:
                self.go_on(selector, "said hello")
            self.waiting += b"".join(messages) + spelled(MessageType.BARRIER_REQUEST, BARRIER_XID)
            while not self.is_done:
                self.go_on(selector, "answered the barrier behind the messages")
        return self.errors

    def go_on(self, selector, what):
        """Sends and hears what can be sent and heard next."""
        selector.modify(self.connection, selectors.EVENT_READ | selectors.EVENT_WRITE * bool(self.waiting))
        ready = selector.select(LONGEST_SILENCE)
        if not ready:
            raise Fault(f"hasn't {what} within {LONGEST_SILENCE} seconds", end_text(self.end))
        events = ready[0][1]
        if events & selectors.EVENT_READ:
            self.hear(self.connection.recv(PIECE), what)
        if events & selectors.EVENT_WRITE and self.waiting:
            self.waiting = self.waiting[self.connection.send(self.waiting[:PIECE]) :]

    def hear(self, data, what):
        """Takes in what came; nothing comes once the switch has closed the connection."""
        if not data:
            raise Fault(f"closed the connection before it had {what}", end_text(self.end))
        for message in self.frames.messages(data):
            self.take(message)
        if self.frames.is_over:
            raise Fault("speaks no OpenFlow", end_text(self.end))

    def take(self, message):
        """Takes in a message of the switch."""
        header = Header.of(message)
        if header.type == MessageType.HELLO and not self.is_greeted and header.version >= VERSION:
            self.is_greeted = True
        elif header.version != VERSION:
            raise Fault(f"speaks version {header.version} of the protocol, not {VERSION}", end_text(self.end))
        elif header.type == MessageType.ERROR and not self.is_greeted:
            raise Fault(message_text(message), end_text(self.end))
        elif header.type == MessageType.ERROR:
            self.errors.append(message)
        elif header.type == MessageType.ECHO_REQUEST:
            self.waiting += spelled(MessageType.ECHO_REPLY, header.xid, message[HEADER.size :])
        elif header.type == MessageType.BARRIER_REPLY and header.xid == BARRIER_XID:
            self.is_done = True
