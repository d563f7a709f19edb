"""The records of a controller and a switch that speak directly, as a proxy between them would have them."""
import collections
import struct

from .captures import Problem
from .connections import SWITCH
from .ends import spelled
from .following import CUT_BYTES, Change
from .openflow.framing import Frames
from .openflow.protocol import NO_BUFFER, Header, MessageType
from .openflow.text import message_type_of
from .recorder import SwitchNumbers
from .recordings import Kind, is_features_reply

# What a switch sends as an answer. In a replay the answers would come under the proxy's own transaction ids.
ANSWERS = {
    MessageType.ERROR, MessageType.ECHO_REPLY, MessageType.FEATURES_REPLY, MessageType.GET_CONFIG_REPLY,
    MessageType.STATS_REPLY, MessageType.BARRIER_REPLY, MessageType.QUEUE_GET_CONFIG_REPLY,
}
# Where a controller's message names a packet that the switch keeps.
BUFFER = struct.Struct(">I")
BUFFER_PLACES = {MessageType.FLOW_MOD: 64, MessageType.PACKET_OUT: 8}
NO_SWITCH = "the capture has no connection to the controller's port that both sides took up"


class DirectSession:
    """A switch's connection under its number, and what its controller sent before the switch sent its features."""

    def __init__(self, number):
        self.number = number
        self.frames = {SWITCH: Frames()}
        self.has_features = False
        self.has_controller = False
        self.held = []

    def has_slice(self):
        """Whether the slice is up."""
        return self.has_features and self.has_controller


class DirectRecorder:
    """Makes the records of what happened: what the client of a connection sent is the switch's, and the rest the slice's."""

    def __init__(self, records, sieve, slot):
        self.records = records
        self.sieve = sieve
        self.slot = slot
        self.numbers = SwitchNumbers()
        self.sessions = {}  # those that are up, by the ends of their connections
        self.answers = collections.Counter()
        self.buffered = 0
        self.has_slice = False
        self.lines = []

    def play(self, happening):
        """Records one happening."""
        connection = happening.connection
        if connection.is_passed_over():
            return
        ends = connection.client, connection.server
        if happening.kind is Change.UP and connection.role == SWITCH:
            self.sessions[ends] = self.begin(happening)
        elif session := self.sessions.get(ends):
            if happening.kind is Change.CUT:
                raise Problem(happening.number, CUT_BYTES)
            play = self.play_switch if connection.role == SWITCH else self.play_controller
            play(session, happening)
            if connection.role == SWITCH and happening.kind is Change.DOWN:
                self.numbers.give_back(self.sessions.pop(ends).number)

    def begin(self, happening):
        """The session of a connection that comes up."""
        connection = happening.connection
        session = DirectSession(self.numbers.take(happening.number))
        self.add(session, happening, Kind.SWITCH_UP)
        ends = f"{spelled(connection.client)} to {spelled(connection.server)}"
        self.lines.append(f"packet {connection.number}: switch {session.number}, slot {self.slot}: {ends}")
        return session

    def play_switch(self, session, happening):
        """What happens on the switch's side."""
        if happening.kind is Change.DOWN:
            self.add(session, happening, Kind.SWITCH_DOWN)
            return
        for message in session.frames[SWITCH].messages(happening.counted()):
            is_first = not session.has_features and is_features_reply(message)
            if not is_first and Header.of(message).type in ANSWERS:
                self.answers[Header.of(message).type] += 1
            elif self.sieve.keeps(message):
                self.add(session, happening, Kind.SWITCH_BYTES, message)
                if is_first:
                    session.has_features = True
                    self.begin_slice(session, happening)

    def play_controller(self, session, happening):
        """What happens on the controller's side."""
        if happening.kind is Change.UP:
            session.has_controller = True
            session.frames[self.slot] = Frames()
            self.begin_slice(session, happening)
        elif happening.kind is Change.DOWN:
            if session.has_slice():
                self.add(session, happening, Kind.SLICE_DOWN)
            session.has_controller = False
            session.held.clear()
        else:
            messages = session.frames[self.slot].messages(happening.counted())
            self.hear_controller(session, happening, list(filter(self.sieve.keeps, messages)))

    def begin_slice(self, session, happening):
        """The slice comes up, where it can, and its controller sends what it sent before."""
        if session.has_slice():
            self.has_slice = True
            self.add(session, happening, Kind.SLICE_UP)
            held, session.held = session.held, []
            self.hear_controller(session, happening, held)

    def hear_controller(self, session, happening, messages):
        """Records messages of the controller, or keeps them until the slice is up."""
        if not session.has_slice():
            session.held += messages
            return
        for message in messages:
            self.buffered += names_buffer(message)
            self.add(session, happening, Kind.SLICE_BYTES, message)

    def add(self, session, happening, kind, data=b""):
        """Adds a record of a happening."""
        slot = 0 if kind.is_of_switch() else self.slot
        self.records.add(happening.number, kind, happening.moment, data, slot, session.number)

    def finish(self):
        """All was played: tells what the recording lacks."""
        if not self.numbers.begun:
            raise Problem(None, NO_SWITCH)
        if not self.has_slice:
            self.lines.append(f"slot {self.slot}: no connection is recorded, since no switch sent its features")
        for kind, count in sorted(self.answers.items()):
            self.lines.append(f"left out: {count} {message_type_of(kind)} (answers to the controller)")
        if self.buffered:
            self.lines.append(f"messages that name a packet by the switch's buffer: {self.buffered}")


def names_buffer(message):
    """Whether a message names a packet that the switch keeps."""
    place = BUFFER_PLACES.get(Header.of(message).type)
    if place is None or len(message) < place + BUFFER.size:
        return False
    return BUFFER.unpack_from(message, place) != (NO_BUFFER,)
