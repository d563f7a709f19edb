"""A recording's events, each taken by the desk of its switch (this proxy's own rule)."""
from flowvisor_tool.recordings import Kind

from .desk import Desk
from .events import SliceDown, SliceMessage, SliceUp, SwitchDown, SwitchMessage, SwitchUp, is_end
from .history import Verdict
from .wire import frames_of


class Replay:
    """The desks of the switches, and of each connection that is read the bytes that are no whole frame yet.

    A connection is a switch and a slot, or a switch alone. A frame is an event with the record that completes it.
    """

    def __init__(self, policy):
        self.policy = policy
        self.desks = {}
        self.rests = {}

    def steps(self, record):
        """The events of a record, each with what follows from it, which decides whether more is read."""
        if record.kind == Kind.SWITCH_UP:
            self.desks[record.switch] = Desk(self.policy)
        for event in self.events(record):
            step = self.desks[record.switch].take(event)
            self.connect(record.switch, event, step.verdict)
            yield event, step

    def events(self, record):
        match record.kind:
            case Kind.SWITCH_UP:
                yield SwitchUp()
            case Kind.SWITCH_DOWN:
                yield SwitchDown()
            case Kind.SLICE_UP:
                yield SliceUp(record.slot)
            case Kind.SLICE_DOWN:
                yield SliceDown(record.slot)
            case Kind.SWITCH_BYTES:
                yield from map(SwitchMessage, self.frames((record.switch, None), record.data))
            case Kind.SLICE_BYTES:
                for frame in self.frames((record.switch, record.slot), record.data):
                    yield SliceMessage(record.slot, frame, record.moment)

    def frames(self, connection, data):
        """The frames that the next bytes of a connection complete, as long as it is read."""
        if connection not in self.rests:
            return
        frames, self.rests[connection] = frames_of(self.rests[connection] + data)
        for frame in frames:
            if connection in self.rests:
                yield frame

    def connect(self, switch, event, verdict):
        """A connection is read from its up on, until its down or until it is closed; after a switch's end nothing is."""
        match event:
            case SwitchUp():
                self.rests[switch, None] = b""
            case SliceUp(slot) if verdict is Verdict.GO:
                self.rests[switch, slot] = b""
            case SliceMessage(slot) if verdict is Verdict.CLOSE:
                self.rests.pop((switch, slot), None)
            case SliceDown(slot):
                self.rests.pop((switch, slot), None)
        if is_end(event):
            self.rests = {connection: rest for connection, rest in self.rests.items() if connection[0] != switch}
