"""The messages of a capture in lines for people, with what is said of connections of which the capture lacks something."""
from ..connections import SWITCH
from ..ends import spelled
from ..openflow.messages import message_text
from ..openflow.protocol import MessageType
from .following import Follower
from .growing import GrowingCapture
from .links import How

READ_SIZE = 1 << 16
LATE_SWITCH = "was open before the capture began: which switch it is isn't known where it doesn't send its features again"
LATE_SLICE = "was open before the capture began: for which switch it is isn't known where the proxy doesn't send its features again"
ENDS = {
    How.END: "ended by {}", How.RESET: "reset by {}", How.REFUSED: "refused by {}",
    How.REPLACED: "ended: another connection has its ports", How.FORGOTTEN: "not followed any more: there are too many",
}


class Teller:
    """Observes what a follower follows, and has a line for each message and for each thing that happens."""

    def __init__(self, names):
        self.names = names  # of the slices, by slot
        self.lines = []
        self.told = {}  # by the messages of a side, how many of its bytes were reported as missing, or not understood
        self.follower = None
        self.first = None  # the time of the first packet

    def readers(self, role, is_peer):
        """All messages are read."""
        return [self.hear] * len(MessageType), self.hear

    def say(self, text):
        """A line for the packet that is read."""
        passed = self.follower.time - (self.first or 0)
        # A time is of microseconds, which a float has not exactly.
        self.lines.append(f"{self.follower.packets} {max(0, round(passed * 10**6) // 1000)}ms {text}")

    def hear_packet(self, time, *packet):
        """Takes in the capture's next packet."""
        if self.first is None:
            self.first = time
        self.follower.hear(time, *packet)

    def who(self, link):
        """Whose a connection is: a switch's by its address, or a slice's by the proxy's."""
        if link.role == SWITCH:
            return f"switch {spelled(link.client)}"
        return f"{self.names.get(link.role, f'slot {link.role}')} {spelled(link.client)}"

    def called(self, link):
        """A connection is asked for: it is reported where it is agreed to, or refused."""

    def up(self, link):
        """A connection is up."""
        if link.is_late:
            self.say(f"{self.who(link)} {LATE_SWITCH if link.role == SWITCH else LATE_SLICE}")
        else:
            self.say(f"{self.who(link)} up")

    def ended(self, link, side, how, was_up):
        """A connection has ended, or a call was refused."""
        for messages in (link.peer.messages, link.proxy.messages):
            self.tell_lack(messages)
            self.told.pop(messages, None)
        peer = "the switch" if link.role == SWITCH else "the controller"
        self.say(f"{self.who(link)} {ENDS[how].format(peer if side is not None and side.is_peer else 'the proxy')}")

    def hear(self, messages, data, at, length):
        """A message."""
        self.tell_lack(messages)
        self.say(f"{self.direction(messages)} {message_text(data[at : at + length])}")

    def direction(self, messages):
        """From whom a message comes, or to whom it goes."""
        side = messages.owner
        return f"{'from' if side.is_peer else 'to'} {self.who(side.link)}"

    def tell_lack(self, messages):
        """Says what is missing, or wasn't understood, before the next message."""
        missing, unread = self.told.get(messages, (0, 0))
        if messages.missing > missing:
            self.say(f"{self.direction(messages)} {messages.missing - missing} bytes are missing")
        if messages.unread > unread:
            text = f"of a length of {messages.broken} that can't be" if messages.broken is not None else "of no whole message"
            self.say(f"{self.direction(messages)} {messages.unread - unread} bytes {text}")
        self.told[messages] = messages.missing, messages.unread

    def finish(self):
        """The capture is over."""
        for link in list(self.follower.links):
            for side in (link.peer, link.proxy):
                while side.held:
                    side.give_up_gap()
                self.tell_lack(side.messages)
                if side.messages.rest:
                    self.say(f"{self.direction(side.messages)} {len(side.messages.rest)} bytes of a message that isn't whole")

    def taken(self):
        """The lines since they were taken last."""
        lines, self.lines = self.lines, []
        return lines


def capture_texts(file, ends, names):
    """The lines of a capture, and one with the number of its packets."""
    teller = Teller(names)
    follower = teller.follower = Follower(ends, teller, lambda second: None)
    capture = GrowingCapture(teller.hear_packet)
    while data := file.read(READ_SIZE):
        try:
            capture.feed(data)
        finally:
            yield from teller.taken()
        follower.tick(follower.time)
    teller.finish()
    yield from teller.taken()
    capture.finish()
    yield f"end {follower.packets}"
