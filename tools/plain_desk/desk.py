"""A desk: a history and its views, and what each event has the proxy send."""
import dataclasses
from dataclasses import dataclass

from flowvisor_tool.openflow.protocol import NO_BUFFER, FlowModCommand, Header, MessageType, Port

from .answers import answer_to
from .events import SliceMessage, SwitchMessage, SwitchUp
from .filter import items_of, opened_item
from .history import History, Verdict
from .matches import ANY
from .messages import CONFIG, FlowMod, body_of, is_whole
from .turning import turn_out
from .view import Seen, View
from .wire import message

# The proxy's own transaction ids, in the order in which it uses them (this proxy's own rule).
HELLO_XID, FEATURES_XID, CONFIG_XID, CLEAR_XID, BARRIER_XID = range(0xFF000000, 0xFF000005)
WHOLE_PACKETS = 0xFFFF

GREETING = (message(MessageType.HELLO, HELLO_XID), message(MessageType.FEATURES_REQUEST, FEATURES_XID))
CLEAR_TABLE = FlowMod(CLEAR_XID, ANY, 0, FlowModCommand.DELETE, 0, 0, 0, NO_BUFFER, Port.NONE, 0, ())
OPENING = (
    message(MessageType.SET_CONFIG, CONFIG_XID, CONFIG.pack(0, WHOLE_PACKETS)),
    CLEAR_TABLE.spelled(),
    message(MessageType.BARRIER_REQUEST, BARRIER_XID),
)


@dataclass(frozen=True)
class Step:
    """What follows from an event: the verdict, what the switch is sent, and what each slice is, by slot."""

    verdict: Verdict
    lane: tuple[bytes, ...] = ()
    sent: tuple[tuple[int, bytes], ...] = ()


class Desk:
    """A history under a policy, and the view of each slice."""

    def __init__(self, policy):
        self.history = History(policy)
        self.views = [View(slot) for slot in range(len(policy.slices))]

    def take(self, event):
        """Lengthens the history and the views by an event, and tells what follows."""
        if self.history.has_ended():
            return Step(Verdict.ENDED)
        place, was_opened = len(self.history.events), self.history.is_opened()
        items = [items_of(self.history, view, event) if was_opened else [] for view in self.views]
        lane = own_messages(event)
        self.history.append(event)
        if self.history.is_opened() and not was_opened:
            items = [[opened_item(self.history, view.slot)] for view in self.views]
            lane = OPENING
        answers = [(view.slot, answer) for view in self.views for answer in self.see(view, place, items[view.slot])]
        if isinstance(event, SliceMessage):
            lane = tuple(draft.spelled(self.buffer_of(event.slot)) for _, answer in answers for draft in answer.to_switch)
        sent = tuple((slot, one) for slot, answer in answers for one in answer.to_slice)
        return Step(self.history.verdict_on_last(), lane, sent)

    def see(self, view, place, items):
        """Lengthens a view by the items of the event at a place, and tells what follows from each."""
        for item in items:
            settings = self.history.settings[view.slot]
            answer = answer_to(settings, view, item)
            view.append(Seen(place, item, answer))
            shown = tuple(turn_out(settings.swaps, one) for one in answer.to_slice)
            yield dataclasses.replace(answer, to_slice=shown) if settings.swaps else answer

    def buffer_of(self, slot):
        """What tells the number with which a buffered packet of a slice came."""
        packets = self.views[slot].packets
        return lambda ordinal: self.history.buffer_at(packets[ordinal][1].place)


def own_messages(event):
    """What the proxy itself answers to the switch: a greeting (section 4.2), and echoes (section 5.5.2)."""
    match event:
        case SwitchUp():
            return GREETING
        case SwitchMessage(frame) if is_whole(frame, MessageType.ECHO_REQUEST):
            return (message(MessageType.ECHO_REPLY, Header.of(frame).xid, body_of(frame)),)
    return ()
