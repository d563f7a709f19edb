"""What follows for a slice from each thing that it sees, looked up in what it saw before."""
import dataclasses

from flowvisor_tool.openflow.protocol import NO_BUFFER, Header, MessageType, PacketInReason, StatsType

from .answer import NOTHING, Answer, error_told, told
from .items import Barrier, Fault, Last, Message, Packet, Queues, Removed, Share, Status, Up
from .messages import PacketIn, body_of, number_at
from .slice_messages import message_answer
from .statistics import aggregate_reply, entry_replies
from .view import ROUND
from .wire import is_of, message

# The mark of a probe is taken off again.
TRAILER_SIZE = 8


def answer_to(settings, view, item):
    """What follows from an item after a view. A slice that comes up is greeted; one that isn't up gets nothing."""
    if isinstance(item, Up):
        return told(message(MessageType.HELLO, 0))
    if isinstance(item, Removed):
        return removed_answer(view, item)
    if not view.is_up():
        return NOTHING
    match item:
        case Message():
            return message_answer(settings, view, item)
        case Packet():
            return told(packet_in(view, item).spelled())
        case Status(status):
            return told(status.spelled())
        case Fault():
            return fault_answer(view, item)
        case Barrier():
            return barrier_answer(view, item)
        case Queues():
            return queues_answer(view, item)
        case Last():
            return last_answer(view, item)
    return NOTHING


def packet_in(view, packet):
    """A packet as the slice gets it (OpenFlow 1.0.0, section 5.4.1; that it has another number is this proxy's own rule)."""
    data, total_len, buffer = packet.data, packet.total_len, NO_BUFFER
    if packet.share is Share.PROBE:
        data, total_len = data[:-TRAILER_SIZE], max(0, total_len - TRAILER_SIZE)
    elif packet.is_buffered:
        buffer = len(view.packets) % ROUND
        if packet.reason == PacketInReason.NO_MATCH:
            data = data[: view.miss_send_len()]
    return PacketIn(buffer, total_len, packet.in_port, packet.reason, data)


def removed_answer(view, removed):
    """The pair is released; a slice that is up is sent it, where it was booked and asks for that (section 5.4.2)."""
    pair = removed.pair()
    bookings = view.bookings(pair)
    is_told = view.is_up() and bookings and bookings[-1].asks
    to_slice = (removed.message.spelled(),) if is_told else ()
    return Answer(to_slice=to_slice, releases=frozenset([pair] if bookings else []))


def fault_answer(view, fault):
    """The first error for a request goes to the slice; each releases a pair that the request booked first (section 5.4.4)."""
    request = view.remembered(fault.low)
    if request is None:
        return NOTHING
    is_first = request.number not in view.failed
    answer = error_told(request.sent, Header.of(request.frame).xid, fault.error) if is_first else NOTHING
    bookings = view.bookings(fault.pair)
    is_own = bool(bookings) and bookings[0].request == request.number
    releases = frozenset([fault.pair] if is_own else [])
    return dataclasses.replace(answer, fails=frozenset([request.number]), releases=releases)


def barrier_answer(view, barrier):
    """The reply, once, where the request is a barrier (section 5.3.7)."""
    request = view.remembered(barrier.low)
    if not is_undone(view, request) or not is_of(request.frame, MessageType.BARRIER_REQUEST):
        return NOTHING
    return completed(request, message(MessageType.BARRIER_REPLY, Header.of(request.frame).xid))


def queues_answer(view, queues):
    """The reply as it came, once, where the request asks for the queues of that port (section 5.3.4)."""
    request = view.remembered(queues.low)
    if not is_undone(view, request) or not is_of(request.frame, MessageType.QUEUE_GET_CONFIG_REQUEST):
        return NOTHING
    if number_at(body_of(request.frame), 0) != queues.port:
        return NOTHING
    return completed(request, message(MessageType.QUEUE_GET_CONFIG_REPLY, Header.of(request.frame).xid, queues.body))


def is_undone(view, request):
    return request is not None and request.number not in view.done


def completed(request, *messages):
    """The slice gets the reply, and the request is done."""
    return dataclasses.replace(told(*messages), completes=frozenset([request.number]))


def last_answer(view, last):
    """The replies of the slice's entries, where the request still collects these (section 5.3.5)."""
    request = view.remembered(last.low)
    if request is None or request.number not in view.collecting():
        return NOTHING
    asked, xid = request.statistics(), Header.of(request.frame).xid
    if asked.sent_kind() != last.kind:
        return NOTHING
    entries = view.entries_of(request, last.kind)
    if asked.kind == StatsType.AGGREGATE:
        return completed(request, aggregate_reply(xid, entries))
    return completed(request, *entry_replies(asked.kind, xid, entries))
