"""Where the connections of a capture go to: what to say where none goes to the port that was named."""
import collections

from .captures import Problem, packets_of
from .ends import spelled
from .files import named
from .segments import ACK, SYN, datagram_of, segment_of

# So many are named; the rest is counted.
MOST_TOLD = 5


def play(happenings, recorder, path, ends):
    """Plays what happened in a capture. Where no switch came up, the first line is that nobody connects to their port."""
    try:
        for happening in happenings:
            recorder.play(happening)
        recorder.finish()
    except Problem:
        if not recorder.numbers.begun and (problem := nobody_connects(path, ends)):
            raise problem from None
        raise


def called_ends(path):
    """How many connections begin in a capture to each address and port, each by its first SYN."""
    with open(path, "rb") as file, named(path):
        calls = {call for packet in packets_of(file) if (call := call_of(packet)) is not None}
    return collections.Counter(server for _client, server, _sequence in calls)


def call_of(packet):
    """Between which ends a packet's SYN begins a connection, and its number; None where it has none that can be read."""
    datagram = datagram_of(packet)
    try:
        segment = datagram and segment_of(packet, datagram)
    except Problem:
        return None
    if segment is None or segment.flags & (SYN | ACK) != SYN:
        return None
    return segment.source, segment.destination, segment.sequence


def nobody_connects(path, ends):
    """The problem that no connection of a capture begins to the named port; None where one does, which wasn't taken up."""
    called = called_ends(path)
    if any(ends.role(end) == ends.role_at_port for end in called):
        return None
    port = f"port {ends.port}" if ends.address is None else spelled((ends.address, ends.port))
    return Problem(None, f"nobody connects to {port} in the capture; {told_ends(called)}")


def told_ends(called):
    """What connections begin to, the most called ends first."""
    if not called:
        return "no connection begins in it"
    told = [f"{count} to {spelled(end)}" for end, count in sorted(called.items(), key=lambda item: (-item[1], item[0]))]
    more = len(told) - MOST_TOLD
    others = [f"others to {more} more"] if more > 0 else []
    return f"connections begin: {', '.join(told[:MOST_TOLD] + others)}"
