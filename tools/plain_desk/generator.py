"""Recordings of rounds, drawn from a seed as `flowvisor gen` draws them (this proxy's own rule)."""
import itertools
import struct

from sunworsted import (
    ROOT, SLICE_BYTES, SLICE_UP, SWITCH_BYTES, SWITCH_UP, features_reply, message, packet_in, record, recording, tcp_packet,
)

# The policy under which they are replayed.
POLICY = ROOT / "examples/two-slices.toml"

ALICE, BOB = range(2)
PORTS = [1, 2, 3, 0xFFFE]
NO_BUFFER, NO_PORT, SEND_FLOW_REMOVED = 0xFFFFFFFF, 0xFFFF, 1
# The types of messages (OpenFlow 1.0.0, section 5.1).
PACKET_OUT, FLOW_MOD, BARRIER_REQUEST = 13, 14, 18


def draws(seed):
    """A function that gives the next number below a limit."""
    state = seed

    def draw(limit):
        nonlocal state
        state = (state * 6364136223846793005 + 1442695040888963407) % 2**64
        return (state >> 33) % limit

    return draw


def output(draw):
    """The action that sends a packet out by a port (section 5.2.4)."""
    return struct.pack(">HHHH", 0, 8, 1 + draw(3), 0)


def drawn_packet_in(draw):
    packet = tcp_packet([80, 22, 443][draw(3)])
    buffer = draw(64) if draw(2) else NO_BUFFER
    return packet_in(0, 1 + draw(3), packet, buffer)


def drawn_flow_mod(draw, xid):
    """An entry for the TCP packets from a port (sections 5.2.3 and 5.3.3)."""
    pattern = struct.pack(">I18xHBB10xHH", 0x0038208F, 0x0800, 0, 6, draw(100), 0)
    fields = struct.pack(">QHHHHIHH", 0, 0, 0, 0, draw(4), NO_BUFFER, NO_PORT, SEND_FLOW_REMOVED)
    return message(FLOW_MOD, xid, pattern + fields + output(draw))


def drawn_packet_out(draw, xid):
    """A packet that is sent out (section 5.3.6)."""
    actions = output(draw)
    fields = struct.pack(">IHH", NO_BUFFER, 1, len(actions))
    return message(PACKET_OUT, xid, fields + actions + tcp_packet([80, 22][draw(2)]))


def drawn_request(kind, draw, xid):
    if kind < 6:
        return drawn_flow_mod(draw, xid)
    return drawn_packet_out(draw, xid) if kind == 6 else message(BARRIER_REQUEST, xid, b"")


def drawn_round(draw, number, switch):
    kind = draw(8)
    if kind < 4:
        return record(SWITCH_BYTES, number, drawn_packet_in(draw), switch=switch)
    slot = draw(2)
    return record(SLICE_BYTES, number, drawn_request(kind, draw, number), slot, switch)


def opening(switch):
    yield record(SWITCH_UP, 0, switch=switch)
    yield record(SWITCH_BYTES, 0, features_reply(0xFF000001, 0xA1 + switch, PORTS), switch=switch)
    for slot in [ALICE, BOB]:
        yield record(SLICE_UP, 0, slot=slot, switch=switch)


def rounds(seed, count, switches=1):
    """A recording of so many rounds; each switch comes up and opens with two slices, and the rounds go to them in turn."""
    draw = draws(seed)
    openings = itertools.chain.from_iterable(map(opening, range(switches)))
    return recording(*openings, *(drawn_round(draw, number, number % switches) for number in range(count)))
