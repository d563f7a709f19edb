"""Cases of from-pcap: bytes in their order, beginnings and ends of connections, and what is missing of them."""
from fractions import Fraction

from from_pcap_cases import Case, one, refused
from made_captures import ECHO, HELLO, Talk, alice_talk, pcap, switch_talk, timed
from sunworsted import SLICE_BYTES, SLICE_DOWN, SLICE_UP, SWITCH_BYTES, SWITCH_DOWN, SWITCH_UP, record, recording

from flowvisor_tool.segments import ACK, FIN, PUSH, RST, SYN

DATA = bytes(range(100))


def part(first, last, **more):
    """The switch sends these of the bytes."""
    return switch_talk().from_client(first, DATA[first:last], **more)


def bytes_at(*pieces):
    """The records of bytes, each of a timestamp, from a first up to a last one."""
    return [record(SWITCH_BYTES, moment, DATA[first:last]) for moment, first, last in pieces]


def sequences():
    """Segments of one connection in every order: packets behind its three first ones, and the records of them."""
    talk = switch_talk()
    yield "in order", [part(0, 10), part(10, 100)], bytes_at((3, 0, 10), (4, 10, 100))
    yield "out of order", [part(20, 30), part(10, 20), part(0, 10), part(30, 40)], bytes_at((5, 0, 30), (6, 30, 40))
    yield "two gaps", [part(10, 20), part(30, 40), part(0, 10), part(20, 30)], bytes_at((5, 0, 20), (6, 20, 40))
    yield "repeats", [part(0, 10), part(0, 10), part(10, 20), part(0, 10), part(10, 20)], bytes_at((3, 0, 10), (5, 10, 20))
    yield "repeats that wait", [part(10, 20), part(10, 20), part(0, 10), part(10, 20)], bytes_at((5, 0, 20))
    yield "overlaps", [part(0, 10), part(5, 15), part(0, 20), part(19, 30)], bytes_at(
        (3, 0, 10), (4, 10, 15), (5, 15, 20), (6, 20, 30))
    yield "overlaps that wait", [part(15, 30), part(10, 20), part(12, 14), part(25, 40), part(0, 12)], bytes_at((7, 0, 40))
    yield "a longer one over one that waits", [part(20, 25), part(10, 50), part(0, 10)], bytes_at((5, 0, 50))
    yield "a repeat with other bytes", [part(0, 10), talk.from_client(0, bytes(10)), part(10, 20)], bytes_at((3, 0, 10), (5, 10, 20))
    yield "a probe of one old byte", [part(0, 10), talk.from_client(9, b"\xff"), part(10, 20)], bytes_at((3, 0, 10), (5, 10, 20))
    yield "a SYN again behind bytes", [part(0, 10), talk.syn(), part(10, 20), talk.syn_ack(), part(20, 30)], bytes_at(
        (3, 0, 10), (5, 10, 20), (7, 20, 30))
    yield "acknowledgements that go back", [part(0, 10), talk.from_server(8, seen=10), talk.from_server(8, seen=5)], bytes_at(
        (3, 0, 10))
    yield "acknowledged before the bytes", [talk.from_server(8, seen=100), part(0, 100)], bytes_at((4, 0, 100))
    yield "a gap of the proxy", [talk.from_server(10, HELLO), part(0, 100)], bytes_at((4, 0, 100))
    yield "SYNs again", [talk.syn(), talk.syn_ack(), part(0, 100)], bytes_at((5, 0, 100))
    yield "urgent bytes", [part(0, 100, flags=ACK | PUSH | 32)], bytes_at((3, 0, 100))


def ends():
    """Ends of one connection, written as in `sequences`."""
    talk = switch_talk()
    fin, server_fin = talk.from_client(100, b"", FIN | ACK), talk.from_server(8, b"", FIN | ACK, seen=50)
    reset, server_reset = talk.from_client(100, b"", RST | ACK), talk.from_server(0, b"", RST)
    spoken = talk.from_server(0, HELLO)
    yield "the switch ends", [part(0, 100), fin, talk.from_server(8, b"", FIN | ACK, seen=101)], [
        *bytes_at((3, 0, 100)), record(SWITCH_DOWN, 4)]
    end_and_end = [fin, talk.from_server(8, b"", FIN | ACK, seen=101), talk.from_client(101, seen=9)]
    yield "both ends", [part(0, 100), spoken, *end_and_end], [*bytes_at((3, 0, 100)), record(SWITCH_DOWN, 5)]
    yield "both ends before bytes", [spoken, fin, talk.from_client(101, seen=8), part(0, 100)], [
        *bytes_at((6, 0, 100)), record(SWITCH_DOWN, 6)]
    yield "both ends, the proxy's first", [part(0, 100), spoken, talk.from_server(8, b"", FIN | ACK, seen=100), fin, talk.from_client(101, seen=9)], [
        *bytes_at((3, 0, 100)), record(SWITCH_DOWN, 5)]
    yield "an end with bytes", [part(0, 100, flags=FIN | ACK | PUSH), fin], [*bytes_at((3, 0, 100)), record(SWITCH_DOWN, 3)]
    yield "an end with bytes, before others", [part(50, 100, flags=FIN | ACK), part(0, 50)], [
        *bytes_at((4, 0, 100)), record(SWITCH_DOWN, 4)]
    reset_with_bytes = talk.from_client(50, b"reset", RST)
    yield "a reset with bytes", [part(0, 50), reset_with_bytes, reset_with_bytes, part(40, 50)], [
        *bytes_at((3, 0, 50)), record(SWITCH_DOWN, 4)]
    yield "a reset behind an end, and all again", [part(0, 50, flags=FIN | ACK), *[
        talk.from_client(51, b"", RST), talk.from_server(8, seen=51), part(40, 50, flags=FIN | ACK), talk.from_client(51)] * 2], [
        *bytes_at((3, 0, 50)), record(SWITCH_DOWN, 3)]
    yield "the proxy resets, and bytes come in any order", [
        spoken, server_reset, part(50, 100), part(0, 50), talk.from_client(100, b"", RST)], [record(SWITCH_DOWN, 4)]
    yield "an end before bytes", [part(0, 50), fin, part(50, 100), fin], [*bytes_at((3, 0, 50), (5, 50, 100)), record(SWITCH_DOWN, 5)]
    yield "the switch resets", [part(0, 100), reset, part(0, 100)], [*bytes_at((3, 0, 100)), record(SWITCH_DOWN, 4)]
    yield "the proxy ends", [spoken, part(0, 50), server_fin, part(50, 100), fin], [*bytes_at((4, 0, 50)), record(SWITCH_DOWN, 5)]
    for name, flags in {"end": FIN | ACK, "reset": RST | ACK}.items():
        last = talk.from_server(8, b"", flags, seen=50)
        yield f"bytes that the proxy's {name} doesn't count", [spoken, part(0, 50), part(50, 100), last], [*bytes_at((4, 0, 50)), record(SWITCH_DOWN, 6)]
        yield f"bytes of which the proxy's {name} counts a part", [spoken, part(0, 100), last], [*bytes_at((4, 0, 50)), record(SWITCH_DOWN, 5)]
    yield "the proxy resets", [spoken, part(0, 50), server_reset, part(50, 100)], [*bytes_at((4, 0, 50)), record(SWITCH_DOWN, 5)]
    yield "a gap filled after the proxy's end", [spoken, part(50, 100), talk.from_server(8, b"", FIN | ACK), part(0, 50)], [record(SWITCH_DOWN, 5)]
    yield "all acknowledged", [part(0, 100), fin, talk.from_server(8, seen=101)], [*bytes_at((3, 0, 100)), record(SWITCH_DOWN, 4)]
    yield "all acknowledged by a reset", [spoken, part(0, 100), talk.from_server(8, b"", RST | ACK, seen=100)], [
        *bytes_at((4, 0, 100)), record(SWITCH_DOWN, 5)]
    yield "an end, and a reset behind it", [part(0, 100), fin, talk.from_client(101, b"", RST)], [
        *bytes_at((3, 0, 100)), record(SWITCH_DOWN, 4)]


def misplaced_ends():
    """Ends that are captured before the bytes that they count, and those of a connection before, written as in `sequences`."""
    talk = switch_talk()
    spoken = talk.from_server(0, HELLO)
    for name, (segment, counted) in {
        "an end of the proxy": (talk.from_server(8, b"", FIN | ACK, seen=100), 100),
        "an end of the proxy with bytes": (talk.from_server(0, HELLO, FIN | ACK, seen=90), 90),
        "an end of both": (talk.from_server(8, b"", FIN | ACK, seen=101), 100),
        "a reset of the proxy": (talk.from_server(8, b"", RST | ACK, seen=100), 100),
        "a reset": (talk.from_client(100, b"", RST), 100),
        "a reset that acknowledges": (talk.from_client(100, b"", RST | ACK, seen=8), 100),
    }.items():
        yield f"{name} before the bytes that it counts", [
            spoken, part(0, 50), segment, part(80, 100, flags=FIN | ACK), part(50, 80), part(80, 100)], [
            *bytes_at((4, 0, 50), (7, 50, counted)), record(SWITCH_DOWN, 7)]
    yield from ends_with_lower_numbers()
    yield "an end of the proxy before the bytes that it counts, and it acknowledges more", [
        spoken, part(0, 50), talk.from_server(8, b"", FIN | ACK, seen=80), talk.from_server(9, seen=100), part(50, 100)], [
        *bytes_at((4, 0, 50), (7, 50, 80)), record(SWITCH_DOWN, 7)]
    yield "an end of the proxy, and a gap behind what it counts", [
        spoken, part(0, 50), part(60, 100), talk.from_server(8, b"", FIN | ACK, seen=50), part(50, 60)], [
        *bytes_at((4, 0, 50)), record(SWITCH_DOWN, 6)]
    for name, flags in {"a reset": RST, "a reset that acknowledges": RST | ACK, "an end": FIN | ACK}.items():
        for at in (49, 0, -1, -90_000):
            yield f"{name} of before, at {at}", [part(0, 50), talk.from_client(at, b"", flags), part(50, 100, flags=FIN | ACK)], [
                *bytes_at((3, 0, 50), (5, 50, 100)), record(SWITCH_DOWN, 5)]


def ends_with_lower_numbers():
    """Bytes that the proxy acknowledged before its end, which tells a lower number or none, and that are captured behind it."""
    talk = switch_talk()
    for name, end_ in {
        "a reset without one": talk.from_server(8, b"", RST),
        "a reset with a lower one": talk.from_server(8, b"", RST | ACK, seen=50),
        "an end without one": talk.from_server(8, b"", FIN),
        "an end with a lower one": talk.from_server(8, b"", FIN | ACK, seen=50),
    }.items():
        yield f"the proxy's last number before {name}", [
            talk.from_server(0, HELLO), part(0, 50), talk.from_server(8, seen=80), end_, part(50, 100)], [
            *bytes_at((4, 0, 50), (7, 50, 80)), record(SWITCH_DOWN, 7)]


def wrapped():
    """Sequence numbers that pass their end, at each byte of a segment."""
    for start in (2**32 - 1, 2**32 - 2, 2**32 - 6, 2**32 - 21, 2**31 - 5):
        talk = switch_talk(first_of_client=start)
        data = bytes(range(40))
        packets = [*talk.opening(), talk.from_client(0, data[:10]), talk.from_client(20, data[20:30]),
                   talk.from_client(5, data[5:20]), talk.from_client(30, data[30:], FIN | ACK), talk.from_server(8, seen=41)]
        yield Case(f"numbers that pass their end from {start}", pcap(timed(packets)), recording(
            record(SWITCH_UP, 2), record(SWITCH_BYTES, 3, data[:10]), record(SWITCH_BYTES, 5, data[10:30]),
            record(SWITCH_BYTES, 6, data[30:]), record(SWITCH_DOWN, 6)))
    for name, firsts in {"client": {"first_of_client": 2**32 - 1}, "server": {"first_of_server": 2**32 - 1}}.items():
        talk = switch_talk(**firsts)
        again = [talk.syn(), talk.syn_ack()]
        yield one(f"SYNs again, and the {name}'s first byte has the number 0", [
            *again, *talk.opening(), talk.from_client(0, ECHO), *again, talk.from_client(12, HELLO)],
            record(SWITCH_UP, 4), record(SWITCH_BYTES, 5, ECHO), record(SWITCH_BYTES, 8, HELLO))
    talk = switch_talk(first_of_client=2**32 - 1)
    yield one("bytes in the SYN, and the first one has the number 0", [talk.syn(ECHO), talk.syn_ack(seen=12), talk.from_client(12)],
              record(SWITCH_UP, 2), record(SWITCH_BYTES, 2, ECHO))
    talk = switch_talk(first_of_client=2**32 - 5)
    packets = [*talk.opening(), talk.from_client(0, b"\1"), talk.from_server(0, HELLO), talk.from_server(8, b"", FIN)]
    yield Case("an end that acknowledges nothing", pcap(timed(packets)),
               recording(record(SWITCH_UP, 2), record(SWITCH_BYTES, 3, b"\1"), record(SWITCH_DOWN, 5)))


def openings():
    """Beginnings of connections."""
    talk = switch_talk()
    later = switch_talk(first_of_client=9999, first_of_server=1234567)
    said, up_2, echo_3 = talk.from_client(0, ECHO), record(SWITCH_UP, 2), record(SWITCH_BYTES, 3, ECHO)
    yield one("no SYN, but its answer", talk.opening()[1:] + [said], record(SWITCH_UP, 1), record(SWITCH_BYTES, 2, ECHO))
    yield one("a SYN without the answer", [talk.syn(), talk.from_client(0), said], record(SWITCH_UP, 1), record(SWITCH_BYTES, 2, ECHO))
    yield one("the answer behind the first bytes", [talk.syn(), said, talk.syn_ack(), talk.from_client(12, HELLO)],
              record(SWITCH_UP, 1), record(SWITCH_BYTES, 1, ECHO), record(SWITCH_BYTES, 3, HELLO))
    yield one("the proxy's bytes show the agreement", [talk.syn(), talk.syn_ack(), talk.from_server(0, HELLO), said], up_2, echo_3)
    yield one("bytes in the SYN", [talk.syn(ECHO), talk.syn_ack(seen=12), talk.from_client(12)], up_2, record(SWITCH_BYTES, 2, ECHO))
    yield one("bytes in the SYN that come again", [talk.syn(ECHO), talk.syn_ack(), talk.from_client(0, ECHO + HELLO)],
              up_2, record(SWITCH_BYTES, 2, ECHO + HELLO))
    yield one("only an answer without bytes", [talk.syn(), talk.from_server(5, seen=77), *later.opening(), later.from_client(0, ECHO)],
              record(SWITCH_UP, 4), record(SWITCH_BYTES, 5, ECHO))
    for name, last, records_ in (
        ("the proxy's bytes", talk.from_server(0, HELLO, seen=12), []),
        ("the proxy's bytes and end", talk.from_server(0, HELLO, FIN | ACK, seen=12), [record(SWITCH_DOWN, 2)]),
    ):
        yield one(f"bytes in the SYN, and {name} show the agreement", [talk.syn(ECHO), talk.syn_ack(seen=12), last, talk.from_client(12, seen=9)],
                  up_2, record(SWITCH_BYTES, 2, ECHO), *records_)
    yield one("a client that acknowledges nothing", [talk.syn(), talk.syn_ack(), talk.from_client(0, b"", 0), talk.from_client(0)],
              record(SWITCH_UP, 3))
    early = [talk.syn(), talk.syn_ack(), talk.from_server(0), talk.from_client(0), talk.from_server(0, HELLO)]
    yield one("the proxy acknowledges before the client", early, record(SWITCH_UP, 3))
    yield one("one byte of the proxy shows the agreement", [talk.syn(), talk.syn_ack(), talk.from_server(0, b"\1")], up_2)
    yield one("acknowledgements of before", [talk.syn(), talk.from_server(5, seen=500), talk.syn_ack(), talk.from_client(0), said],
              record(SWITCH_UP, 3), record(SWITCH_BYTES, 4, ECHO))
    refusal = talk.from_server(-1, b"", RST | ACK)
    yield one("a SYN that is refused, and repeated", [talk.syn(), refusal, *talk.opening(), said],
              record(SWITCH_UP, 4), record(SWITCH_BYTES, 5, ECHO))


def controllers_answers():
    """Controllers' answers to SYNs, captured in their turn or not."""
    talk, alice = switch_talk(), alice_talk()
    up_2 = record(SWITCH_UP, 2)
    stray = alice_talk(first_of_server=5).from_server(-1, b"", SYN | ACK, seen=1 << 20)
    other = alice_talk(first_of_server=1 << 20).from_server(-1, b"", SYN | ACK, seen=1 << 20)
    yield one("answers to other SYNs, and to none", [
        *talk.opening(), alice.syn(), alice.from_server(9, seen=500), stray, alice.syn_ack(), other, alice.from_client(0, HELLO),
        alice.from_server(0, ECHO)], up_2, record(SLICE_UP, 8), record(SLICE_BYTES, 9, ECHO))
    before = [*talk.opening(), alice.syn()]
    yield one("a controller's answer behind its bytes", [*before, alice.from_server(0, ECHO), alice.syn_ack(), alice.from_client(0, HELLO)],
              up_2, record(SLICE_UP, 5), record(SLICE_BYTES, 5, ECHO))
    yield one("a controller's answer behind the greeting", [*before, alice.from_client(0, HELLO), alice.syn_ack(), alice.from_server(0, ECHO)],
              up_2, record(SLICE_UP, 5), record(SLICE_BYTES, 6, ECHO))
    yield one("a controller's answer behind its end", [*before, alice.from_server(0, ECHO, FIN | ACK), alice.syn_ack(), alice.from_client(0, HELLO)],
              up_2, record(SLICE_UP, 5), record(SLICE_BYTES, 5, ECHO), record(SLICE_DOWN, 5))
    ended = alice.from_server(12, b"", FIN | ACK)
    yield one("a controller's answer behind its bytes and its end", [*before, alice.from_server(0, ECHO), ended, alice.syn_ack()],
              up_2, record(SLICE_UP, 6), record(SLICE_BYTES, 6, ECHO), record(SLICE_DOWN, 6))
    ended = alice.from_server(0, b"", FIN | ACK)
    yield one("a controller's answer behind its end alone", [*before, ended, alice.syn_ack(), alice.from_client(0, HELLO)],
              up_2, record(SLICE_UP, 6), record(SLICE_DOWN, 6))
    yield one("a controller's end before the proxy's answer", [*before, alice.syn_ack(), ended, alice.from_client(0, HELLO)],
              up_2, record(SLICE_UP, 6), record(SLICE_DOWN, 6))
    remains = alice_talk(first_of_client=9, first_of_server=1 << 20).from_server(12, b"", FIN | ACK)
    yield one("the end of another connection before a controller's answer", [*before, remains, alice.syn_ack(), alice.from_client(0, HELLO),
              alice.from_server(0, ECHO)], up_2, record(SLICE_UP, 6), record(SLICE_BYTES, 7, ECHO))


def remains_before():
    """Segments of a connection before, behind the SYN of the next one between the same ports."""
    talk, alice, other = switch_talk(), alice_talk(), switch_talk("10.0.0.10:1")
    up, up_2 = [*talk.opening(), talk.from_server(0, HELLO)], record(SWITCH_UP, 2)
    for name, flags in {"a reset": RST, "a reset that acknowledges": RST | ACK}.items():
        yield one(f"{name} of before, behind a switch's SYN-ACK", [
            talk.syn(), talk.syn_ack(), talk.from_client(-90_000, b"", flags), talk.from_client(0), talk.from_client(0, ECHO)],
            record(SWITCH_UP, 3), record(SWITCH_BYTES, 4, ECHO))
        yield one(f"{name} of before, behind a controller's SYN-ACK", [
            *up, alice.syn(), alice.syn_ack(), alice.from_server(-90_000, b"", flags), alice.from_client(0, HELLO), alice.from_server(0, ECHO)],
            up_2, record(SLICE_UP, 7), record(SLICE_BYTES, 8, ECHO))
        before = alice_talk(first_of_client=90_000, first_of_server=160_000).from_server(0, b"", flags)
        yield one(f"{name} of before, ahead of a controller's SYN-ACK", [
            *up, alice.syn(), before, alice.syn_ack(), alice.from_client(0, HELLO), alice.from_server(0, ECHO)],
            up_2, record(SLICE_UP, 7), record(SLICE_BYTES, 8, ECHO))
    yield one("a reset and an end of before, ahead of the proxy's SYN-ACK", [
        talk.syn(), talk.from_server(-90_000, b"", RST), talk.from_server(-90_000, b"", FIN | ACK, seen=1 << 16), *talk.opening()[1:]],
        record(SWITCH_UP, 4))
    last = alice_talk(first_of_client=2**32 - 1)
    yield one("a reset that acknowledges nothing, ahead of a controller's SYN-ACK, and the first number is 0", [
        *up, last.syn(), last.from_server(0, b"", RST), last.syn_ack(), last.from_client(0, HELLO)], up_2, record(SLICE_UP, 7))
    for seen in (65_535, 65_536):
        early = [*up, alice.syn(), alice.from_server(0, ECHO, seen=seen), alice.syn_ack(), alice.from_client(0, HELLO)]
        records_ = [record(SLICE_UP, 6), record(SLICE_BYTES, 6, ECHO)] if seen == 65_535 else [record(SLICE_UP, 7)]
        yield one(f"bytes ahead of a controller's SYN-ACK that acknowledge {seen} bytes", early, up_2, *records_)
    yield one("bytes of the proxy of before", [*up, talk.from_server(-90_000, ECHO), talk.from_client(0, ECHO)], up_2, record(SWITCH_BYTES, 5, ECHO))
    yield one("a probe shows the agreement", [*up[:2], talk.from_client(-1), talk.from_client(0, ECHO)], up_2, record(SWITCH_BYTES, 3, ECHO))
    for shift in (90_000, -90_000):
        old = alice_talk(first_of_client=1000 + shift, first_of_server=70_000 + shift)
        yield one(f"a controller's connection is half open, its numbers differ by {shift}", [
            *up, *old.opening(HELLO), old.from_server(0, HELLO, seen=8), alice.syn(), old.from_server(8, ECHO, seen=8),
            old.from_client(8, b"", RST), old.from_server(8, ECHO, seen=8), alice.syn(), alice.syn_ack(), alice.from_client(0, HELLO),
            alice.from_server(0, ECHO)],
            up_2, record(SLICE_UP, 6), record(SLICE_BYTES, 7, HELLO), record(SLICE_DOWN, 8), record(SLICE_UP, 14), record(SLICE_BYTES, 15, ECHO))
    yield one("a call that the proxy gives up, and its answer comes again", [
        *up, alice.syn(), alice.syn(), alice.syn_ack(), alice.from_client(0, b"", RST), alice.syn_ack(), alice.from_client(0, b"", RST),
        *alice_talk("10.0.0.1:50009").opening(HELLO)], up_2, record(SLICE_UP, 12))
    yield one("a SYN scan", [*other.opening(), talk.syn(), talk.syn_ack(), talk.from_client(0, b"", RST), talk.syn_ack()], up_2)


def refused_calls():
    """Connections that end before both sides have agreed to them, and go on nevertheless."""
    talk, alice, other = switch_talk(), alice_talk(), switch_talk("10.0.0.10:1")
    up = other.opening()
    ended = "the connection of packet 4 has ended before"
    for name, segment in {"a reset": talk.from_client(8, b"", RST), "a reset that acknowledges": talk.from_client(8, b"", RST | ACK),
                          "the proxy's reset": talk.from_server(8, b"", RST), "the proxy's end": talk.from_server(8, b"", FIN | ACK)}.items():
        yield refused(f"{name} before the bytes that it counts, the switch speaks first", [
            *up, talk.syn(), talk.syn_ack(), segment, talk.from_client(0, HELLO), talk.from_server(0, HELLO)], f"packet 7: {ended}")
        yield refused(f"{name} before the bytes that it counts, the proxy speaks first", [
            *up, talk.syn(), talk.syn_ack(), segment, talk.from_server(0, HELLO), talk.from_client(0, HELLO)], f"packet 7: {ended}")
    for name, segment in {"a reset": alice.from_server(12, b"", RST), "the proxy's reset": alice.from_client(8, b"", RST)}.items():
        yield refused(f"{name} before the controller's bytes", [
            *up, alice.syn(), alice.syn_ack(), segment, alice.from_server(0, ECHO)], f"packet 7: {ended}")
    yield one("a call that the proxy gives up before the answer", [*up, alice.syn(), alice.from_client(0, b"", RST | ACK)], record(SWITCH_UP, 2))
    later = switch_talk(first_of_client=5_000_000)
    yield one("a refused call, and another that begins with its answer", [
        *up, talk.syn(), talk.from_server(-1, b"", RST | ACK), later.syn_ack(), later.from_client(0, HELLO), later.from_server(0, HELLO)],
        record(SWITCH_UP, 2), record(SWITCH_UP, 6, switch=1), record(SWITCH_BYTES, 6, HELLO, switch=1))
    web = Talk("10.0.0.9:6633", "10.0.0.1:80")
    refusal = web.from_server(-1, b"", RST | ACK)
    yield one("a refused call that isn't recorded, and goes on", [*up, web.syn(), refusal, web.syn_ack(), web.from_client(0, HELLO)],
              record(SWITCH_UP, 2))


def ports_again():
    """Connections between ports that had one before, and clocks that are set back."""
    talk = switch_talk()
    later = switch_talk(first_of_client=9999, first_of_server=1234567)
    said, ended = talk.from_client(0, ECHO), talk.from_client(12, b"", FIN | ACK)
    up_2, echo_3 = record(SWITCH_UP, 2), record(SWITCH_BYTES, 3, ECHO)
    yield one("the same ports again", [*talk.opening(), said, ended, *later.opening(), later.from_client(0, HELLO)],
              up_2, echo_3, record(SWITCH_DOWN, 4), record(SWITCH_UP, 7, switch=1), record(SWITCH_BYTES, 8, HELLO, switch=1))
    yield one("the same ports without an end", [*talk.opening(), said, *later.opening(), later.from_client(0, HELLO)],
              up_2, echo_3, record(SWITCH_DOWN, 4), record(SWITCH_UP, 6, switch=1), record(SWITCH_BYTES, 7, HELLO, switch=1))
    yield one("the same ports, an answer alone", [*talk.opening(), said, ended, *later.opening()[1:], later.from_client(0, HELLO)],
              up_2, echo_3, record(SWITCH_DOWN, 4), record(SWITCH_UP, 6, switch=1), record(SWITCH_BYTES, 7, HELLO, switch=1))
    server_ended = talk.from_server(8, b"", FIN | ACK, seen=13)
    again = [*talk.opening(), talk.from_client(0, ECHO + HELLO)]
    for name, ends_ in {
        "both ends": [ended, server_ended], "both ends, the proxy's first": [server_ended, ended],
        "a reset": [talk.from_client(12, b"", RST)], "a reset of the proxy": [talk.from_server(8, b"", RST)],
    }.items():
        at = 5 + len(ends_)
        # The proxy's end counts that of the switch, which is captured behind it.
        down = 6 if ends_[0] is server_ended else 5
        yield one(f"the same ports and the same first numbers again, behind {name}",
                  [*talk.opening(), talk.from_server(0, HELLO), said, *ends_, *again], up_2, record(SWITCH_BYTES, 4, ECHO),
                  record(SWITCH_DOWN, down), record(SWITCH_UP, at + 2, switch=1), record(SWITCH_BYTES, at + 3, ECHO + HELLO, switch=1))
    for name, end_ in {"the switch's end": ended, "the proxy's end": server_ended}.items():
        before = [*talk.opening(), talk.from_server(0, HELLO), said, end_]
        yield refused(f"the same first numbers again, behind {name} alone", [*before, *again],
                      "packet 7: this SYN has the number of the connection of packet 1, of which one side has ended")
    yield one("the answer to the SYN again, behind an end", [*talk.opening(), said, ended, talk.syn_ack()], up_2, echo_3, record(SWITCH_DOWN, 4))
    whole = [*talk.opening(), said]
    back = list(zip([500, 400, 700, 600], whole))
    yield Case("a clock that is set back", pcap(back), recording(record(SWITCH_UP, 200), record(SWITCH_BYTES, 100, ECHO)))
    back = list(zip([500, 400, 300, 600], whole))
    yield Case("a clock before the beginning", pcap(back), recording(record(SWITCH_UP, 0), record(SWITCH_BYTES, 100, ECHO)))


def beginnings_missing():
    """The same ports again, where the capture lacks the SYN and its answer, and SYNs that begin nothing."""
    talk, alice, other = switch_talk(), alice_talk(), switch_talk("10.0.0.10:1")
    up = [*talk.opening(), talk.from_server(0, HELLO), talk.from_client(0, HELLO, seen=8)]
    both_end = [talk.from_server(8, b"", FIN | ACK, seen=8), talk.from_client(8, b"", FIN | ACK, seen=9)]
    ended, behind = "the connection of packet {} has ended before", "it lies before the beginning of the connection of packet {}"
    for first in (5_000_000, 900, 1005, 1000 - 2**30, 1000 + 2**30):
        new = switch_talk(first_of_client=first)
        rest = [new.from_client(0, HELLO), new.from_server(0, HELLO), new.from_client(8, ECHO)]
        yield refused(f"behind a reset, from {first}", [*up, talk.from_client(8, b"", RST), *rest], "packet 7: ")
        # From 1005 the proxy's packet acknowledges a byte of the connection before, as a repeat would.
        text = "packet 8: its side sent bytes before it" if first == 1005 else "packet 7: " + ended.format(1)
        yield refused(f"behind a reset of the proxy, from {first}", [*up, talk.from_server(8, b"", RST), *rest[1:]], text)
        text = "packet 7: " + ended.format(1)
        yield refused(f"behind a reset of the proxy, which numbers anew, from {first}", [
            *up, talk.from_server(8, b"", RST | ACK, seen=8), switch_talk(first_of_server=first).from_server(0, HELLO, seen=8)], text)
        yield refused(f"behind a refused call, from {first}", [
            *other.opening(), other.from_server(0, HELLO), talk.syn(), talk.from_server(-1, b"", RST | ACK), *rest], "packet 7: " + ended.format(5))
        yield refused(f"behind both ends, from {first}", [*up, *both_end, *rest], "packet ")
    new = alice_talk(first_of_client=5_000_000, first_of_server=6_000_000)
    calls = [alice.syn(), alice.from_server(-1, b"", RST | ACK)]
    yield refused("behind a call that the controller refused", [*up, *calls, new.from_server(0, ECHO)], "packet 8: " + ended.format(6))
    yield refused("behind a call that the controller refused, and the proxy answers", [*up, *calls, new.from_client(0)],
                  "packet 8: " + ended.format(6))
    for shift, text in ((-5000, "its side sent bytes before it"), (5000, behind.format(1)), (2**30, behind.format(1))):
        yield refused(f"another connection's bytes, {shift} numbers off", [*up, switch_talk(first_of_client=1000 - shift).from_client(0, ECHO)],
                      f"packet 6: {text}")
    for at, size, is_probe in ((-1, 1, True), (-1, 0, True), (-5, 5, True), (-5, 4, False), (-2, 1, False)):
        packets = [*talk.opening(), talk.from_client(at, bytes(size), seen=8), talk.from_client(0, ECHO)]
        expected = recording(record(SWITCH_UP, 2), record(SWITCH_BYTES, 4, ECHO)) if is_probe else "packet 4: " + behind.format(1)
        yield Case(f"{size} bytes from {at}", pcap(timed(packets)), expected)
    yield from strange_syns()


def strange_syns():
    """SYNs with other numbers than those of the connection between their ports, which is up."""
    for shift in (100_000, -100_000):
        yield from unanswered_syns(shift)
        yield from answered_syns(shift)
    yield from syns_of_the_wrong_side()
    talk, second, third = switch_talk(), switch_talk(first_of_client=9999), switch_talk(first_of_client=77)
    yield one("the same ports, only what comes to the proxy", [
        talk.syn(), talk.from_client(0, ECHO), second.syn(), second.from_client(0, HELLO), second.from_client(8, b"", RST), third.syn()],
              record(SWITCH_UP, 1), record(SWITCH_BYTES, 1, ECHO), record(SWITCH_DOWN, 2),
              record(SWITCH_UP, 3, switch=1), record(SWITCH_BYTES, 3, HELLO, switch=1), record(SWITCH_DOWN, 4, switch=1))


def greeted_switch():
    """The packets of a switch that is greeted and greets."""
    talk = switch_talk()
    return [*talk.opening(), talk.from_server(0, HELLO), talk.from_client(0, HELLO, seen=8)]


# The records of these packets.
GREETED = [record(SWITCH_UP, 2), record(SWITCH_BYTES, 4, HELLO)]


def unanswered_syns(shift):
    """A SYN of these numbers' distance that nothing answers, so that the connection may go on."""
    talk, up = switch_talk(), greeted_switch()
    strange = switch_talk(first_of_client=1000 + shift)
    challenge = [*up, strange.syn(), talk.from_server(8, seen=8)]
    unsure = "packet 6: nothing answers this SYN, so that the connection of packet 1 may go on behind it"
    yield refused(f"a SYN {shift} numbers off", challenge, unsure)
    yield refused(f"a SYN {shift} numbers off, and bytes", [*challenge, talk.from_client(8, ECHO, seen=8)], "packet 8: ")
    yield refused(f"a SYN {shift} numbers off, and an acknowledgement", [*challenge, talk.from_client(8, seen=8)], "packet 8: ")
    yield refused(f"a SYN {shift} numbers off, a reset, and another SYN", [
        *challenge, strange.from_server(0, b"", RST), strange.syn()], unsure)
    yield refused(f"a SYN {shift} numbers off, a reset of the proxy, and another SYN", [
        *up, strange.syn(), talk.from_client(8, b"", RST), switch_talk(first_of_client=500).syn()],
        "packet 8: nothing answers this SYN, so that the connection of packet 1 may")
    same = switch_talk(first_of_server=1000 + shift)
    yield refused(f"a SYN {shift} numbers off, and a reset with the other side's numbers", [
        *same.opening(), same.from_server(0, HELLO), strange.syn(), same.from_client(-200_000, b"", RST | ACK, seen=8)],
        "packet 5: nothing answers this SYN, so that the connection of packet 1 may")


def answered_syns(shift):
    """A SYN of these numbers' distance that shows that the connection has ended, and an answer that fits none."""
    talk, alice, up = switch_talk(), alice_talk(), greeted_switch()
    strange = switch_talk(first_of_client=1000 + shift)
    yield one(f"a SYN {shift} numbers off, which is answered", [*up, strange.syn(), strange.syn_ack()], *GREETED, record(SWITCH_DOWN, 5))
    yield one(f"a SYN {shift} numbers off, which is refused", [*up, strange.syn(), strange.from_server(-1, b"", RST | ACK)],
              *GREETED, record(SWITCH_DOWN, 5))
    yield one(f"a switch's connection is half open, its numbers {shift} off", [
        *up, strange.syn(), talk.from_server(8, seen=8), talk.from_client(8, b"", RST), strange.syn(), strange.syn_ack(),
        strange.from_client(0, ECHO)],
        *GREETED, record(SWITCH_DOWN, 5), record(SWITCH_UP, 10, switch=1), record(SWITCH_BYTES, 10, ECHO, switch=1))
    strange = alice_talk(first_of_server=70_000 + shift).syn_ack()
    text = "this SYN is none of the connection of packet 6, which is open"
    yield refused(f"a controller's SYN {shift} numbers off", [*up, *alice.opening(), strange, alice.from_server(0, ECHO)], f"packet 9: {text}")


def syns_of_the_wrong_side():
    """SYNs of the side that can't have sent them."""
    talk, up = switch_talk(), greeted_switch()
    for name, segment in {"answers": talk.from_client(-1, b"", SYN | ACK), "begins": talk.from_server(-1, b"", SYN)}.items():
        for count in (1, 2, 5):
            yield refused(f"the wrong side {name}, behind {count} packets", [*up[:count], segment, talk.from_client(8, ECHO)],
                          f"packet {count + 1}: this SYN is none of the connection of packet 1, which is open")


def both_up(*packets):
    """The packets of a switch and of alice's controller, which greet, and those behind, which begin with packet 11."""
    talk, alice = switch_talk(), alice_talk()
    greeting = [talk.from_server(0, HELLO), talk.from_client(0, HELLO, seen=8), talk.from_server(8, seen=8)]
    greeted = [alice.from_client(0, HELLO), alice.from_server(0, HELLO, seen=8)]
    return [*talk.opening(), *greeting, *alice.opening(), *greeted, *packets]


# The records of these packets.
BOTH_UP = [record(SWITCH_UP, 2), record(SWITCH_BYTES, 4, HELLO), record(SLICE_UP, 8), record(SLICE_BYTES, 10, HELLO)]


def behind_resets():
    """The proxy resets, and the capture has its packets again or late, or lacks what was lost on the way to it."""
    talk, alice = switch_talk(), alice_talk()
    fin, reset = talk.from_server(8, b"", FIN | ACK, 8), talk.from_server(8, b"", RST | ACK, 8)
    reset_behind = talk.from_server(9, b"", RST | ACK, 8)
    down = record(SWITCH_DOWN, 11)
    for name, packets, records in (
        ("its bytes and it, all again", [talk.from_server(8, ECHO, seen=8), talk.from_server(20, b"", RST | ACK, 8)] * 2, [record(SWITCH_DOWN, 12)]),
        ("its end and it, all again", [fin, reset_behind] * 2, [down]),
        ("the end before it late", [reset_behind, fin], [down]),
        ("an end of the same number late", [reset, fin], [down]),
        ("an acknowledgement late", [talk.from_client(8, ECHO, seen=8), talk.from_server(8, b"", RST | ACK, 20), talk.from_server(8, seen=20)],
         [record(SWITCH_BYTES, 11, ECHO), record(SWITCH_DOWN, 12)]),
        ("to a controller, all again", [alice.from_client(8, ECHO, seen=8), alice.from_client(20, b"", RST | ACK, 8)] * 2, [record(SLICE_DOWN, 12)]),
        ("it and an acknowledgement, before the bytes",
         [talk.from_server(8, b"", RST | ACK, 20), talk.from_server(8, seen=20), talk.from_client(8, ECHO)],
         [record(SWITCH_BYTES, 13, ECHO), record(SWITCH_DOWN, 13)]),
        ("bytes are lost", [reset, talk.from_client(20, ECHO, seen=8)], [down]),
        ("a controller's bytes are lost", [alice.from_client(8, b"", RST | ACK, 8), alice.from_server(20, ECHO, seen=8)], [record(SLICE_DOWN, 11)]),
        ("bytes are lost behind its end", [fin, talk.from_client(20, ECHO, seen=8), talk.from_server(9, b"", RST)], [down]),
    ):
        yield one(f"the proxy resets: {name}", both_up(*packets), *BOTH_UP, *records)
    lost = "its side sent bytes before it that aren't in the capture"
    yield refused("bytes are lost, and the proxy's reset doesn't acknowledge", both_up(talk.from_server(8, b"", RST), talk.from_client(20, ECHO)),
                  f"packet 13: {lost}")
    yield refused("bytes are lost, and the proxy ends", both_up(fin, talk.from_client(20, ECHO)), f"packet 13: {lost}")
    yield refused("new bytes of the proxy behind its reset", both_up(reset, talk.from_server(8, ECHO, seen=8)),
                  "packet 13: the connection of packet 1 has ended before")
    yield from behind_forged_resets()


def behind_forged_resets():
    """A reset stands in the proxy's name, but the connection plainly goes on: others than the proxy can make one."""
    talk, alice = switch_talk(), alice_talk()
    said, answer, bytes_ = talk.from_client(8, ECHO, seen=8), talk.from_server(8, seen=20), talk.from_server(8, ECHO, seen=8)
    ended = "the connection of packet 1 has ended before"
    for name, reset in {
        "a reset": talk.from_server(8, b"", RST), "a reset that acknowledges": talk.from_server(8, b"", RST | ACK, 8),
        "a reset that is far off": talk.from_server(10**8, b"", RST),
    }.items():
        yield refused(f"{name}, and the proxy acknowledges later bytes", both_up(reset, said, answer), f"packet 14: {ended}")
        yield refused(f"{name}, and the proxy goes on", both_up(reset, bytes_), f"packet 13: {ended}")
        yield refused(f"{name} twice, and the proxy acknowledges bytes between", both_up(reset, said, reset, answer), f"packet 15: {ended}")
    far = alice.from_client(10**8, b"", RST)
    yield refused("a reset to a controller that is far off", both_up(far, alice.from_server(8, ECHO, seen=8), alice.from_client(8, seen=20)),
                  "packet 14: the connection of packet 7 has ended before")
    yield one("bytes of the proxy late, a window before its reset", both_up(talk.from_server(65_535 + 8, b"", RST), bytes_),
              *BOTH_UP, record(SWITCH_DOWN, 11))
    yield refused("bytes of the proxy late, more than a window before its reset", both_up(talk.from_server(65_536 + 8, b"", RST), bytes_),
                  f"packet 13: {ended}")


def uncounted():
    """Bytes that were sent before the proxy's end, as a packet shows, but that this doesn't acknowledge."""
    talk, alice, again = switch_talk(), alice_talk(), alice_talk("10.0.0.1:50009")
    down = record(SWITCH_DOWN, 12)
    yield one("bytes that the proxy's end doesn't count, and a controller's behind it", both_up(
        talk.from_client(20, seen=8), talk.from_server(8, b"", FIN | ACK, 8), alice.from_server(8, ECHO, seen=8), talk.from_client(8, ECHO, seen=8)),
        *BOTH_UP, down)
    yield one("the proxy's end counts a part of a segment", [
        *talk.opening(), talk.from_server(0, HELLO), talk.from_server(8, b"", FIN | ACK, 8), talk.from_client(0, HELLO + ECHO, seen=8)],
        record(SWITCH_UP, 2), record(SWITCH_BYTES, 5, HELLO), record(SWITCH_DOWN, 5))
    yield one("a controller's bytes that the proxy's end doesn't count, and its slot is taken again", both_up(
        alice.from_server(20, seen=8), alice.from_client(8, b"", FIN | ACK, 8), *again.opening(), again.from_client(0, HELLO),
        again.from_server(0, HELLO, seen=8), alice.from_server(8, ECHO, seen=9), alice.from_client(9, seen=20)),
        *BOTH_UP, record(SLICE_DOWN, 12), record(SLICE_UP, 15), record(SLICE_BYTES, 17, HELLO))
    yield one("bytes that the proxy's reset doesn't count", both_up(talk.from_client(20, seen=8), talk.from_server(8, b"", RST | ACK, 8)),
              *BOTH_UP, down)


def probes_behind_ends():
    """Probes of a switch behind its end, whose one byte has the end's number, and what is none."""
    talk = switch_talk()
    ended, answer = talk.from_client(8, b"", FIN | ACK, 8), talk.from_server(8, seen=9)
    probe = talk.from_client(8, b"\0", seen=8)
    yield one("probes behind an end", both_up(ended, answer, probe, answer, probe, answer), *BOTH_UP, record(SWITCH_DOWN, 11))
    beyond, two = talk.from_client(9, b"\0", seen=8), talk.from_client(8, b"\0\0", seen=8)
    for name, packets in {"a byte behind an end": [beyond], "a byte behind a probe": [probe, beyond], "two bytes at an end's number": [two]}.items():
        yield refused(name, both_up(ended, answer, *packets), f"packet {13 + len(packets)}: the connection of packet 1 has ended before")


def parts_of_milliseconds():
    """Timestamps that aren't whole milliseconds."""
    talk = switch_talk()
    packets = [*talk.opening(), *(talk.from_client(12 * place, ECHO) for place in range(4))]
    for name, shift in {"the first packet at a whole one": 0, "the first packet in between": Fraction(7, 10)}.items():
        moments = [shift + Fraction(part, 1000) for part in (0, 100, 500, 999, 1500, 2500, 3001)]
        said = [record(SWITCH_BYTES, moment, ECHO) for moment in (0, 1, 2, 3)]
        yield Case(f"parts of milliseconds, {name}", pcap(list(zip(moments, packets))), recording(record(SWITCH_UP, 0), *said))


def missing():
    """Connections of which the capture doesn't have all."""
    talk, alice = switch_talk(), alice_talk()
    opening, said = talk.opening(), talk.from_client(0, ECHO)
    later = switch_talk(first_of_client=9999)
    open_before = "its connection was open before the capture began"
    gap, unseen = "its side sent bytes before it that aren't in the capture", "it acknowledges bytes that aren't in"
    behind = talk.from_client(13, HELLO)
    yield refused("open before", [opening[2], said], f"packet 2: {open_before}")
    yield refused("open before, the proxy speaks", [talk.from_server(50, HELLO)], f"packet 1: {open_before}")
    yield refused("open before, a controller", [*opening, alice.from_server(50, HELLO)], f"packet 4: {open_before}")
    yield refused("a gap", [*opening, said, behind, talk.from_client(21, HELLO)], f"packet 5: {gap}")
    yield refused("a gap before the end", [*opening, behind, talk.from_client(21, b"", FIN | ACK)], f"packet 4: {gap}")
    yield refused("a gap before the end alone", [*opening, said, talk.from_client(13, b"", FIN | ACK)], f"packet 5: {gap}")
    yield refused("a gap before an acknowledgement", [*opening, said, talk.from_client(13, seen=8)], f"packet 5: {gap}")
    yield refused("a gap before a reset", [*opening, said, behind, talk.from_client(21, b"", RST)], f"packet 5: {gap}")
    yield refused("a gap before the same ports again", [*opening, said, behind, *later.opening()], f"packet 5: {gap}")
    yield refused("two gaps, of which the first shows later", [*opening, said, talk.from_client(40, HELLO), behind], f"packet 6: {gap}")
    two_gaps = [*opening, *alice.opening(HELLO), talk.from_client(1, ECHO), alice.from_server(1, ECHO)]
    yield refused("gaps of two connections", two_gaps, f"packet 7: {gap}")
    yield refused("gaps of two connections, the other before", [*two_gaps[:6], two_gaps[7], two_gaps[6]], f"packet 7: {gap}")
    twelve, thirteen = talk.from_server(8, seen=12), talk.from_server(8, seen=13)
    yield refused("acknowledged bytes, and less", [*opening, said, thirteen, twelve], f"packet 5: {unseen}")
    yield refused("acknowledged bytes, and no more", [*opening, said, thirteen, thirteen], f"packet 5: {unseen}")
    yield refused("acknowledged bytes", [*opening, said, twelve, thirteen], f"packet 6: {unseen}")
    reset = talk.from_server(8, b"", RST | ACK, seen=13)
    yield refused("acknowledged bytes, by a reset", [*opening, talk.from_server(0, HELLO), said, reset], f"packet 6: {unseen}")
    for name, end_ in {"reset": talk.from_server(8, b"", RST), "reset with a lower number": talk.from_server(8, b"", RST | ACK, seen=12),
                       "end with a lower number": talk.from_server(8, b"", FIN | ACK, seen=12)}.items():
        packets = [*opening, talk.from_server(0, HELLO), said, thirteen, end_]
        yield refused(f"acknowledged bytes before the proxy's {name}", packets, f"packet 6: {unseen}")
    for flags in (RST, RST | ACK):
        yield refused(f"a gap before a reset of flags {flags}", [*opening, said, talk.from_client(13, b"", flags)], f"packet 5: {gap}")
    ended = talk.from_server(0, HELLO, FIN | ACK, seen=13)
    yield refused("acknowledged bytes, and the proxy's end", [*opening, said, ended], f"packet 5: {unseen}")


def unanswered_calls():
    """Controllers' answers to SYNs, and the proxy's to a switch, that aren't in the capture, or stand behind an end."""
    talk, alice = switch_talk(), alice_talk()
    called, unanswered = [*talk.opening(), alice.syn()], "packet 5: the answer to the SYN in packet 4 isn't in the capture"
    yield refused("a controller's answer to the SYN, and it acknowledges", [*called, alice.from_server(0), alice.from_client(0, HELLO)],
                  "packet 6: the answer to the SYN in packet 4 isn't in")
    yield refused("a controller's answer to the SYN", [*called, alice.from_client(0, HELLO)], unanswered)
    yield one("a controller's answer to the SYN, and it isn't taken up", [*called, alice.from_client(0)], record(SWITCH_UP, 2))
    ended = "packet 7: the connection of packet 4 has ended before"
    reset = alice.from_server(0, b"", RST | ACK)
    yield refused("a controller's reset before its answer", [*called, reset, alice.syn_ack(), alice.from_client(0, HELLO)], ended)
    early_end = [talk.syn(), talk.from_server(0, HELLO), talk.from_server(8, b"", FIN | ACK), talk.syn_ack(), talk.from_client(0, ECHO)]
    yield refused("the proxy's end before its answer to a switch", early_end, "packet 5: the connection of packet 1 has ended before")
    yield refused("a controller's answer, and it speaks", [*called, alice.from_server(0, ECHO)], unanswered)
