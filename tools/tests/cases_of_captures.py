"""Cases of from-pcap: forms of captures and of packets, and what is cut off or damaged."""
import struct

from cases_of_connections import GREETED, greeted_switch
from from_pcap_cases import Case, SLICES, SLICES_6, one, refused, slowed, small_run, small_run_6
from made_captures import (
    ECHO, HELLO, MAGICS, START, Talk, alice_talk, block, cooked, cooked_2, enhanced, ethernet, features_of,
    interface, ipv4, loopback, obsolete, option, pcap, pcap_head, pcap_packet, pcapng, section, simple, switch_talk,
    timed,
)
from sunworsted import SLICE_BYTES, SLICE_DOWN, SLICE_UP, SWITCH_BYTES, SWITCH_DOWN, SWITCH_UP, record, recording

from flowvisor_tool.segments import ACK, FIN, RST, SYN


def formats():
    """The same packets in each form of file."""
    packets, expected = small_run()
    for (order, rate) in MAGICS:
        yield Case(f"pcap {order} {rate}", pcap(timed(packets), order=order, rate=rate), expected)
    for order in "<>":
        yield Case(f"pcapng {order}", pcapng(timed(packets), order), expected)
        nanoseconds = option(order, 9, bytes([9]))
        yield Case(f"pcapng {order}, nanoseconds", pcapng(timed(packets), order, 10**9, nanoseconds), expected)
        halves = option(order, 9, bytes([0x80 | 20])) + option(order, 0, b"")
        slow = [(1000 * moment, packet) for moment, packet in timed(packets)]
        yield Case(f"pcapng {order}, halved seconds", pcapng(slow, order, 2**20, halves), slowed(expected, 1000))
        offset = option(order, 2, b"eth0") + option(order, 14, struct.pack(order + "q", START)) + option(order, 9, bytes([6]))
        yield Case(f"pcapng {order}, offset", pcapng(timed(packets), order, options=offset, start=0), expected)
        old = b"".join(obsolete(moment, ethernet(packet), order) for moment, packet in timed(packets))
        yield Case(f"pcapng {order}, obsolete blocks", section(order) + interface(order) + old, expected)
        bare = b"".join(simple(ethernet(packet), order) for packet in packets)
        yield Case(f"pcapng {order}, simple blocks", section(order) + interface(order) + bare, slowed(expected, 0))
    yield from mixed_formats(packets, expected)


def mixed_formats(packets, expected):
    """Captures of several sections, interfaces and kinds of blocks."""
    middle = len(packets) // 2
    two = pcapng(timed(packets)[:middle], "<") + pcapng(timed(packets)[middle:], ">")
    yield Case("pcapng, two sections of two byte orders", two, expected)
    others = [block("<", kind, b"12345678") for kind in (4, 5, 9, 10, 0xBAD, 0x40000BAD)] + [block("<", 0x80000001, b"")]
    blocks = [enhanced(moment, ethernet(packet)) for moment, packet in timed(packets)]
    between = section() + others[0] + interface() + b"".join(a + b for a, b in zip(blocks, others * 4))
    yield Case("pcapng, other blocks", between, expected)
    links = section() + interface() + interface(link=101) + interface(link=113) + interface(link=105)
    wraps = [ethernet, lambda packet: packet, cooked]
    turns = [enhanced(moment, wraps[moment % 3](packet), place=moment % 3) for moment, packet in timed(packets)]
    yield Case("pcapng, three interfaces, and an unused one of another kind", links + b"".join(turns), expected)
    first = enhanced(0, ethernet(packets[0])) + b"".join(simple(ethernet(packet)) for packet in packets[1:5])
    rest = b"".join(enhanced(moment, ethernet(packet)) for moment, packet in timed(packets)[5:])
    begun = recording(record(SWITCH_UP, 0), record(SWITCH_BYTES, 0, HELLO + features_of(0xA1)))
    yield Case("pcapng, packets without a time", section() + interface() + first + rest, begun + expected[len(begun) :])
    yield from times(packets)
    limited = [simple(ethernet(packet, padding=bytes(300))[:200], full=300 + len(ethernet(packet))) for packet in packets]
    yield Case("pcapng, simple blocks and a limit", section() + interface(limit=200) + b"".join(limited), slowed(expected, 0))


def times(packets):
    """Interfaces with clocks of their own, and timestamps at the limits."""
    order = "<"
    speed = option(order, 8, struct.pack("<q", 1000)) + option(order, 2, b"eth00") + option(order, 10, b"\x20")
    late = speed + option(order, 14, struct.pack("<q", -1000)) + option(order, 9, b"\x09") + option(order, 0, b"")
    behind = option(order, 0, b"") + option(order, 9, b"\x01") + option(order, 14, struct.pack("<q", 1000))
    clocks = section() + interface(options=late) + interface(options=behind)
    talk = switch_talk()
    said = ethernet(talk.from_client(0, ECHO))
    turns = [
        enhanced(0, ethernet(talk.syn()), rate=10**9, start=START + 1000), enhanced(1, ethernet(talk.syn_ack()), place=1),
        enhanced(2, ethernet(talk.from_client(0)), rate=10**9, start=START + 1000), enhanced(4, said, place=1),
    ]
    expected = recording(record(SWITCH_UP, 2), record(SWITCH_BYTES, 4, ECHO))
    yield Case("pcapng, offsets and other options", clocks + b"".join(turns), expected)
    first = block(order, 6, struct.pack("<IIIII", 0, 4, 2**32 - 3000, 54, 54) + ethernet(talk.syn()) + b"  ")
    last = block(order, 6, struct.pack("<IIIII", 0, 5, 2000, 66, 66) + said + b"  ")
    yield Case("pcapng, where the upper half of the time changes", section() + interface() + first + last,
               recording(record(SWITCH_UP, 5), record(SWITCH_BYTES, 5, ECHO)))
    raw = section() + interface(link=101) + block(order, 6, bytes(20)) + simple(b"")
    whole = b"".join(block(order, 6, struct.pack("<IIIII", 0, 0, 0, len(packet), len(packet)) + packet) for packet in packets)
    yield Case("pcapng, empty packets, and packets that end with their block", raw + whole, slowed(small_run()[1], 0))
    seconds = section() + interface(options=option(order, 9, b"\0"))
    for last_second, is_told in ((2**64 // 1000, True), (2**64 // 1000 + 1, False)):
        moments = [enhanced(0, ethernet(talk.syn()), start=0)]
        head = struct.pack("<IIIII", 0, last_second >> 32, last_second & 0xFFFFFFFF, 54, 54)
        moments.append(block(order, 6, head + ethernet(talk.from_client(0)) + b"  "))
        too_far = "packet 2: its time is too far from the first packet's"
        expected = recording(record(SWITCH_UP, 1000 * last_second)) if is_told else too_far
        yield Case(f"a timestamp of {1000 * last_second}", seconds + b"".join(moments), expected)


def links():
    """The same packets on each kind of link, of both versions of IP."""
    for version, (packets, expected) in ((4, small_run()), (6, small_run_6())):
        options = ["--switch-port", "6633", *(SLICES if version == 4 else SLICES_6)]
        wraps = {
            "ethernet": (1, ethernet),
            "ethernet with padding": (1, lambda packet: ethernet(packet, padding=b"\xff" * 7)),
            "802.1Q": (1, lambda packet: ethernet(packet, [0x8100])),
            "802.1ad": (1, lambda packet: ethernet(packet, [0x88A8, 0x8100])),
            "cooked": (113, cooked),
            "cooked with a tag": (113, lambda packet: cooked(packet, 0x8100)),
            "cooked 2": (276, cooked_2),
            "cooked 2 with a tag": (276, lambda packet: cooked_2(packet, 0x8100)),
            "null": (0, loopback("<")),
            "null of Linux": (0, loopback("<", 10)),
            "null of NetBSD": (0, loopback("<", 24)),
            "null of FreeBSD": (0, loopback("<", 28)),
            "loop": (108, loopback(">", 24)),
            "raw": (101, lambda packet: packet),
            "raw of one version": (228 if version == 4 else 229, lambda packet: packet),
        }
        for name, (link, wrap) in wraps.items():
            yield Case(f"IPv{version}, {name}", pcap(timed(packets), wrap, link=link), expected, options)
        if version == 6:
            yield Case("IPv6, null, big endian", pcap(timed(packets), loopback(">"), ">", link=0), expected, options)
        else:
            with_check_sums = pcap(timed(packets), lambda packet: ethernet(packet, padding=b"FCS!"), link=0x24000001)
            yield Case("ethernet with check sums", with_check_sums, expected)


def internet():
    """What may stand in IP, and what is passed over."""
    switch = switch_talk()
    expected = recording(record(SWITCH_UP, 2), record(SWITCH_BYTES, 3, ECHO))
    for name, parts in {
        "IPv4 options": {"options": bytes(8)},
        "IPv4, cut by the network card": {"length": 0},
        "IPv4, not to be fragmented": {"fragment": 0x4000},
    }.items():
        yield Case(name, pcap(timed([*switch.opening(), switch.from_client(0, ECHO, **parts)])), expected)
    switch = switch_talk("[fd00::9]:40000", "[fd00::1]:6633")
    for name, parts in {
        "IPv6, hop by hop": {"headers": [(0, bytes(7))]},
        "IPv6, routing": {"headers": [(43, b"\1" + bytes(14))]},
        "IPv6, destination": {"headers": [(60, b"\2" + bytes(22))]},
        "IPv6, three headers": {"headers": [(0, bytes(7)), (43, bytes(7)), (60, b"\1" + bytes(14))]},
        "IPv6, authentication": {"headers": [(51, b"\4" + bytes(22))]},
        "IPv6, a fragment that is whole": {"headers": [(44, bytes(7))]},
        "IPv6, cut by the network card": {"length": 0},
    }.items():
        yield Case(name, pcap(timed([*switch.opening(), switch.from_client(0, ECHO, **parts)])), expected)
    talk, long = switch_talk(), bytes(range(216))
    packets = timed([*talk.opening(), talk.from_client(0, long)])
    yield Case("IPv4, 256 bytes, and padding", pcap(packets, lambda packet: ethernet(packet, padding=b"padding")),
               recording(record(SWITCH_UP, 2), record(SWITCH_BYTES, 3, long)))
    yield from passed_over()


def passed_over():
    """Packets that aren't those of the connections."""
    switch = switch_talk()
    web = Talk("10.0.0.9:50000", "10.0.0.1:80")
    client = Talk("10.0.0.9:6633", "10.0.0.1:80")
    ends, segment = switch.segment(True, 0, HELLO)
    six, before = switch_talk("[fd00::9]:40000", "[fd00::1]:6633"), switch_talk("10.0.0.8:4")
    others = {
        "other TCP": [*web.opening(), web.from_client(0, b"GET")],
        "other TCP from before": [web.from_client(100, b"GET")],
        "a client at the switches' port": [*client.opening(), client.from_client(0, b"GET"), client.from_server(0, b"200")],
        "UDP": [ipv4(ends, segment, protocol=17), six.from_client(0, HELLO, protocol=17)],
        "a fragment of UDP": [ipv4(ends, segment, protocol=17, fragment=0x2000)],
        "later fragments": [ipv4(ends, segment, fragment=9), six.from_client(0, HELLO, headers=[(44, b"\0\1\x08\0\0\0\7")])],
        "no room for ports": [ipv4(ends, segment, length=23)],
        "a fragment of other TCP": [ipv4(web.segment(True, 0)[0], web.segment(True, 0, b"GET")[1], fragment=0x2000)],
        "neither IPv4 nor IPv6": [b"\x50" + bytes(40)],
        "a short IPv4 header": [b"\x44" + switch.from_client(0)[1:]],
        "a short packet": [b"\x45\0\0"],
        "remains of a connection": [before.from_client(5, b"", flags) for flags in (FIN | ACK, ACK, RST, RST | ACK)],
        "a reset with bytes": [before.from_client(5, b"reset", RST)],
        "nothing": [],
    }
    for name, packets in others.items():
        count = len(packets)
        yield Case(f"passed over: {name}", pcap(timed([*packets, *switch.opening(), switch.from_client(0, ECHO)])),
                   recording(record(SWITCH_UP, count + 2), record(SWITCH_BYTES, count + 3, ECHO)))
    arp, short = pcap_packet(7, bytes(12) + b"\x08\x06" + bytes(28)), pcap_packet(9, bytes(5))
    whole = pcap(timed([*switch.opening(), switch.from_client(0, ECHO)]))
    yield Case("passed over: ARP, and a frame of five bytes", whole + arp + short,
               recording(record(SWITCH_UP, 2), record(SWITCH_BYTES, 3, ECHO)))


def damaged_files():
    """Files that aren't captures as they should be."""
    packets, _expected = small_run()
    whole, blocks = pcap(timed(packets[:6])), pcapng(timed(packets[:6]))
    yield Case("an empty file", b"", "the capture is neither pcap nor pcapng")
    yield Case("no magic", b"\x1f\x8b" + whole[2:], "the capture is neither pcap nor pcapng")
    yield Case("another version of pcap", pcap_head(version=(2, 3)) + whole[24:], "the capture is of pcap's version 2.3")
    yield Case("another version of pcapng", section(version=(2, 0)) + blocks[28:], "packet 1: the section is of pcapng's version 2.0")
    yield Case("a file cut in its head", whole[:23], "packet 1: the capture is cut off")
    yield Case("a file cut in a packet's head", pcap(timed(packets[:2])) + bytes(5), "packet 3: the capture is cut off")
    yield Case("a file cut in a packet", whole[:-1], "packet 6: the capture is cut off")
    yield Case("a file cut in a section's head", blocks[:9], "packet 1: the capture is cut off")
    yield Case("a file cut in a block's type", pcapng(timed(packets[:3])) + b"\6", "packet 4: the capture is cut off")
    yield Case("a file cut in a block", blocks[:-1], "packet 6: the capture is cut off")
    yield Case("a packet's size out of range", whole[: 24 + 8] + b"\xff" * 4 + whole[24 + 12 :], "packet 1: the capture is damaged")


def damaged_blocks():
    """Blocks of pcapng that aren't as they should be."""
    packets, _expected = small_run()
    blocks = pcapng(timed(packets[:6]))
    first = len(section() + interface())
    damaged = "packet 1: the capture is damaged here"
    yield Case("two lengths that differ", blocks[:-4] + b"\x40\0\0\0", "packet 6: the capture is damaged")
    for length in (11, 8, 0):
        wrong = blocks[: first + 4] + struct.pack("<I", length) + blocks[first + 8 :]
        yield Case(f"a block's length of {length}", wrong, f"{damaged}: a block's length is wrong")
    wrong = blocks[: first + 4] + struct.pack("<I", 0xFFFFFFFC) + blocks[first + 8 :]
    yield Case("a block's length out of range", wrong, f"{damaged}: a length is out of range")
    odd = b"\x99\0\0\0" + b"\x11\0\0\0" + b"12345" + b"\x11\0\0\0"
    yield Case("a block's odd length", blocks + odd, "packet 7: the capture is damaged here: a block's length is wrong")
    yield Case("a section without byte order", blocks[:8] + bytes(4) + blocks[12:], f"{damaged}: a section has no byte order")
    for size in (0, 4, 8, 12):
        head = block("<", 0x0A0D0D0A, struct.pack("<IHHq", 0x1A2B3C4D, 1, 0, -1)[:size])
        text = "a section has no byte order" if size == 0 else "a section's header is too short"
        yield Case(f"a section's header of {size} bytes", head + bytes(8), f"{damaged}: {text}")
    for kind, size in ((1, 4), (2, 16), (3, 0), (6, 16)):
        short = section() + interface() + block("<", kind, bytes(size))
        yield Case(f"a block of kind {kind} that is too short", short, damaged)
    long = struct.pack("<IIIII", 0, 0, 0, 9, 9) + bytes(8)
    yield Case("a packet longer than its block", section() + interface() + block("<", 6, long), damaged)
    yield Case("a simple packet longer than its block", section() + interface() + simple(bytes(8), full=9), damaged)
    beyond = pcapng(timed(packets[:2])) + enhanced(2, ethernet(packets[2]), place=1)
    yield Case("an interface that isn't described", beyond, "packet 3: the capture doesn't tell what its interface 1 is")
    before = blocks + section() + enhanced(2, ethernet(packets[2]))
    yield Case("an interface of the section before", before, "packet 7: the capture doesn't tell what its interface 0 is")
    other = section() + interface() + interface(link=105) + enhanced(0, ethernet(packets[0])) + enhanced(1, bytes(60), place=1)
    yield Case("another kind of link", other, "packet 2: links of kind 105 can't be read")


def cut_packets():
    """Packets that the capture has cut off: the fourth one, of each length that is kept."""
    talk = switch_talk()
    said = ethernet(talk.from_client(0, ECHO))
    before = pcap(timed(talk.opening()))
    for kept in range(len(said)):
        if kept < 14 + 20 + 4:
            text = "the capture has cut it off before it is clear whose it is"
        else:
            text = "its TCP header is cut off" if kept < 14 + 20 + 20 else "the capture has cut off its bytes"
        yield Case(f"{kept} bytes are kept", before + pcap_packet(3, said[:kept], full=len(said)), f"packet 4: {text}")
    head = 40 + 8 + 16 + 20
    headers = [(0, bytes(7)), (43, b"\1" + bytes(14))]
    talk = switch_talk("[fd00::9]:40000", "[fd00::1]:6633")
    said = talk.from_client(0, ECHO, headers=headers)
    before = pcap(timed(talk.opening()), lambda packet: packet, link=101)
    for kept in range(len(said)):
        text = "the capture has cut it off before it is clear whose it is"
        if kept >= head - 16:
            text = "its TCP header is cut off" if kept < head else "the capture has cut off its bytes"
        yield Case(f"IPv6, {kept} bytes are kept", before + pcap_packet(3, said[:kept], full=len(said)), f"packet 4: {text}")
    packets, expected = small_run()
    cut = b"".join(pcap_packet(moment, ethernet(packet)[:54], full=len(ethernet(packet))) if moment in (3, 8) else
                   pcap_packet(moment, ethernet(packet)) for moment, packet in timed(packets))
    yield Case("the proxy's bytes are cut", pcap_head() + cut, expected)


CUT_OFF = "packet {}: the capture has cut off its bytes"


def cut_by_a_byte(name, before, cut, behind, told):
    """The case of packets between which one is cut off by a byte: its records, or why there are none."""
    capture = pcap_head() + b"".join(
        pcap_packet(moment, ethernet(packet)[:-1] if packet is cut else ethernet(packet), full=len(ethernet(packet)))
        for moment, packet in timed([*before, cut, *behind]))
    return Case(f"cut: {name}", capture, recording(*told) if isinstance(told, list) else told)


def cut_at_ends():
    """Cut bytes of a switch, of which nothing would be recorded, or not at their time, and the proxy's end. Rows of `cut_by_a_byte`."""
    talk, up = switch_talk(), greeted_switch()

    def ended_at(seen):
        return talk.from_server(8, b"", FIN | ACK, seen)

    yield "behind the proxy's end", [*up, ended_at(8)], talk.from_client(8, ECHO), [
        talk.from_client(20, ECHO), talk.from_client(32, b"", FIN | ACK)], [*GREETED, record(SWITCH_DOWN, 5)]
    yield "behind what the proxy's end counts", [*up, ended_at(20)], talk.from_client(20, ECHO), [talk.from_client(8, ECHO)], [
        *GREETED, record(SWITCH_BYTES, 7, ECHO), record(SWITCH_DOWN, 7)]
    yield "in part behind what the proxy's end counts", [*up, ended_at(19)], talk.from_client(8, ECHO), [], [
        *GREETED, record(SWITCH_BYTES, 6, ECHO[:11]), record(SWITCH_DOWN, 6)]
    yield "the last byte that the proxy's end counts", [*up, ended_at(20)], talk.from_client(8, ECHO), [], CUT_OFF.format(7)
    yield "before the proxy's end", up, talk.from_client(8, ECHO), [ended_at(8)], CUT_OFF.format(6)


def cut_beside_ends():
    """The same of a switch's bytes without an end, of a connection that isn't taken up, and of a controller's bytes."""
    talk, alice, turned, up = switch_talk(), alice_talk(), switch_talk("10.0.0.77:6"), greeted_switch()
    slice_up = [*up, *alice.opening(HELLO), alice.from_server(0, HELLO, seen=8)]
    slice_records = [*GREETED, record(SLICE_UP, 7), record(SLICE_BYTES, 8, HELLO)]
    yield "a repeat", up, talk.from_client(0, HELLO), [talk.from_client(8, ECHO)], [*GREETED, record(SWITCH_BYTES, 6, ECHO)]
    yield "new bytes", [*up, talk.from_client(20, ECHO)], talk.from_client(8, ECHO), [], CUT_OFF.format(7)
    yield "not taken up", [*up, *turned.opening()], turned.from_client(0, ECHO), [
        turned.from_client(12), turned.from_server(0, b"", FIN | ACK)], GREETED
    yield "a controller's", slice_up, alice.from_server(8, ECHO), [], CUT_OFF.format(10)
    yield "a controller's, behind its switch's end", [*slice_up, talk.from_client(8, b"", FIN | ACK)], alice.from_server(8, ECHO), [
        alice.from_server(20, ECHO, FIN | ACK)], [*slice_records, record(SWITCH_DOWN, 9)]
    yield "a controller's behind its own end", [*slice_up, alice.from_client(8, b"", FIN | ACK, seen=8)], alice.from_server(8, ECHO), [], [
        *slice_records, record(SLICE_DOWN, 9)]


def cut_in_syns():
    """The same of bytes that stand in a SYN."""
    talk, other = switch_talk(), switch_talk("10.0.0.10:1")
    syn = talk.syn(ECHO)
    yield "in the SYN", other.opening(), syn, [], CUT_OFF.format(4)
    yield "in the SYN again", [talk.syn(ECHO), talk.syn_ack(), talk.from_client(0, ECHO)], syn, [], [
        record(SWITCH_UP, 2), record(SWITCH_BYTES, 2, ECHO)]
    yield "in the SYN again, of which one is new", [*talk.opening(), talk.from_client(0, ECHO[:11])], syn, [], CUT_OFF.format(5)


def cut_blocks():
    """The fourth packet is cut off in blocks of pcapng, where padding and options stand behind what is kept."""
    talk = switch_talk()
    said = ethernet(talk.from_client(0, ECHO))
    opening = pcapng(timed(talk.opening()))
    bare = section() + interface() + b"".join(simple(ethernet(packet)) for packet in talk.opening())
    for kept in range(len(said) - 12, len(said)):
        blocks = {
            "an enhanced": opening + enhanced(3, said[:kept], full=len(said)),
            "an obsolete": opening + obsolete(3, said[:kept], full=len(said)),
            "a simple": bare.replace(interface(), interface(limit=kept)) + simple(said[:kept], full=len(said)),
        }
        for name, capture in blocks.items():
            yield Case(f"{kept} bytes are kept in {name} block", capture, "packet 4: the capture has cut off its bytes")


def fragments():
    """IP fragments of connections, perhaps of them, and of none; and what isn't recorded between their hosts."""
    talk = switch_talk()
    opening, (ends_, segment) = talk.opening(), talk.segment(True, 0, ECHO)
    certain, perhaps = "packet 4: it is an IP fragment", "packet 4: it is an IP fragment, perhaps of the connection of packet 1"
    yield refused("a fragment", [*opening, ipv4(ends_, segment, fragment=0x2000)], certain)
    yield refused("a later fragment", [*opening, ipv4(ends_, ECHO, fragment=3)], perhaps)
    yield one("a later fragment of UDP", [*opening, ipv4(ends_, ECHO, protocol=17, fragment=3)], record(SWITCH_UP, 2))
    six, head = switch_talk("[fd00::9]:40000", "[fd00::1]:6633"), b"\0\1\x08\0\0\0\7"
    yield refused("a fragment of IPv6", [*six.opening(), six.from_client(0, ECHO, headers=[(44, b"\0\0\1\0\0\0\7")])], certain)
    yield refused("a later fragment of IPv6", [*six.opening(), six.from_server(0, ECHO, headers=[(44, head)])], perhaps)
    others = [six.from_server(0, ECHO, headers=[(44, head)], protocol=17), ipv4(ends_, ECHO, fragment=3)]
    yield one("later fragments of UDP, and between other hosts", [*six.opening(), *others], record(SWITCH_UP, 2))
    web = Talk("10.0.0.9:6633", "10.0.0.1:80")
    yield one("a later fragment of what isn't recorded", [web.syn(), web.from_client(0, ECHO, fragment=3), *opening], record(SWITCH_UP, 4))
    yield one("other TCP between the same hosts", [*opening, Talk("10.0.0.9:5", "10.0.0.1:80").from_client(0, ECHO)], record(SWITCH_UP, 2))
    yield one("a client at the switches' port, and the other side calls", [web.syn(), web.from_server(-1, b"", SYN), *opening], record(SWITCH_UP, 4))


def unfit_headers():
    """Headers that tell of more or less than the packet has."""
    talk, six = switch_talk(), switch_talk("[fd00::9]:40000", "[fd00::1]:6633")
    opening, (ends_, segment) = talk.opening(), talk.segment(True, 0, ECHO)
    yield refused("no room for a TCP header", [*opening, ipv4(ends_, segment, length=24)], "packet 4: its TCP header is cut off")
    long = "packet 4: its IP header tells of more bytes than the packet has"
    yield refused("an IPv4 length beyond the packet's end", [*opening, ipv4(ends_, segment, length=len(segment) + 21)], long)
    yield refused("an IPv6 length beyond the packet's end", [*six.opening(), six.from_client(0, ECHO, length=len(segment) + 1)], long)
    said = ethernet(ipv4(ends_, segment))
    yield Case("a packet that tells a size of 0", pcap(timed(opening)) + pcap_packet(3, said, full=0),
               recording(record(SWITCH_UP, 2), record(SWITCH_BYTES, 3, ECHO)))
    for words in (4, 15):
        wrong = bytearray(segment)
        wrong[12] = words << 4
        text = "packet 4: its TCP header has a wrong length"
        yield refused(f"a TCP header of {words} words", [*opening, ipv4(ends_, bytes(wrong))], text)


def large():
    """So many bytes become contiguous at once that they fill more than one record."""
    talk = switch_talk()
    size, most = 60_000, 16_777_216
    data = bytes(range(251)) * (280 * size // 251 + 1)
    starts = range(0, 280 * size, size)
    parts = [talk.from_client(start, data[start : start + size]) for start in starts]
    packets = [*talk.opening(), *parts[1:], parts[0]]
    moment, end_ = len(packets) - 1, 280 * size
    yield Case("more bytes than a record takes", pcap(timed(packets)), recording(
        record(SWITCH_UP, 2), record(SWITCH_BYTES, moment, data[:most]), record(SWITCH_BYTES, moment, data[most:end_])))
