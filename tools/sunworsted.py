"""What the scripts of this folder share: how they read their words, and how recordings and messages are spelled."""
import pathlib
import struct
import sys

from flowvisor_tool.recordings import HEAD, MAGIC, Kind

ROOT = pathlib.Path(__file__).resolve().parent.parent
PROGRAM = ROOT / "crates/flowvisor/out/flowvisor"

# The kinds of a recording's records.
SWITCH_UP, SWITCH_BYTES, SWITCH_DOWN, SLICE_UP, SLICE_BYTES, SLICE_DOWN = Kind


def words_of(usage):
    """The words behind the script's name. --help prints how it is used; another option ends with status 2."""
    words = sys.argv[1:]
    if any(word.startswith("-") for word in words):
        is_help = words == ["--help"]
        print(usage, file=sys.stdout if is_help else sys.stderr)
        sys.exit(0 if is_help else 2)
    return words


def path_of(usage):
    """The path that is the one word of a script."""
    words = words_of(usage)
    if len(words) != 1:
        sys.exit(usage)
    return pathlib.Path(words[0])


def numbers_of(usage, *defaults):
    """The numbers that the words are, and the defaults of those that are left out."""
    words = words_of(usage)
    if len(words) > len(defaults) or not all(word.isdecimal() for word in words):
        sys.exit(usage)
    return *map(int, words), *defaults[len(words) :]


def record(kind, moment, data=b"", slot=0, switch=0):
    return HEAD.pack(kind, switch, slot, 0, len(data), moment) + data


def recording(*records):
    return MAGIC + b"".join(records)


def message(kind, xid, body):
    """An OpenFlow 1.0 message: version, kind, length, transaction id, body."""
    return struct.pack(">BBHI", 1, kind, 8 + len(body), xid) + body


def features_reply(xid, datapath, ports=(), buffers=256):
    """A FEATURES_REPLY: one table, no capabilities, the twelve actions, and ports of these numbers."""
    head = struct.pack(">QIB3xII", datapath, buffers, 1, 0, 0xFFF)
    return message(6, xid, head + b"".join(struct.pack(">H46x", port) for port in ports))


def packet_in(xid, in_port, packet, buffer=0xFFFFFFFF):
    """A PACKET_IN of a packet that isn't buffered where nothing else is said."""
    return message(10, xid, struct.pack(">IHHBx", buffer, len(packet), in_port, 0) + packet)


def tcp_packet(port, source=1024):
    """54 bytes: Ethernet, IPv4 from 10.0.0.1 to 10.0.0.2, and a TCP header to this port."""
    ethernet = bytes.fromhex("000000000002" "000000000001" "0800")
    ipv4 = bytes.fromhex("45000028" "00000000" "40060000" "0a000001" "0a000002")
    tcp = struct.pack(">HHIIHHHH", source, port, 0, 0, 0x5002, 0, 0, 0)
    return ethernet + ipv4 + tcp
