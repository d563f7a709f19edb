"""What a case of from-pcap is, and packets that many cases begin with."""
import struct
from dataclasses import dataclass

from made_captures import ECHO, HELLO, alice_talk, bob_talk, features_of, pcap, switch_talk, timed
from sunworsted import SLICE_BYTES, SLICE_DOWN, SLICE_UP, SWITCH_BYTES, SWITCH_UP, record, recording

from flowvisor_tool.segments import ACK, FIN

POLICY = """\
version = 1
[[slice]]
name = "alice"
controller = "10.0.0.5:6653"
[[slice]]
name = "bob"
controller = "10.0.0.6:6654"
"""
HOSTS = POLICY.replace("10.0.0.5", "alice.example")


SLICES = ["--slice", "0=10.0.0.5:6653", "--slice", "1=10.0.0.6:6654"]
OPTIONS = ["--switch-port", "6633", *SLICES]
SLICES_6 = ["--slice", "0=[fd00::5]:6653", "--slice", "1=[fd00::6]:6654"]


@dataclass
class Case:
    """A capture, and its recording, or the beginning of the line that tells why there is none."""

    name: str
    capture: bytes
    expected: bytes | str
    options: list = None
    policy: str = POLICY
    status: int = 1  # where there is no recording


def one(name, packets, *records):
    """The case of packets that make these records."""
    return Case(name, pcap(timed(packets)), recording(*records))


def refused(name, packets, text):
    """The case of packets that can't be read."""
    return Case(name, pcap(timed(packets)), text)


def small_run():
    """A switch that tells its features, and two controllers of which one leaves: packets and records."""
    return run_of(switch_talk(), alice_talk(), bob_talk())


def small_run_6():
    """The same over IPv6."""
    return run_of(switch_talk("[fd00::9]:40000", "[fd00::1]:6633"), alice_talk("[fd00::1]:50000", "[fd00::5]:6653"),
                  bob_talk("[fd00::1]:50001", "[fd00::6]:6654"))


def run_of(switch, alice, bob):
    features = features_of(0xA1)  # 32 bytes
    packets = [
        *switch.opening(), switch.from_server(0, HELLO), switch.from_client(0, HELLO + features, seen=8),
        *alice.opening(), alice.from_client(0, HELLO), alice.from_server(0, HELLO, seen=8), alice.from_client(8, seen=8),
        *bob.opening(HELLO), bob.from_server(0, HELLO), bob.from_server(8, ECHO),
        alice.from_server(8, b"", FIN | ACK, seen=8), alice.from_client(8, b"", FIN | ACK, seen=9),
        switch.from_client(40, ECHO, seen=8),
    ]
    records = [
        record(SWITCH_UP, 2), record(SWITCH_BYTES, 4, HELLO + features),
        record(SLICE_UP, 7), record(SLICE_BYTES, 9, HELLO),
        record(SLICE_UP, 13, slot=1), record(SLICE_BYTES, 14, HELLO, 1), record(SLICE_BYTES, 15, ECHO, 1),
        record(SLICE_DOWN, 16), record(SWITCH_BYTES, 18, ECHO),
    ]
    return packets, recording(*records)


def slowed(spelled, factor):
    """The recording with its timestamps multiplied."""
    records = records_of(spelled)
    return recording(*(record(kind, moment * factor, data, slot, switch) for kind, moment, data, slot, switch in records))


class Run:
    """Packets one by one, and the records that they make, each with the timestamp of its packet."""

    def __init__(self):
        self.packets, self.records = [], []

    def pass_(self, *packets):
        self.packets += packets

    def note(self, kind, data=b"", slot=0, switch=0):
        """The last packet makes this record."""
        self.records.append(record(kind, len(self.packets) - 1, data, slot, switch))

    def make(self, packet, kind, data=b"", slot=0, switch=0):
        self.pass_(packet)
        self.note(kind, data, slot, switch)

    def switch(self, talk, number, datapath=None):
        """A switch connects, and tells its datapath id."""
        self.pass_(*talk.opening())
        self.note(SWITCH_UP, switch=number)
        if datapath is not None:
            features = features_of(datapath)
            self.make(talk.from_client(0, features), SWITCH_BYTES, features, switch=number)

    def controller(self, talk, slot, switch, datapath=None):
        """A controller is connected and greeted, and sent the switch's datapath id."""
        self.pass_(*talk.opening(HELLO))
        self.note(SLICE_UP, slot=slot, switch=switch)
        if datapath is not None:
            self.pass_(talk.from_client(8, features_of(datapath)))

    def case(self, name, *options, expected=None):
        """The case of all of it, or of a beginning of a line where it is refused."""
        return Case(name, pcap(timed(self.packets)), expected or recording(*self.records), [*OPTIONS, *options])


def records_of(spelled):
    """The records of a recording that is whole, each as its kind, timestamp, bytes, slot and switch."""
    assert spelled[:8] == b"FVREC\0\0\1"
    at = 8
    while at < len(spelled):
        kind, switch, slot, zero, length, moment = struct.unpack(">BBBBIQ", spelled[at : at + 16])
        data = spelled[at + 16 : at + 16 + length]
        assert zero == 0 and len(data) == length <= 16_777_216
        yield kind, moment, data, slot, switch
        at += 16 + length
