"""Makes a capture of a report or a recording: a TCP connection for each switch and each controller."""
import ipaddress
import itertools

from .capture_writer import Capture, MadeConnection, Side, end_of
from .faults import Fault
from .files import is_recording, opened_recording, replaced, say
from .openflow.protocol import HEADER, Header, MessageType
from .recordings import Kind, events_of, records_of
from .reports import What, lines_of

NAME = "to-pcap"
SUMMARY = "make a capture of a report or a recording, for Wireshark and tshark"
EPILOG = """\
Of a report the capture has what the proxy sends, and the time of a message is the number of its event in
milliseconds; with --recording it has what the switches and controllers send too, and the timestamps of the recording.
Of a recording alone it has what these send. A line is printed for each connection. Addresses are made up.
"""

OPENFLOW_PORT = 6653
FIRST_PORT, PORTS = 40_000, 20_000
PROXY = "10.0.0.1"
FIRST_SWITCH = ipaddress.IPv4Address("10.0.1.1")
FIRST_CONTROLLER = ipaddress.IPv4Address("10.0.2.1")


def add_arguments(parser):
    parser.epilog = EPILOG
    parser.add_argument("file", metavar="REPORT|RECORDING", help="what `flowvisor replay` printed, or what it reads")
    parser.add_argument("--recording", metavar="RECORDING", help="the recording of which the report is")
    parser.add_argument("capture", metavar="CAPTURE", help="the capture to be written")


def run(arguments):
    sources = [path for path in (arguments.file, arguments.recording) if path]
    with open(arguments.file, "rb") as file:
        is_alone = is_recording(file, arguments.file)
        if is_alone and arguments.recording:
            arguments.usage_error(f"--recording: {arguments.file} is a recording itself")
        with replaced(arguments.capture, *sources) as capture:
            network = Network(Capture(capture))
            play(network, file, arguments, is_alone)
            say([*network.lines, f"{network.capture.count} packets"])
    return 0


def play(network, file, arguments, is_alone):
    """Plays what the arguments name."""
    try:
        if is_alone:
            for event in events_of(records_of(file, arguments.file)):
                hear(network, event)
        elif arguments.recording:
            with opened_recording(arguments.recording) as recording:
                events = events_of(records_of(recording, arguments.recording))
                play_both(network, events, lines_of(file, arguments.file))
        else:
            play_report(network, lines_of(file, arguments.file))
    except Unfit as problem:
        raise Fault(f"isn't the report of the recording{problem}", arguments.file) from None
    except TooLate as problem:
        raise Fault(f"{problem}ms is later than a capture can hold", arguments.recording or arguments.file) from None


class Unfit(Exception):
    """A report that isn't the recording's. The text says why."""


class TooLate(Exception):
    """A timestamp that a capture can't have."""


class Network:
    """The connections of a proxy with its switches and controllers, as they are written to a capture.

    A connection is named by its switch and its slot, which is None for that of the switch itself. Switches call the
    proxy, and the proxy calls controllers.
    """

    def __init__(self, capture):
        self.capture = capture
        self.connections = {}
        self.ports = itertools.cycle(range(FIRST_PORT, FIRST_PORT + PORTS))
        self.lines = []

    def open(self, moment, switch, slot=None, name=None):
        """A connection begins. A line tells of it, with the slice's name where it is known."""
        port = next(self.ports)
        if slot is None:
            client, server = end_of(FIRST_SWITCH + switch, port), end_of(PROXY, OPENFLOW_PORT)
        else:
            client, server = end_of(PROXY, port), end_of(FIRST_CONTROLLER + slot, OPENFLOW_PORT)
        connection = self.connections[switch, slot] = MadeConnection(self.capture, checked(moment), client, server)
        who = f"switch {switch}" if slot is None else f"switch {switch}, slot {slot}" + (f" ({name})" if name else "")
        ends = f"{client[0]}:{client[1]} to {server[0]}:{server[1]}"
        self.lines.append(f"packet {connection.packet}: {who}: {ends}")

    def is_open(self, switch, slot=None):
        return (switch, slot) in self.connections

    def send_to_proxy(self, moment, message, switch, slot=None):
        self.connection(switch, slot).send(checked(moment), peer_of(slot), message)

    def send_from_proxy(self, moment, message, switch, slot=None):
        self.connection(switch, slot).send(checked(moment), peer_of(slot).other(), message)

    def connection(self, switch, slot):
        """The connection of this name, which must be open."""
        if not self.is_open(switch, slot):
            raise Unfit(": it has messages where no connection is open")
        return self.connections[switch, slot]

    def end(self, moment, switch, slot=None, is_by_proxy=False):
        """A connection ends, where it is open; and with a switch's those of its slices, by the proxy."""
        if not self.is_open(switch, slot):
            return
        side = peer_of(slot).other() if is_by_proxy else peer_of(slot)
        self.connections.pop((switch, slot)).end(checked(moment), side)
        if slot is None:
            for other, other_slot in list(self.connections):
                if other == switch:
                    self.end(moment, other, other_slot, is_by_proxy=True)


def peer_of(slot):
    """The side of a connection that isn't the proxy's."""
    return Side.CLIENT if slot is None else Side.SERVER


def checked(moment):
    """A timestamp that a capture can have."""
    if moment > Capture.LATEST:
        raise TooLate(moment)
    return moment


# A recording.


def hear(network, event, name=None):
    """What a switch or a controller does at an event; a connection that it begins is of the slice of this name."""
    record = event.record
    slot = None if record.kind.is_of_switch() else record.slot
    if event.message is not None:
        network.send_to_proxy(record.moment, event.message, record.switch, slot)
    elif record.kind in (Kind.SWITCH_UP, Kind.SLICE_UP):
        network.open(record.moment, record.switch, slot, name)
    else:
        network.end(record.moment, record.switch, slot)


# A report.


def play_report(network, lines):
    """Plays a report alone. Slices get slots in the order in which it names them, and an event's number is its timestamp."""
    slots = {}
    for line in lines:
        if line.what is not What.END:
            slot = None if line.slice_name is None else slots.setdefault(line.slice_name, len(slots))
            begin(network, line, slot)
            answer(network, line, line.event, slot)


def begin(network, line, slot):
    """Opens the connection of a line where it isn't open. A slice is greeted once: the next HELLO is of another connection."""
    if slot is not None and is_hello(line.message):
        network.end(line.event, line.switch, slot)
    for place in () if line.what is What.DOWN else (None, slot):
        if not network.is_open(line.switch, place):
            network.open(line.event, line.switch, place, line.slice_name)


def is_hello(message):
    return len(message) >= HEADER.size and Header.of(message).type == MessageType.HELLO


def answer(network, line, moment, slot):
    """What the proxy does as a line tells."""
    if line.what is What.MESSAGE:
        network.send_from_proxy(moment, line.message, line.switch, slot)
    else:
        network.end(moment, line.switch, slot, is_by_proxy=True)


# Both.


def play_both(network, events, lines):
    """Plays the events of a recording, each with the lines that its report has for it."""
    groups = itertools.groupby(lines, key=lambda line: (line.event, line.what is What.END))
    group, answers = next(groups)
    count, slots = 0, {}
    for event in events:
        own = list(answers) if group == (event.number, False) else []
        names = [line.slice_name for line in own if line.slice_name is not None]
        if event.record.kind is Kind.SLICE_UP and names:
            slots[names[0]] = event.record.slot
        hear(network, event, names[0] if names else None)
        for line in own:
            answer(network, line, event.record.moment, slot_of(line, slots))
        if own:
            group, answers = next(groups)
        count += 1
    if group != (count, True):
        raise Unfit(f", which has {count} events")


def slot_of(line, slots):
    """The slot of a line, as the slices' connections have given it before."""
    if line.slice_name is None:
        return None
    if line.slice_name not in slots:
        raise Unfit(f": at event {line.event} {line.slice_name} isn't connected")
    return slots[line.slice_name]
