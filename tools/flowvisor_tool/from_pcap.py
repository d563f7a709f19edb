"""Makes a recording for `flowvisor replay` of a capture (pcap, pcapng)."""
import argparse
import math

from .called_ends import play
from .captures import Problem
from .direct import DirectRecorder
from .ends import Ends, end_of, number_of, port_of, slices_of, slot_of, slots_of, unrecorded
from .faults import Fault
from .files import replaced, say
from .following import Follower, follow
from .openflow.protocol import MessageType
from .recorder import Records, Sieve
from .recordings import LARGEST_RECORDING, SWITCHES
from .sessions import ProxyRecorder

NAME = "from-pcap"
SUMMARY = "make a recording of a capture"
USAGE = "%(prog)s --switch-port PORT [OPTION]... CAPTURE RECORDING"
EPILOG = """\
What switches and controllers send is recorded; what a proxy sends isn't, since replay makes it anew. The connections
must be in the capture whole: what can't be read is reported with its packet, and nothing is written. With --direct what
the switch answers to its controller is left out, since the proxy asks under transaction ids of its own.
docs/REFERENCE.md of flowvisor says all of this at length.
"""


def add_arguments(parser):
    parser.usage = USAGE
    parser.epilog = EPILOG
    add_ends(parser)
    add = parser.add_argument
    add("--direct", metavar="SLICE", help="without a proxy: the controller is this slice's")
    add("--drop", default=frozenset(), type=message_types, metavar="TYPES", help="leave out messages, as ECHO_REQUEST,3")
    add("capture", metavar="CAPTURE", help="the capture to be read")
    add("recording", metavar="RECORDING", help="the recording to be written")


def add_ends(parser):
    """Adds what says which of a capture's connections are the proxy's, and whose."""
    add = parser.add_argument
    add("--switch-port", required=True, type=switch_end, metavar="PORT", help="where switches connect to, or ADDRESS:PORT")
    add("--policy", metavar="POLICY", help="has the slices' names, and their controllers")
    add("--slice", action="append", default=[], type=slice_end, metavar="SLICE=ADDRESS:PORT",
        help="a slice's controller, by name or slot (from 0)")
    add("--attach", action="append", default=[], type=attachment, metavar="PACKET=SWITCH",
        help="this packet begins a connection for the switch")


def switch_end(text):
    """An address, or None for any, and a port."""
    try:
        return end_of(text) if ":" in text else (None, port_of(text))
    except ValueError:
        raise argparse.ArgumentTypeError(f"{text!r} isn't [ADDRESS:]PORT") from None


def slice_end(text):
    """A slice's name or slot, and the address of its controller."""
    name, _equals, address = text.rpartition("=")
    try:
        return name, end_of(address)
    except ValueError:
        raise argparse.ArgumentTypeError(f"{text!r} isn't SLICE=ADDRESS:PORT") from None


def attachment(text):
    """A packet's number and a switch's."""
    packet, _equals, switch = text.partition("=")
    try:
        return number_of(packet, 0, math.inf), number_of(switch, 0, SWITCHES)
    except ValueError:
        raise argparse.ArgumentTypeError(f"{text!r} isn't PACKET=SWITCH") from None


def message_types(text):
    """The numbers of message types."""
    try:
        return frozenset(map(message_type, text.split(",")))
    except (KeyError, ValueError):
        raise argparse.ArgumentTypeError(f"{text!r} isn't message types, as ECHO_REQUEST,3") from None


def message_type(word):
    """The number of a type of messages, which is given by its name or its number; or KeyError or ValueError."""
    return number_of(word, 0, 256) if word.isdecimal() else MessageType[word.upper()].value


def run(arguments):
    if arguments.direct is not None and (arguments.slice or arguments.attach):
        arguments.usage_error("--direct: --slice and --attach are for the connections of a proxy")
    slices = slices_of(arguments.policy) if arguments.policy else []
    convert = convert_direct if arguments.direct is not None else convert_of_proxy
    records, sieve = Records(LARGEST_RECORDING), Sieve(arguments.drop)
    try:
        lines = convert(arguments, slices, records, sieve)
    except Problem as problem:
        raise Fault(str(problem), arguments.capture) from None
    with replaced(arguments.recording, arguments.capture) as file:
        file.write(records.spelled())
        say([*lines, *sieve.lines(), f"{records.size} bytes"])
    return 0


def checked_slot(arguments, option, word, slices):
    """The slot of a slice's name or number. A word that is none has no form."""
    try:
        return slot_of(word, slices)
    except ValueError as problem:
        arguments.usage_error(f"argument {option}: {problem}")


def convert_of_proxy(arguments, slices, records, sieve):
    """Records the connections of a proxy, and answers a line for each of them and for each slice that has none."""
    given = [(checked_slot(arguments, "--slice", name, slices), end) for name, end in arguments.slice]
    ends = Ends(*arguments.switch_port, slots_of(given, slices, arguments.policy))
    recorder = ProxyRecorder(records, sieve, dict(arguments.attach))
    record(arguments.capture, [ends], recorder)
    return recorder.lines + unrecorded(ends.slots, recorder.slots)


def convert_direct(arguments, slices, records, sieve):
    """Records connections between a controller and switches, and answers a line for each and for what is left out."""
    slot = checked_slot(arguments, "--direct", arguments.direct, slices)
    recorder = DirectRecorder(records, sieve, slot)
    # Each connection is followed twice: for what its client sends, which is the switch, and for what its server does.
    record(arguments.capture, [Ends(*arguments.switch_port, {}), Ends(*arguments.switch_port, {}, slot)], recorder)
    return recorder.lines


def record(path, all_ends, recorder):
    """Follows the connections of a capture that have these ends, and has what happens at them recorded."""
    happenings = []
    follow(path, [Follower(ends, happenings) for ends in all_ends])
    play(happenings, recorder, path, all_ends[0])
