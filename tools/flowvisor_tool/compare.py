"""Compares what a proxy sent, as a capture has it, with the report of a replay."""
from .captures import Problem
from .comparison import verdicts
from .ends import Ends, slices_of, slot_of, slots_of
from .faults import Fault
from .files import named, say
from .from_pcap import add_ends
from .proxy_streams import captured_sessions, reported_sessions
from .reports import lines_of

NAME = "compare"
SUMMARY = "say whether a proxy sent what a report says"
USAGE = "%(prog)s --switch-port PORT [OPTION]... CAPTURE REPORT"
EPILOG = """\
REPORT is what flowvisor replay prints of the recording that from-pcap makes of CAPTURE with the same options. Of each
connection the messages are compared in their order, those to a switch slice by slice: a proxy may take two slices'
messages in another order than they were captured in. What the report has more is no difference, since a connection
may end before all was sent. The status is 1 where something differs.
"""


def add_arguments(parser):
    parser.usage = USAGE
    parser.epilog = EPILOG
    add_ends(parser)
    parser.add_argument("capture", metavar="CAPTURE", help="the capture of the proxy's connections")
    parser.add_argument("report", metavar="REPORT", help="what flowvisor replay printed")


def run(arguments):
    with open(arguments.report, "rb") as file, named(arguments.report):
        reported = reported_sessions(lines_of(file, arguments.report), arguments.report)
    slices = slices_of(arguments.policy) if arguments.policy else slices_in(reported, arguments.slice)
    ends = Ends(*arguments.switch_port, slots_of(given_slots(arguments, slices), slices, arguments.policy))
    try:
        captured = captured_sessions(arguments.capture, ends, [name for name, _controller in slices], dict(arguments.attach))
    except Problem as problem:
        raise Fault(str(problem), arguments.capture) from None
    found = list(verdicts(captured, reported))
    say(line for one in found for line in told(one))
    different = sum(not one.is_same for one in found)
    say([f"different: {different} of {len(found)} connections" if different else f"the same: {len(found)} connections"])
    return 1 if different else 0


def slices_in(reported, given):
    """The names of slices that are given, where these are all that a report has."""
    names = dict.fromkeys(name for name, _end in given)
    for name in sorted({name for session in reported for name in session.links}):
        if name not in names:
            raise Fault(f"--policy or --slice {name}=ADDRESS:PORT must say where the controller of {name} listens")
    return [(name, "") for name in names]


def given_slots(arguments, slices):
    """The slots of the addresses that --slice gives."""
    try:
        return [(slot_of(name, slices), end) for name, end in arguments.slice]
    except ValueError as problem:
        arguments.usage_error(f"argument --slice: {problem}")


def told(verdict):
    """The lines that tell a verdict."""
    start = f"packet {verdict.packet}: " if verdict.packet is not None else ""
    yield f"{start}{verdict.whose}: {verdict.text}"
    yield from verdict.more
