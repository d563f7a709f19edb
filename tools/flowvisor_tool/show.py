"""Prints a report, a plan, a recording or a capture for people to read: a line for each message, with its fields by name."""
import itertools

from .captures import Problem
from .ends import Ends, slices_of, slot_of, slots_of
from .faults import Fault
from .files import is_capture, is_recording, named, say
from .from_pcap import slice_end, switch_end
from .openflow.messages import message_text
from .plans import Plan, is_plan
from .recordings import Kind, events_of, records_of
from .reports import What, lines_of
from .watching.shown import capture_texts

NAME = "show"
SUMMARY = "print the messages of a report, a plan, a recording or a capture"
EPILOG = """\
A line of a report begins as the report's own: the event, the switch, and to whom the message goes; so does one of a
plan (`SWITCH clean BYTES-IN-HEX`, last `end EVENTS MESSAGES`). One of a recording has the event, the switch, the
timestamp in milliseconds, and from whom the message comes: the switch, or a slice's slot. One of a capture has the
packet, the timestamp, and from whom the message comes or to whom the proxy sends it. The options are for captures.
"""


def add_arguments(parser):
    parser.epilog = EPILOG
    add = parser.add_argument
    add("--switch-port", default=(None, 6653), type=switch_end, metavar="PORT", help="where switches connect to (6653)")
    add("--policy", metavar="POLICY", help="has the slices' names, and their controllers")
    add("--slice", action="append", default=[], type=slice_end, metavar="SLICE=ADDRESS:PORT", help="a slice's controller")
    parser.add_argument("file", metavar="FILE", help="a report, a plan, a recording or a capture")


def run(arguments):
    with open(arguments.file, "rb") as file, named(arguments.file):
        if is_capture(file):
            say(told_capture(file, arguments))
        elif is_plan(file):
            say(plan_texts(Plan(file, arguments.file)))
        elif is_recording(file, arguments.file):
            say(recording_texts(records_of(file, arguments.file)))
        else:
            say(map(report_text, lines_of(file, arguments.file)))
    return 0


def told_capture(file, arguments):
    """The lines of a capture."""
    slices = slices_of(arguments.policy) if arguments.policy else []
    given = [(checked_slot(arguments, name, slices), end) for name, end in arguments.slice]
    ends = Ends(*arguments.switch_port, slots_of(given, slices, arguments.policy))
    try:
        yield from capture_texts(file, ends, {slot: name for slot, (name, _controller) in enumerate(slices)})
    except Problem as problem:
        raise Fault(str(problem), arguments.file) from None


def checked_slot(arguments, word, slices):
    """The slot of a slice's name or number. A word that is none has no form."""
    try:
        return slot_of(word, slices)
    except ValueError as problem:
        arguments.usage_error(f"argument --slice: {problem}")


def report_text(line):
    """A line of a report, with its message spelled out."""
    if line.what is What.END:
        return f"end {line.event}"
    start = f"{line.event} {line.switch}"
    if line.what is What.DOWN:
        return f"{start} down"
    if line.what is What.CLOSE:
        return f"{start} close {line.slice_name}"
    to = "lane" if line.slice_name is None else f"to {line.slice_name}"
    return f"{start} {to} {message_text(line.message)}"


def plan_texts(plan):
    """A line for each message of a plan, and its last one."""
    for switch, message in plan.messages():
        yield f"{switch} clean {message_text(message)}"
    yield plan.end


def recording_texts(records):
    """A line for each event of a recording, and one with their number."""
    count = itertools.count()
    for event in events_of(records):
        next(count)
        yield event_text(event)
    yield f"end {next(count)}"


def event_text(event):
    """The line of an event."""
    record = event.record
    who = "switch" if record.kind.is_of_switch() else f"slot {record.slot}"
    start = f"{event.number} {record.switch} {record.moment}ms from {who}"
    if event.message is not None:
        return f"{start} {message_text(event.message)}"
    return f"{start} {'up' if record.kind in (Kind.SWITCH_UP, Kind.SLICE_UP) else 'down'}"
