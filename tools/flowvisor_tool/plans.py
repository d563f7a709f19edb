"""Plans: lines `SWITCH clean BYTES-IN-HEX` and a last one `end EVENTS MESSAGES`."""
import re

from .faults import Fault
from .openflow.messages import FLOW_MOD
from .openflow.protocol import HEADER, VERSION, FlowModCommand, Header, MessageType

LINE = re.compile(r"(?P<switch>\d|1[0-5]) clean (?P<hex>(?:[0-9a-f]{2})+)")
END = re.compile(r"end (?P<events>\d+) (?P<messages>\d+)")
LONGEST_LINE = 1 << 12
# The place of a flow-mod's command.
COMMAND = slice(56, 58)


def is_plan(file):
    """Whether a file, of which nothing was read, begins as a plan does."""
    first = file.peek(LONGEST_LINE).split(b"\n", 1)[0].decode("ascii", "replace")
    return any(pattern.fullmatch(first) for pattern in (LINE, END))


def is_deletion(message):
    """Whether a message is a flow-mod that takes away the entry of one match and priority."""
    if len(message) != HEADER.size + FLOW_MOD.size:
        return False
    command = int.from_bytes(message[COMMAND], "big")
    return Header.of(message)[:3] == (VERSION, MessageType.FLOW_MOD, len(message)) and command == FlowModCommand.DELETE_STRICT


class Plan:
    """A plan that is read from a file."""

    def __init__(self, file, name):
        self.file, self.name = file, name
        self.end = None  # the last line, once it was read
        self.lines = 0

    def messages(self):
        """Each message with the number of its switch, up to the last line, which says how many there are."""
        while text := self.file.readline(LONGEST_LINE):
            self.lines += 1
            text = text.removesuffix(b"\n").decode("ascii", "replace")
            if self.end is not None:
                raise Fault(f"line {self.lines} stands behind the end of the plan", self.name)
            if found := END.fullmatch(text):
                self.take_end(found)
            else:
                yield self.message_in(text)
        if self.end is None:
            raise Fault("the plan is cut off: its last line, with the number of messages, is missing", self.name)

    def take_end(self, found):
        """Takes in the last line."""
        said, are = int(found["messages"]), self.lines - 1
        if said != are:
            raise Fault(f"has {are} messages, and says that there are {said}", self.name)
        self.end = found[0]

    def message_in(self, text):
        """The message of a line, and the number of its switch."""
        found = LINE.fullmatch(text)
        if found is None:
            raise Fault(f"line {self.lines} is none of a plan" if self.lines > 1 else "is no plan", self.name)
        message = bytes.fromhex(found["hex"])
        if not is_deletion(message):
            raise Fault(f"line {self.lines} has no flow-mod that deletes one entry", self.name)
        return int(found["switch"]), message


def plan_for(plan, switch):
    """The messages of a plan for one switch, which need not be said where the plan is for no more than one."""
    by_switch = {}
    for number, message in plan.messages():
        by_switch.setdefault(number, []).append(message)
    if switch is None and len(by_switch) > 1:
        numbers = ", ".join(map(str, sorted(by_switch)))
        raise Fault(f"is for the switches {numbers}: --switch says for which one it is taken", plan.name)
    return by_switch.get(next(iter(by_switch), None) if switch is None else switch, [])
