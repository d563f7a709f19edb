"""Reports: what `flowvisor replay` prints."""
import enum
import re
from dataclasses import dataclass

from .faults import Fault

NAME = "[a-z0-9_-]{1,32}"
LINE = re.compile(
    r"(?P<event>\d+) (?P<switch>\d|1[0-5]) "
    rf"(?:(?:lane|to (?P<to>{NAME})) (?P<hex>(?:[0-9a-f]{{2}})+)|close (?P<close>{NAME})|down)"
)
END = re.compile(r"end (\d+)")
LONGEST_LINE = 1 << 18


class What(enum.Enum):
    """What a line tells."""

    MESSAGE = enum.auto()
    CLOSE = enum.auto()
    DOWN = enum.auto()
    END = enum.auto()


@dataclass(frozen=True, slots=True)
class Line:
    """A line of a report. The last one has the number of events in the place of an event's number.

    A message without a slice's name is one to the switch.
    """

    what: What
    event: int
    switch: int = 0
    slice_name: str | None = None
    message: bytes = b""


def line_of(text):
    """The line that a text is, or None."""
    if found := END.fullmatch(text):
        return Line(What.END, int(found[1]))
    if not (found := LINE.fullmatch(text)):
        return None
    event, switch = int(found["event"]), int(found["switch"])
    if found["hex"]:
        return Line(What.MESSAGE, event, switch, found["to"], bytes.fromhex(found["hex"]))
    if found["close"]:
        return Line(What.CLOSE, event, switch, found["close"])
    return Line(What.DOWN, event, switch)


def lines_of(file, name):
    """The lines of a report, up to its last one. A fault tells of one that isn't one, and of an end that is missing."""
    number, is_whole = 0, False
    while text := file.readline(LONGEST_LINE):
        number += 1
        line = line_of(text.removesuffix(b"\n").decode("ascii", "replace"))
        if is_whole:
            raise Fault(f"line {number} stands behind the end of the report", name)
        if line is None:
            raise Fault(f"line {number} is none of a report" if number > 1 else "is neither a report nor a recording", name)
        yield line
        is_whole = line.what is What.END
    if not is_whole:
        raise Fault("the report is cut off: its last line, with the number of events, is missing", name)
