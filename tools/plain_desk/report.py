"""The report of a recording under a policy, which `flowvisor replay` must print (this proxy's own form)."""
import itertools

from .events import SliceMessage, SliceUp, is_end
from .history import Verdict
from .replay import Replay


def report_lines(policy, records):
    """The lines, event by event; events are numbered over the whole recording."""
    numbers, replay = itertools.count(), Replay(policy)
    for record in records:
        for event, step in replay.steps(record):
            front = f"{next(numbers)} {record.switch}"
            yield from (f"{front} {line}" for line in step_lines(policy, event, step))
    yield f"end {next(numbers)}"


def step_lines(policy, event, step):
    """What an event's lines say behind its number and its switch's."""
    for one in step.lane:
        yield f"lane {one.hex()}"
    for slot, one in step.sent:
        yield f"to {policy.slices[slot].name} {one.hex()}"
    if isinstance(event, (SliceUp, SliceMessage)) and step.verdict is not Verdict.GO:
        yield f"close {policy.slices[event.slot].name}"
    if is_end(event) and step.verdict is not Verdict.ENDED:
        yield "down"
