"""The events of a switch's desk."""
from dataclasses import dataclass

from .wire import has_bad_length


@dataclass(frozen=True, slots=True)
class SwitchUp:
    pass


@dataclass(frozen=True, slots=True)
class SwitchMessage:
    frame: bytes


@dataclass(frozen=True, slots=True)
class SwitchDown:
    pass


@dataclass(frozen=True, slots=True)
class SliceUp:
    slot: int


@dataclass(frozen=True, slots=True)
class SliceMessage:
    """A slice's message, and its timestamp, in milliseconds."""

    slot: int
    frame: bytes
    moment: int


@dataclass(frozen=True, slots=True)
class SliceDown:
    slot: int


Event = SwitchUp | SwitchMessage | SwitchDown | SliceUp | SliceMessage | SliceDown


def is_end(event):
    """Whether the switch's connection ends by an event: it is down, or a length can't be."""
    return isinstance(event, SwitchDown) or isinstance(event, SwitchMessage) and has_bad_length(event.frame)
