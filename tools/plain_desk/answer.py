"""What follows for a slice from one thing that it sees."""
import dataclasses
from dataclasses import dataclass

from .items import Pair
from .messages import FlowMod, PacketOut
from .wire import error_message


@dataclass(frozen=True, slots=True)
class Draft:
    """A message for the switch, and which of the slice's buffered packets it is for; the number of its buffer is missing."""

    message: FlowMod | PacketOut | bytes
    ordinal: int | None = None

    def spelled(self, buffer_of):
        """Its bytes, with the buffer's number that belongs to the ordinal."""
        if isinstance(self.message, bytes):
            return self.message
        if self.ordinal is None:
            return self.message.spelled()
        return dataclasses.replace(self.message, buffer=buffer_of(self.ordinal)).spelled()


@dataclass(frozen=True, slots=True)
class Answer:
    """What is sent, and what later items can look up of it; requests and buffered packets are known by their numbers."""

    to_slice: tuple[bytes, ...] = ()
    to_switch: tuple[Draft, ...] = ()
    is_counted: bool = False  # for the rate
    is_config: bool = False  # a SET_CONFIG that is taken
    books: tuple[Pair, ...] = ()
    asks: bool = False  # to be sent word when these go
    releases: frozenset[Pair] = frozenset()
    fails: frozenset[int] = frozenset()
    completes: frozenset[int] = frozenset()
    gives_up: frozenset[int] = frozenset()
    uses: frozenset[int] = frozenset()


NOTHING = Answer()


def told(*messages):
    """The slice gets messages, and nothing else follows."""
    return Answer(to_slice=messages)


def error_told(frame, xid, error):
    """The slice gets an error about a message of its own."""
    return told(error_message(xid, error, frame))
