"""The errors that a slice is answered (OpenFlow 1.0.0, section 5.4.4); which is chosen is this proxy's own rule."""
from typing import NamedTuple


class Error(NamedTuple):
    """The class and the code of an error."""

    family: int
    code: int


HELLO_FAILED = Error(0, 0)
BAD_VERSION, BAD_TYPE, BAD_STATISTICS, BAD_VENDOR, NOT_PERMITTED = (Error(1, code) for code in (0, 1, 2, 3, 5))
BAD_LENGTH, BUFFER_UNKNOWN = Error(1, 6), Error(1, 8)
ACTION_TYPE, ACTION_LENGTH, ACTION_VENDOR = Error(2, 0), Error(2, 1), Error(2, 2)
ACTION_PORT, ACTION_ARGUMENT, ACTION_NOT_PERMITTED, TOO_MANY_ACTIONS = (Error(2, code) for code in (4, 5, 6, 7))
TABLES_FULL, OVERLAP, FLOW_NOT_PERMITTED, BAD_COMMAND = (Error(3, code) for code in (0, 1, 2, 4))


class Refused(Exception):
    """A message that is answered an error, and nothing else."""

    def __init__(self, error):
        super().__init__(error)
        self.error = error
