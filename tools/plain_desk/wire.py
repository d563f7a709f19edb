"""Frames, and the bytes of messages (OpenFlow 1.0.0, sections 4.1 and 5.1)."""
import struct

from flowvisor_tool.openflow.protocol import HEADER, LARGEST_PHYSICAL_PORT, VERSION, Header, MessageType, Port

# Of the message that an error is about, it carries so many bytes (this proxy's own rule).
LARGEST_CAUSE = 64
LARGEST_MESSAGE = 65_535
ERROR_BODY = struct.Struct(">HH")


def frames_of(stream):
    """The whole frames at the front of a stream, and what follows them.

    A length below a header's ends the stream: its header is the last frame, and nothing follows.
    """
    frames, at = [], 0
    while at + HEADER.size <= len(stream):
        length = Header.of(stream[at : at + HEADER.size]).length
        if length < HEADER.size:
            return [*frames, stream[at : at + HEADER.size]], b""
        if at + length > len(stream):
            break
        frames.append(stream[at : at + length])
        at += length
    return frames, stream[at:]


def has_bad_length(frame):
    """Whether the frame's length is below a header's: it ends its connection."""
    return Header.of(frame).length < HEADER.size


def is_of(frame, kind):
    """Whether a frame is of this type, in version 1."""
    head = Header.of(frame)
    return (head.version, head.type) == (VERSION, kind) and not has_bad_length(frame)


def is_dismissing(frame):
    """Whether a slice's message ends its connection: a bad length, or a HELLO of version 0 (this proxy's own rule)."""
    head = Header.of(frame)
    return has_bad_length(frame) or (head.type, head.version) == (MessageType.HELLO, 0)


def message(kind, xid, body=b""):
    """A message of version 1."""
    return HEADER.pack(VERSION, kind, HEADER.size + len(body), xid) + body


def error_message(xid, error, cause):
    """An ERROR (section 5.4.4), with the front of the message that it is about."""
    return message(MessageType.ERROR, xid, ERROR_BODY.pack(*error) + cause[:LARGEST_CAUSE])


def is_port(number):
    """Whether a number is that of a port that can be a slice's: a physical one or LOCAL."""
    return number <= LARGEST_PHYSICAL_PORT or number == Port.LOCAL
