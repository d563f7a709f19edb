"""The messages of a connection's bytes."""
from .protocol import HEADER, Header


class Frames:
    """Cuts a stream into messages, and keeps what is unfinished.

    Where a length is below a header's, nobody knows where the next message begins: the header is the last message.
    """

    def __init__(self):
        self.rest = b""
        self.is_over = False

    def messages(self, data):
        """The messages that the next bytes finish, while nothing ended the stream."""
        data, self.rest = self.rest + data, b""
        at = 0
        while not self.is_over and at + HEADER.size <= len(data):
            length = Header.of(data[at : at + HEADER.size]).length
            if length < HEADER.size:
                self.is_over = True
                length = HEADER.size
            elif at + length > len(data):
                break
            message, at = data[at : at + length], at + length
            yield message
        self.rest = b"" if self.is_over else data[at:]
