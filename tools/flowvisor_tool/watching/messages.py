"""The messages of one side of a connection, also where its first bytes, or some between, aren't in the capture."""
import enum

from ..openflow.protocol import HEADER, VERSION, MessageType

TYPES = len(MessageType)
OTHER = TYPES  # where messages are counted that have no type of the standard, or another version
HEAD = HEADER.size
# How many places of a segment are tried for the beginning of a message, and how many messages in a row are proof enough.
MOST_TRIED, ENOUGH = 256, 4

# The least length of each type, and what its length is beyond that a multiple of; 0 where it has no other (section 5).
FORMS = {
    MessageType.HELLO: (8, 1), MessageType.ERROR: (12, 1), MessageType.ECHO_REQUEST: (8, 1), MessageType.ECHO_REPLY: (8, 1),
    MessageType.VENDOR: (12, 1), MessageType.FEATURES_REQUEST: (8, 0), MessageType.FEATURES_REPLY: (32, 48),
    MessageType.GET_CONFIG_REQUEST: (8, 0), MessageType.GET_CONFIG_REPLY: (12, 0), MessageType.SET_CONFIG: (12, 0),
    MessageType.PACKET_IN: (18, 1), MessageType.FLOW_REMOVED: (88, 0), MessageType.PORT_STATUS: (64, 0),
    MessageType.PACKET_OUT: (16, 1), MessageType.FLOW_MOD: (72, 8), MessageType.PORT_MOD: (32, 0),
    MessageType.STATS_REQUEST: (12, 1), MessageType.STATS_REPLY: (12, 1), MessageType.BARRIER_REQUEST: (8, 0),
    MessageType.BARRIER_REPLY: (8, 0), MessageType.QUEUE_GET_CONFIG_REQUEST: (12, 0), MessageType.QUEUE_GET_CONFIG_REPLY: (16, 8),
}
LEAST, STEP = ([FORMS[kind][part] for kind in MessageType] for part in (0, 1))


class Certainty(enum.IntEnum):
    """What is known of where a side's next message begins: nothing, what its bytes look like, or all."""

    LOST = 0
    FOUND = 1
    SURE = 2


def is_likely(version, kind, length):
    """Whether a message of this head can be."""
    if version != VERSION or kind >= TYPES or length < LEAST[kind]:
        return False
    more = length - LEAST[kind]
    return not more if not STEP[kind] else more % STEP[kind] == 0


def is_start(data, at, end):
    """Whether messages seem to begin at a place: some in a row, or as many as there are up to the end."""
    begun, count = at, 0
    while end - at >= HEAD:
        version, kind, length, _xid = HEADER.unpack_from(data, at)
        if not is_likely(version, kind, length):
            return False
        at, count = at + length, count + 1
        if count >= ENOUGH or at == end:
            return True
    if at < end:
        return count > 0 and data[at] == VERSION
    # The last one isn't whole: at the beginning of a segment that is a sign too.
    return count > 1 or (count == 1 and begun == 0)


def first_start(data):
    """The first place at which messages seem to begin, or None."""
    end, at = len(data), 0
    for _tried in range(MOST_TRIED):
        at = data.find(b"\x01", at)
        if at < 0 or end - at < HEAD:
            return None
        if is_start(data, at, end):
            return at
        at += 1
    return None


class Messages:
    """Cuts what a side sends into messages, counts them by type, and hands those on that somebody reads.

    `readers` has for each number of a type who reads such messages, or None: it is called with this, the bytes in which
    the message stands, where it begins, and its length. `reader_of_others` reads what has another version or type.
    """

    __slots__ = ("owner", "readers", "reader_of_others", "counts", "certainty", "rest", "unread", "missing", "broken")

    def __init__(self, owner, readers, reader_of_others=None, certainty=Certainty.SURE):
        self.owner = owner
        self.readers = readers
        self.reader_of_others = reader_of_others
        self.counts = [0] * (TYPES + 1)
        self.certainty = certainty
        self.rest = b""
        self.unread = 0  # bytes that are there, and of which it isn't known what messages they are
        self.missing = 0  # bytes that aren't there
        self.broken = None  # the length, below 8, behind which nothing can be read

    def feed(self, data):
        """Takes the next bytes."""
        if self.rest:
            data = self.rest + data
            self.rest = b""
        if self.broken is not None:
            self.unread += len(data)
            return
        at = 0
        if self.certainty is Certainty.LOST:
            at = self.find(data, 0)
        end, counts, readers, unpack = len(data), self.counts, self.readers, HEADER.unpack_from
        while end - at >= HEAD:
            version, kind, length, _xid = unpack(data, at)
            if version == VERSION and kind < TYPES and length >= HEAD:
                if length > end - at:
                    break
                counts[kind] += 1
                if readers[kind] is not None:
                    readers[kind](self, data, at, length)
                at += length
                if self.broken is not None:
                    break
            else:
                step = self.pass_odd(data, at, end, length)
                if step is None:
                    break
                at = step
        self.keep(data[at:] if at else data)

    def keep(self, rest):
        """Keeps what isn't whole."""
        if self.broken is not None:
            self.unread += len(rest)
        else:
            self.rest = rest

    def pass_odd(self, data, at, end, length):
        """Where it goes on behind a head of no message of OpenFlow 1.0; None where that isn't whole or nothing can follow."""
        if self.certainty is not Certainty.SURE:
            self.certainty = Certainty.LOST
            return self.find(data, at + 1, 1)
        if length < HEAD:
            self.broken = length
            return None
        if length > end - at:
            return None
        self.counts[OTHER] += 1
        if self.reader_of_others is not None:
            self.reader_of_others(self, data, at, length)
        return at + length

    def find(self, data, at, passed=0):
        """Looks for a message from a place on, and answers where one begins, or the end of what is there."""
        rest = data[at:]
        found = first_start(rest)
        if found is None:
            self.unread += passed + len(rest)
            return len(data)
        self.unread += passed + found
        self.certainty = Certainty.FOUND
        return at + found

    def lose(self, count):
        """Bytes are missing here: it isn't known where the next message begins."""
        self.missing += count
        self.unread += len(self.rest)
        self.rest = b""
        if self.broken is None:
            self.certainty = Certainty.LOST


def readers_of(**by_name):
    """Who reads the messages of some types, by their names: a list of all types."""
    return [by_name.get(kind.name.lower()) for kind in MessageType]
