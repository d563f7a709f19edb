"""A slice's view: what it sees of a history, each with what follows from it, and what can be looked up there.

Beside the list stand lists that grow with it: the places of the items that forget, the requests, the buffered packets,
the marks of each entry in the book. They are what the definitions filter out of the view at each look-up, and nothing else.
"""
import bisect
import collections
from dataclasses import dataclass, field

from flowvisor_tool.openflow.protocol import MessageType

from .answer import Answer
from .items import Down, Entry, Item, Lost, Message, Opened, Packet, Share, Status, Up
from .messages import CONFIG, body_of
from .ports import changed, told_ports
from .statistics import StatsRequest
from .wire import is_dismissing, is_of

# What is remembered (this proxy's own rule). Numbers of requests and of buffers go round.
MOST_REQUESTS, MOST_COLLECTIONS, MOST_BUFFERS = 4096, 8, 256
ROUND = 1 << 24
# How much of a packet a slice gets before it says so (OpenFlow 1.0.0, section 5.3.2).
MISS_SEND_LEN = 128


@dataclass(frozen=True, slots=True)
class Seen:
    """An item, the place in the history of the event that made it, and what follows from it."""

    place: int
    item: Item
    answer: Answer


@dataclass(frozen=True, slots=True)
class Request:
    """A message of the slice for which the switch was sent something, its place in the view, and its number from 0."""

    number: int
    place: int
    frame: bytes
    sent: bytes

    def statistics(self):
        """What statistics it asks for, or None."""
        return StatsRequest.read(self.frame) if is_of(self.frame, MessageType.STATS_REQUEST) else None


@dataclass(frozen=True, slots=True)
class Booking:
    """What an item says of an entry: the request that books it, and whether it asks to be sent word when the entry goes."""

    request: int
    asks: bool


RELEASE = None


def is_forgetting(item):
    """Whether an item ends or begins the slice's connection."""
    return isinstance(item, (Up, Down)) or isinstance(item, Message) and is_dismissing(item.frame)


@dataclass
class View:
    """What a slice has seen, the oldest first."""

    slot: int
    items: list[Seen] = field(default_factory=list)
    forgetting: list[int] = field(default_factory=list)  # the places of items that forget
    moments: list[int] = field(default_factory=list)  # for each message the greatest timestamp up to it
    accepted: list[int] = field(default_factory=list)  # the timestamps that counted for the rate
    lengths: list[tuple[int, int]] = field(default_factory=list)  # the places of SET_CONFIGs that were taken, and their lengths
    known: list[dict] = field(default_factory=list)  # the slice's ports: at the opening, and after each status
    requests: list[Request] = field(default_factory=list)
    failed: set[int] = field(default_factory=set)  # the numbers of requests
    done: set[int] = field(default_factory=set)
    given_up: set[int] = field(default_factory=set)
    asked: list[int] = field(default_factory=list)  # the numbers of requests for statistics
    entries: dict = field(default_factory=lambda: collections.defaultdict(list))  # by `low` and type: places and bytes
    packets: list[tuple[int, Seen]] = field(default_factory=list)  # the buffered ones, with their places
    ordinals: dict[int, int] = field(default_factory=dict)  # of these, by the places of their events
    lost: set[int] = field(default_factory=set)
    used: set[int] = field(default_factory=set)
    book: dict = field(default_factory=lambda: collections.defaultdict(list))  # the bookings and releases of each pair

    def append(self, seen):
        """Lengthens the list, and what stands beside it."""
        place, item = len(self.items), seen.item
        self.items.append(seen)
        match item:
            case Opened():
                self.known.append(told_ports(item.ports))
            case Status():
                self.known.append(changed(self.known[-1], item.status))
            case Lost(ordinal):
                self.lost.add(ordinal)
            case Packet(share=Share.WRITER, is_buffered=True):
                self.ordinals[seen.place] = len(self.packets)
                self.packets.append((place, seen))
            case Entry(low, kind, data):
                self.entries[low, kind].append((place, data))
            case Message():
                self.file_message(place, item, seen.answer)
        if is_forgetting(item):
            self.forgetting.append(place)
        self.file_answer(seen.answer)

    def file_message(self, place, item, answer):
        """Puts a message where it is looked up."""
        self.moments.append(self.moment(item))
        if answer.is_counted:
            self.accepted.append(self.moments[-1])
        if answer.is_config:
            self.lengths.append((place, CONFIG.unpack(body_of(item.frame))[1]))
        if answer.to_switch:
            request = Request(len(self.requests), place, item.frame, item.sent)
            for pair in answer.books:
                self.book[pair].append(Booking(request.number, answer.asks))
            if request.statistics() is not None:
                self.asked.append(request.number)
            self.requests.append(request)

    def file_answer(self, answer):
        """Puts what follows from an item where it is looked up."""
        self.failed |= answer.fails
        self.done |= answer.completes
        self.given_up |= answer.gives_up
        self.used |= answer.uses
        for pair in answer.releases:
            self.book[pair].append(RELEASE)

    # The slice's connection.

    def forgotten(self):
        """The place of the last item that forgets, or -1."""
        return self.forgetting[-1] if self.forgetting else -1

    def is_up(self):
        """Whether the last item that forgets is an up."""
        return bool(self.forgetting) and isinstance(self.items[self.forgetting[-1]].item, Up)

    def moment(self, message):
        """The timestamp at which a message counts: the greatest of its own and those before it (this proxy's own rule)."""
        return max([*self.moments[-1:], message.moment])

    def miss_send_len(self):
        """The length of the last SET_CONFIG that was taken on this connection."""
        place, length = self.lengths[-1] if self.lengths else (-1, MISS_SEND_LEN)
        return length if place > self.forgotten() else MISS_SEND_LEN

    def features(self):
        """What the switch said of itself."""
        return self.items[0].item.features

    def known_ports(self):
        return self.known[-1]

    # Requests.

    def first_remembered(self):
        """The number of the first request since the last item that forgets, or of the first that is remembered."""
        since = bisect.bisect(self.requests, self.forgotten(), key=lambda request: request.place)
        return max(since, len(self.requests) - MOST_REQUESTS)

    def remembered(self, low):
        """The request that is remembered and has these low bits, or None."""
        first = self.first_remembered()
        found = [number for number in range(low, len(self.requests), ROUND) if number >= first]
        return self.requests[found[0]] if found else None

    def collecting(self):
        """The numbers of the requests whose statistics are collected."""
        over = self.failed | self.done | self.given_up
        forgotten = self.forgotten()
        return [
            number for number in self.asked if number not in over and self.requests[number].place > forgotten
        ]

    def entries_of(self, request, kind):
        """The entries of a type that were sent for a request."""
        return [data for place, data in self.entries[request.number % ROUND, kind] if place > request.place]

    # Buffers.

    def held(self, number):
        """The ordinal of the buffered packet that the slice holds under a number of its own, or None."""
        last = range(max(0, len(self.packets) - MOST_BUFFERS), len(self.packets))
        for ordinal in last:
            is_there = ordinal not in self.lost and ordinal not in self.used
            if ordinal % ROUND == number and is_there and self.packets[ordinal][0] > self.forgotten():
                return ordinal
        return None

    def packet(self, ordinal):
        """A buffered packet, counted from 0."""
        return self.packets[ordinal][1].item

    # The book of entries.

    def bookings(self, pair):
        """The bookings of a pair since it was last released."""
        marks = self.book.get(pair, [])
        releases = [place for place, mark in enumerate(marks) if mark is RELEASE]
        return marks[releases[-1] + 1 :] if releases else marks

    def is_booked(self, pair):
        return bool(self.book.get(pair)) and self.book[pair][-1] is not RELEASE

    def booked(self):
        """All pairs that are booked."""
        return [pair for pair, marks in self.book.items() if marks[-1] is not RELEASE]
