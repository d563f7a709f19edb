"""Which switch each connection of a proxy is of, and the records that this makes."""
import bisect
import itertools

from .captures import Problem
from .connections import SWITCH
from .ends import spelled
from .following import CUT_BYTES, Change
from .recorder import SwitchNumbers
from .recordings import SLOTS, Kind

NO_SWITCH = "the capture has no connection of a switch to the port that the proxy took up"

# The kinds of records, of a switch and of a slice.
OF_SWITCH = {Change.UP: Kind.SWITCH_UP, Change.BYTES: Kind.SWITCH_BYTES, Change.DOWN: Kind.SWITCH_DOWN}
OF_SLICE = {Change.UP: Kind.SLICE_UP, Change.BYTES: Kind.SLICE_BYTES, Change.DOWN: Kind.SLICE_DOWN}


class Session:
    """A switch's connection under its number, and the controllers' connections to its slots."""

    def __init__(self, number, connection, begun):
        self.number = number
        self.connection = connection
        self.slots = {}
        self.is_up = True
        self.begun = begun  # the number of the packet with which it came up
        self.end_shown_by = connection.end_shown_by()  # and of that which shows that the proxy knows of its end

    def was_up_at(self, number):
        """Whether it was up at this packet, for all that the proxy is seen to know."""
        return self.begun < number < self.end_shown_by


def misattached(connection, number, why):
    """The problem of a controller's connection that can't be of the switch that --attach gives for it."""
    text = f"--attach {connection.number}={number} says that this connection to slot {connection.role} is of switch {number}"
    return Problem(connection.number, f"{text}, which {why}")


def unclear(connection, numbers, has_room):
    """The problem of a controller's connection that may be of these switches; some switch that is up may have room for it."""
    text = f"this connection to slot {connection.role} "
    if numbers:
        text += f"may be of switch {' or '.join(str(number) for number in numbers)}"
    else:
        text += "is of no switch that is up and has no other one to it"
    if has_room:
        text += f"; --attach {connection.number}=SWITCH says of which it is"
    return Problem(connection.number, text)


class ProxyRecorder:
    """Makes the records of what happened at the connections of a proxy, in its order."""

    def __init__(self, records, sieve, attached):
        self.records = records
        self.sieve = sieve
        self.numbers = SwitchNumbers()
        self.attached = dict(attached)  # switches' numbers, by the first packets of controllers' connections
        self.sessions = {}  # those that are up, by number
        # Those that have ended, by the slots to which they had no connection, in the order in which the proxy is seen to know of it.
        self.past = [[] for _slot in range(SLOTS)]
        self.session_of = {}  # by connection
        self.slots = set()  # those of which a connection is recorded
        self.lines = []

    def play(self, happening):
        """Records one happening."""
        connection = happening.connection
        if connection.is_passed_over():
            return
        if happening.kind is Change.UP:
            session = self.switch_up(happening) if connection.role == SWITCH else self.controller_up(happening)
            self.session_of[connection] = session
        session = self.session_of[connection]
        if not session.is_up:
            return
        if happening.kind is Change.CUT:
            raise Problem(happening.number, CUT_BYTES)
        data = self.sieve.sifted(connection, happening.counted())
        if data or happening.kind is not Change.BYTES:
            self.add(happening, session, data)
        if happening.kind is Change.DOWN:
            self.leave(session, connection.role)

    def leave(self, session, role):
        """A connection has ended: a switch's, and with it those of its slices, or a controller's."""
        if role == SWITCH:
            session.is_up = False
            del self.sessions[session.number]
            self.numbers.give_back(session.number)
            for slot in set(range(SLOTS)) - session.slots.keys():
                bisect.insort(self.past[slot], session, key=lambda session: session.end_shown_by)
        else:
            del session.slots[role]

    def switch_up(self, happening):
        """The session of a switch's new connection."""
        connection = happening.connection
        number = self.numbers.take(happening.number)
        session = self.sessions[number] = Session(number, connection, happening.number)
        self.tell(connection, f"switch {number}")
        return session

    def controller_up(self, happening):
        """The session to which a controller's new connection belongs. It may have ended."""
        connection = happening.connection
        free = [session for session in self.sessions.values() if connection.role not in session.slots]
        gone = self.gone(connection)
        is_given = connection.number in self.attached
        session = self.given(connection, itertools.chain(free, gone)) if is_given else self.found(connection, free, gone)
        if session.is_up:
            session.slots[connection.role] = connection
            self.slots.add(connection.role)
            self.tell(connection, f"switch {session.number}, slot {connection.role}")
        return session

    def gone(self, connection):
        """The sessions that have ended, of which the proxy hadn't shown that it knew when it began this connection to a controller."""
        for session in reversed(self.past[connection.role]):
            if session.end_shown_by < connection.number:
                break
            if session.was_up_at(connection.number):
                yield session

    def given(self, connection, sessions):
        """The session of these that --attach gives for a controller's connection."""
        number = self.attached.pop(connection.number)
        for session in sessions:
            if session.number == number:
                if self.tells_of_another(connection, session):
                    raise misattached(connection, number, "hasn't the datapath id that the proxy tells there, but another switch has")
                return session
        raise misattached(connection, number, "has one already" if number in self.sessions else "is not up")

    def tells_of_another(self, connection, session):
        """Whether the proxy tells a controller the datapath id of another switch that is up than this session's."""
        told = connection.features.datapath
        others = {other.connection.features.datapath for other in self.sessions.values() if other is not session}
        return told is not None and told != session.connection.features.datapath and told in others

    def found(self, connection, free, gone):
        """The one session that a controller's connection can be of. Where all have ended, none is recorded, whichever it is."""
        told = connection.features.datapath
        fitting = (session for session in itertools.chain(free, gone)
                   if session.was_up_at(connection.number) and told in (None, session.connection.features.datapath))
        # Those that are up come first, and those that have ended may be thousands.
        sessions = list(itertools.islice(fitting, 2))
        if not sessions or (len(sessions) > 1 and sessions[0].is_up):
            raise unclear(connection, sorted({session.number for session in (*sessions, *fitting)}), bool(free))
        return sessions[0]

    def tell(self, connection, text):
        """Notes what a connection was taken for."""
        ends = f"{spelled(connection.client)} to {spelled(connection.server)}"
        self.lines.append(f"packet {connection.number}: {text}: {ends}")

    def add(self, happening, session, data):
        """Adds the records of a happening."""
        role = happening.connection.role
        kind, slot = (OF_SWITCH[happening.kind], 0) if role == SWITCH else (OF_SLICE[happening.kind], role)
        self.records.add(happening.number, kind, happening.moment, data, slot, session.number)

    def finish(self):
        """All was played."""
        if not self.numbers.begun:
            raise Problem(None, NO_SWITCH)
        if self.attached:
            number = min(self.attached)
            raise Problem(number, "no connection of a controller that came up begins with it, but --attach names it")
