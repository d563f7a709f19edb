"""What is known of the switches and of the slices on them, as the wire tells it."""
import collections
import datetime

from ..connections import SWITCH
from ..ends import spelled
from .hearing import Hearing
from .links import LATEST, How
from .parties import SILENT, Room, SliceHere, SwitchHere

MOST_SWITCHES, MOST_STRAYS, MOST_HAPPENINGS = 64, 64, 200


def moment_text(time):
    """A time of a capture, in UTC."""
    try:
        moment = datetime.datetime.fromtimestamp(time, datetime.timezone.utc)
    except (OverflowError, OSError, ValueError):
        return "an unknown time"
    return moment.strftime("%Y-%m-%dT%H:%M:%S.") + f"{moment.microsecond // 1000:03d}Z"


class World:
    """The switches, and what has happened. It observes what a follower follows."""

    def __init__(self, slices, audience, refusals, clock, say):
        self.slices = slices  # by slot: what the policy says of each
        self.audience = audience
        self.refusals = refusals
        self.clock = clock  # tells the capture's time
        self.say = say
        self.switches = []
        self.room = Room()
        self.strays = {}  # controllers' connections of which it isn't known for which switch they are
        self.happenings = collections.deque(maxlen=MOST_HAPPENINGS)
        self.forgotten = 0
        self.second = None
        self.hearing = Hearing(self)

    def readers(self, role, is_peer):
        """Who reads what a side of a connection sends."""
        return self.hearing.readers(role == SWITCH, is_peer), None

    def tell(self, text):
        """Something has happened."""
        time = self.clock()
        self.happenings.append((time, text))
        self.say(time, text)

    # Connections.

    def called(self, link):
        """A switch calls the proxy, or the proxy a controller."""
        self.note_call(link, "was called, and has not answered")

    def up(self, link):
        """A connection is up."""
        if link.role == SWITCH:
            self.switch_up(link)
        else:
            self.controller_up(link)

    def switch_up(self, link):
        """A switch has connected. Its features say which one it is."""
        switch = SwitchHere(self.slices, link.since, self.room)
        switch.address = spelled(link.client)
        self.make_room()
        self.switches.append(switch)
        switch.connect(link)
        link.view = switch
        if link.is_late:
            for here in switch.slices.values():
                here.reason, here.entries_at_least = "nothing of it was seen since the capture began", True
        self.tell(f"switch {switch.name()}: {'was connected before the capture began' if link.is_late else 'connected'}")

    def make_room(self):
        """Forgets a switch where there are too many: one that is gone, and first one that never said which it is."""
        if len(self.switches) >= MOST_SWITCHES:
            gone = min(self.switches, key=lambda switch: (switch.is_up, switch.datapath is not None, switch.since))
            if gone.link is not None:
                gone.link.view = None
            for here in gone.slices.values():
                if here.link is not None:
                    here.link.view = None
            self.switches.remove(gone)
            gone.forget_entries()
            self.forgotten += gone.is_up or gone.datapath is not None

    def drop(self, switch):
        """Keeps nothing of what wasn't a switch. Of which one its slices' connections are isn't known then."""
        self.switches.remove(switch)
        for here in switch.slices.values():
            if here.link is not None and len(self.strays) < MOST_STRAYS:
                self.strays[here.link] = here

    def controller_up(self, link):
        """The proxy has connected to a controller, for a switch."""
        fitting = [switch for switch in self.switches if switch.is_up and switch.slices[link.role].link is None]
        if len(fitting) == 1:
            self.attach(link, fitting[0])
            return
        stray = link.view = SliceHere(link.role, link.since)
        stray.connect(link)
        if len(self.strays) < MOST_STRAYS:
            self.strays[link] = stray

    def attach(self, link, switch):
        """A controller's connection is for this switch."""
        here, before = switch.slices[link.role], link.view
        if here.link is link:
            return
        if here.link is not None:
            self.detach(here.link, "the proxy has connected anew")
        if link in self.strays:
            del self.strays[link]
        if isinstance(before, SliceHere):
            if before.link is link and any(before is one for other in self.switches for one in other.slices.values()):
                before.disconnect(self.clock(), "its connection is for another switch")
            else:
                before.sent.live = before.got.live = (0,) * len(before.sent.past)
                here.absorb(before)
        here.connect(link)
        link.view = here
        late = "was connected before the capture began" if link.is_late else "up"
        self.tell(f"switch {switch.name()}: {self.slices[link.role].name}: {late}: {spelled(link.server)}")

    def detach(self, link, reason):
        """A connection isn't that of its switch or slice any more."""
        view, link.view = link.view, None
        if view is not None and view.link is link:
            view.disconnect(self.clock(), reason)

    def ended(self, link, side, how, was_up):
        """A connection has ended, or a call was refused."""
        self.strays.pop(link, None)
        if not was_up:
            if how is How.REFUSED:
                self.note_call(link, "was called, and nobody listens there")
            return
        view, link.view = link.view, None
        if view is None or view.link is not link:
            return
        reason = self.reason(link, side, how)
        view.disconnect(self.clock(), reason)
        switch = self.switch_of(view)
        if link.role == SWITCH:
            self.tell(f"switch {view.name()}: down: {reason}")
            if view.datapath is None and not link.peer.taken and not link.is_late:
                self.drop(view)
        elif switch is not None:
            self.tell(f"switch {switch.name()}: {self.slices[link.role].name}: down: {reason}")

    def note_call(self, link, text):
        """Notes what came of a call of a controller, with each switch for which it may have been made."""
        if link.role == SWITCH:
            return
        for switch in self.switches:
            here = switch.slices[link.role]
            if switch.is_up and not here.is_up:
                here.call = text

    def reason(self, link, side, how):
        """Why a connection ended, as far as the wire tells."""
        peer = "the switch" if link.role == SWITCH else "its controller"
        if how is How.REPLACED:
            return "silence: another connection took its place, and no end of this one was seen"
        if how is How.FORGOTTEN:
            return "not known: too many connections are followed"
        who, does = peer if side.is_peer else "the proxy", "reset" if how is How.RESET else "ended"
        text = f"{who} {does} it"
        broken = link.peer.messages.broken
        if broken is not None:
            text += f", behind a message of {peer} whose length is {broken}"
        elif not side.is_peer and not sum(link.proxy.messages.counts) and not link.is_late and link.role == SWITCH:
            text += " without a greeting: it has no place for another switch"
        return text

    def switch_of(self, here):
        """The switch of a slice; None where it isn't known."""
        if isinstance(here, SwitchHere):
            return here
        return next((switch for switch in self.switches if switch.slices.get(here.slot) is here), None)

    def know(self, link, datapath):
        """The datapath id of a switch's connection is known: it may be that of a switch that was there before."""
        switch = link.view
        if switch.datapath == datapath:
            return
        before = next((other for other in self.switches if other.datapath == datapath), None)
        if before is None:
            switch.datapath = datapath
            self.tell(f"switch {switch.name()}: sent its features, at {switch.address}")
            return
        if before.link is not None:
            self.detach(before.link, "another connection has its datapath id")
        self.switches.remove(switch)
        switch.forget_entries()
        switch.link = None
        before.take_over(switch)
        before.connect(link)
        link.view = before
        for slot, here in switch.slices.items():
            if here.link is not None:
                self.attach(here.link, before)
        self.tell(f"switch {before.name()}: sent its features, at {before.address}")

    # Time.

    def tick(self, second):
        """A second begins; what happened in those before is counted."""
        if self.second is None:
            self.second = second
            return
        # A packet may be a little older than the one before, or than the clock.
        if self.second - LATEST <= second <= self.second:
            return
        passed = max(0, second - self.second)
        for switch in self.switches:
            self.tick_switch(switch, passed)
        for stray in self.strays.values():
            stray.count(self.second, passed, 0)
        self.second = second

    def tick_switch(self, switch, passed):
        """Counts what a second had of a switch."""
        nobody, switch.nobody_before = switch.nobody - switch.nobody_before, switch.nobody
        if nobody > switch.nobody_told:
            self.tell(f"switch {switch.name()}: {nobody - switch.nobody_told} packets more for nobody in this second")
        switch.nobody_told = 0
        was_silent = switch.silent
        switch.count(self.second, passed, nobody)
        self.tell_silence(switch, was_silent, f"switch {switch.name()}")
        for here in switch.slices.values():
            total = sum(here.refused.values())
            refused, here.refused_before = total - here.refused_before, total
            name = self.slices[here.slot].name
            if refused > here.told:
                self.tell(f"switch {switch.name()}: {name}: {refused - here.told} messages more refused in this second")
            here.told = 0
            was_silent = here.silent
            here.count(self.second, passed, refused)
            self.tell_silence(here, was_silent, f"switch {switch.name()}: {name}")

    def tell_silence(self, party, was_silent, who):
        """Tells when a side begins or ceases to be silent."""
        if party.silent >= SILENT > was_silent:
            self.tell(f"{who}: silent: what it or the proxy has sent isn't acknowledged for {SILENT} seconds")
        elif was_silent >= SILENT > party.silent and party.is_up:
            self.tell(f"{who}: answers again")
