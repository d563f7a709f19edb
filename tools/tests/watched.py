"""How tests have captures watched: in this process, with what was reported of them."""
import contextlib
import pathlib
import tempfile

from running import EXAMPLES

from devices.messages import any_match, flow_mod, output
from devices.traffic import Site, Wire
from flowvisor_tool.captures import Problem
from flowvisor_tool.watching.policies import watched_ends, watched_policy
from flowvisor_tool.watching.watcher import Watcher

POLICY = EXAMPLES / "two-slices.toml"
START = 1_700_000_000.0
SWITCH = 0xA1


class Watched:
    """A watcher, and what it has reported, without the timestamps."""

    def __init__(self, policy=POLICY, switch_port=(None, 6653), given=()):
        self.told = []
        rules, slices = watched_policy(policy)
        ends = watched_ends(switch_port, slices, given, policy)
        self.watcher = Watcher(rules, slices, ends, "policy.toml", lambda time, text: self.told.append(text))
        self.watcher.is_live = False

    def see(self, capture, size=1 << 16):
        """Takes a capture in pieces, up to its end; answers the problem that ends it sooner, or None."""
        try:
            for at in range(0, len(capture), size):
                self.watcher.feed(capture[at : at + size])
            self.watcher.finish()
        except Problem as problem:
            return str(problem)
        return None

    def switch(self, place=0):
        """What is shown of a switch."""
        return self.watcher.state()["switches"][place]

    def slice(self, name, place=0):
        """What is shown of a slice on it."""
        return next(one for one in self.switch(place)["slices"] if one["name"] == name)


@contextlib.contextmanager
def policy_file(text):
    """A file with this policy."""
    with tempfile.TemporaryDirectory() as place:
        path = pathlib.Path(place) / "policy.toml"
        path.write_text(text)
        yield path


class Scene:
    """A site that speaks in a capture, whose bytes are put together."""

    def __init__(self, connect=True):
        self.parts = []
        self.site = Site(Wire(self.parts.append, START))
        if connect:
            self.site.connect_switch(SWITCH)
            for slot in (0, 1):
                self.site.connect_controller(SWITCH, slot)

    def wait(self, seconds):
        """Time goes on."""
        self.site.wire.time += seconds

    def link(self, slot=None):
        """The switch's connection, or that to a slice's controller."""
        return self.site.switches[SWITCH] if slot is None else self.site.controllers[SWITCH, slot]

    def from_switch(self, data):
        self.link().send(self.link().client, data)

    def to_switch(self, data):
        self.link().send(self.link().server, data)

    def from_controller(self, slot, data):
        self.link(slot).send(self.link(slot).server, data)

    def to_controller(self, slot, data):
        self.link(slot).send(self.link(slot).client, data)

    def capture(self):
        return b"".join(self.parts)

    def watched(self, *words, **options):
        """It is watched up to its end."""
        watched = Watched(*words, **options)
        problem = watched.see(self.capture())
        if problem is not None:
            raise AssertionError(problem)
        return watched


def busy_scene():
    """Both slices speak, something is refused, a packet is for nobody, and a controller leaves."""
    scene = Scene()
    scene.wait(1)
    scene.site.exchange(SWITCH, 0, 3)
    scene.site.refused(SWITCH, 1, (3, 2), flow_mod(any_match(), output(2)))
    scene.site.packet_for_nobody(SWITCH)
    scene.site.lose_controller(SWITCH, 1)
    return scene
