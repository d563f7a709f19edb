"""Follows a capture as it grows, second by second, and answers what is asked of it meanwhile."""
import json
import os
import select
import stat
import threading
import time

from ..captures import Problem
from . import metrics, page
from .audience import Audience
from .following import Follower
from .growing import GrowingCapture
from .refusals import Refusals
from .server import Server
from .state import state_of
from .world import World

READ_SIZE = 1 << 16
# In seconds: how long it waits for bytes before it looks at the clock, and how old an answer may be.
LONGEST_WAIT, POLL = 0.2, 0.1
FRESH = 0.5


class Watcher:
    """A policy, what is known of its switches and slices, and the capture that tells it."""

    def __init__(self, policy, slices, ends, name, say=None):
        audience = Audience(policy)
        self.name = name
        self.world = World(slices, audience, Refusals(audience), self.now, say or (lambda time, text: None))
        self.follower = Follower(ends, self.world, self.tick)
        self.capture = GrowingCapture(self.follower.hear)
        self.second = None
        self.read_at = None  # the clock of this machine at the last packet
        self.is_live = True
        self.lock = threading.Lock()
        self.kept = {}

    def now(self):
        """The capture's time: that of its last packet, and what has passed since that was read."""
        passed = time.monotonic() - self.read_at if self.is_live and self.read_at is not None else 0
        return self.follower.time + passed

    def tick(self, second):
        """A second begins."""
        self.second = second
        self.world.tick(second)
        self.follower.tick(second)

    def feed(self, data):
        """Takes bytes of the capture."""
        with self.lock:
            self.read_at = time.monotonic()
            self.capture.feed(data)
            self.read_at = time.monotonic()

    def pass_time(self):
        """Time goes on, though no packet may have come."""
        with self.lock:
            if self.is_live and self.read_at is not None:
                second = int(self.now())
                if self.second is not None and second > self.second:
                    self.tick(second)

    def follow(self, descriptor, to_end, renew):
        """Reads a capture until it ends, and renews what is shown each second."""
        is_file = stat.S_ISREG(os.fstat(descriptor).st_mode)
        self.is_live = not (to_end and is_file)
        next_time = time.monotonic()
        while True:
            data = self.read(descriptor, is_file)
            if data:
                self.feed(data)
            elif data is not None and (to_end or not is_file):
                break
            self.pass_time()
            if time.monotonic() >= next_time:
                next_time = time.monotonic() + 1
                renew()
        with self.lock:
            self.finish()

    def read(self, descriptor, is_file):
        """The next bytes; none where the capture ends, and None where it has none now."""
        if is_file:
            data = os.read(descriptor, READ_SIZE)
            if not data:
                if os.fstat(descriptor).st_size < os.lseek(descriptor, 0, os.SEEK_CUR):
                    raise Problem(self.capture.number + 1, "the capture was cut off while it was read")
                time.sleep(POLL)
            return data
        return os.read(descriptor, READ_SIZE) if select.select([descriptor], [], [], LONGEST_WAIT)[0] else None

    def finish(self):
        """The capture has ended."""
        self.is_live = False
        self.tick((self.second or 0) + 1)
        self.capture.finish()

    def state(self):
        """What is shown."""
        with self.lock:
            return state_of(self.world, self.follower, self.name)

    # What is served.

    def serve(self, address, port):
        """Begins to serve the page, and answers the server."""
        server = Server(address, port, {
            "/": lambda: (page.CONTENT_TYPE, page.PAGE),
            "/state.json": lambda: ("application/json", self.fresh("state", self.state_text)),
            "/metrics": lambda: (metrics.CONTENT_TYPE, self.fresh("metrics", self.metrics_text)),
        })
        server.start()
        return server

    def fresh(self, name, make):
        """A text that isn't older than half a second."""
        made_at, text = self.kept.get(name, (None, None))
        if made_at is None or time.monotonic() - made_at > FRESH:
            text = make()
            self.kept[name] = time.monotonic(), text
        return text

    def state_text(self):
        return json.dumps(self.state())

    def metrics_text(self):
        with self.lock:
            return metrics.metrics_of(self.world, self.follower)
