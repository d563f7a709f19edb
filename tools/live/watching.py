"""The checks of `flowvisor-tool watch`: two switches with two slices each, as its log, its page and its metrics have them."""
import re
import signal
import sys
import urllib.request

from devices.messages import flow_mod, output, port_match
from devices.proxy import free_port

from .capture import TOOL, Capture
from .controllers import Watcher, learning_switch
from .processes import LeftOut, Unmet, is_listening, wait_for
from .proxies import serve, shared_policy
from .switches import Switches

WEB, NOBODY = 80, 443
SWITCHES = {"br0": 0xA1, "br1": 0xB2}
# Seconds: until what happened is shown, until all are connected, and until a controller that was killed is shown as down.
SHOWN, CONNECTED, NOTICED = 5, 20, 2


class Greedy(Watcher):
    """Asks each switch for the packets of TCP port 80 too, which are another slice's."""

    def hear(self, link, data):
        is_known = link in self.links
        rest = super().hear(link, data)
        if not is_known and link in self.links:
            link.sendall(flow_mod(port_match(WEB), output(2)))
        return rest


class Watched:
    """Alice's learning switch and bob's greedy controller, a proxy, and what watches it."""

    def __init__(self, processes, program, ports):
        self.processes = processes
        self.alice = learning_switch(processes, ports[0])
        policy = shared_policy(processes, *ports)
        port, self.page = free_port(), free_port()
        capture = Capture(processes, (port, *ports))
        if capture.process is None or not capture.has_begun():
            raise LeftOut("there is no tcpdump that may capture")
        words = "--log", "--switch-port", port, "--http", f"127.0.0.1:{self.page}", policy, capture.path
        processes.start("watch", sys.executable, TOOL, "watch", *words)
        wait_for("the page is served", SHOWN, lambda: is_listening(self.page))
        serve(processes, program, policy, port)
        self.switches = Switches(processes)
        for bridge, datapath in SWITCHES.items():
            self.switches.add(bridge, datapath, 3, f"tcp:127.0.0.1:{port}")

    def fetch(self, path):
        with urllib.request.urlopen(f"http://127.0.0.1:{self.page}{path}", timeout=SHOWN) as answer:
            return answer.read().decode()

    def up(self, name):
        """On how many switches a slice is shown as up."""
        return len(re.findall(rf'^flowvisor_slice_up{{.*slice="{name}".*}} 1$', self.fetch("/metrics"), re.MULTILINE))

    def logged(self, text):
        """How many lines of the log have a text."""
        return self.processes.lines("watch", text)

    def both_slices_are_shown(self):
        """watch shows two switches, with both slices up on each, and serves its page"""
        wait_for("each slice is up on two switches", CONNECTED, lambda: self.up("alice") == self.up("bob") == len(SWITCHES))
        if "flowvisor_switches 2\n" not in self.fetch("/metrics") or "<html" not in self.fetch("/"):
            raise Unmet("the metrics don't have two switches, or there is no page")

    def refusal_is_named(self):
        """watch names a flow-mod outside its slice, with the rule that decides"""
        text = "bob: refused: FLOW_MOD add tcp,tp_dst=80 priority=10 actions=output:2: OFPET_FLOW_MOD_FAILED OFPFMFC_EPERM: " \
            "it is outside bob: rule 0 (line 12), of alice, has all of its packets"
        wait_for("it is named for each switch", SHOWN, lambda: self.logged(text) == len(SWITCHES))

    def packet_for_nobody_is_named(self):
        """watch names a packet that no rule has, with the rule that it misses by the fewest fields"""
        self.switches.inject("br0", 1, 1, 2, (1024, NOBODY))
        wait_for("it is named", SHOWN, lambda: self.logged("; nearest is rule 0 (line 12), not by tp_dst = 80") == 1)

    def killed_controller_is_seen(self):
        """watch shows a controller that is killed as down within two seconds, with the reason"""
        self.processes.end(self.alice, signal.SIGKILL)
        wait_for("alice is down on both switches", NOTICED, lambda: self.up("alice") == 0)
        if self.logged("alice: down: its controller ended it") != len(SWITCHES) or self.up("bob") != len(SWITCHES):
            raise Unmet("the reason isn't given, or bob is shown as down too")

    CHECKS = both_slices_are_shown, refusal_is_named, packet_for_nobody_is_named, killed_controller_is_seen
