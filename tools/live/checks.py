"""The checks: what docs/OPERATING.md says of a proxy between Open vSwitch and controllers, each in one line."""
import signal
import time

from devices.proxy import free_port

from .capture import Capture
from .controllers import Hanger, Watcher, bob, learning_switch, packets_of_bob
from .processes import LeftOut, Processes, Unmet, is_listening, lacks, wait_for
from .proxies import balance, serve, shared_policy, sole_policy
from .seal import Seal
from .switches import Switches
from .watching import Greedy, Watched

WEB, SHELL, NOBODY = 80, 22, 443
# Seconds: until a packet was answered, until nothing more comes of one, and until a controller that is back was dialled.
ANSWERED, QUIET, DIALLED = 5, 1, 20
# How often a controller that hangs up may be dialled in so many seconds.
WATCHED, MOST_DIALS = 6, 6
PLACES, BALANCED = 16, 20
FAILED_OVER = 10


class Shared:
    """A switch of three ports, with the two slices of the shipped policy."""

    def __init__(self, processes, program):
        self.processes, self.program = processes, program
        self.ports = free_port(), free_port()
        self.bob = bob(processes, self.ports[1])
        wait_for("bob's program listens", ANSWERED * 2, lambda: is_listening(self.ports[1]))
        self.switches = Switches(processes)
        self.target = self.connect()
        self.switches.add("br0", 0xA1, 3, self.target)

    def connect(self):
        """Starts alice's controller and the proxy, and gives what the switch is pointed to."""
        self.alice = learning_switch(self.processes, self.ports[0])
        self.policy, self.port = shared_policy(self.processes, *self.ports), free_port()
        self.capture = Capture(self.processes, (self.port, *self.ports))
        serve(self.processes, self.program, self.policy, self.port)
        return f"tcp:127.0.0.1:{self.port}"

    def shell_packet(self, port=1):
        """A packet for port 22 reaches bob, and his flow is in the switch."""
        before = packets_of_bob(self.processes)
        # Bob's program passes over packets that come before it knows what the switch is.
        time.sleep(2 * QUIET)
        self.switches.inject("br0", port, 1, 2, (1024, SHELL))
        wait_for("bob gets a packet for port 22", ANSWERED, lambda: packets_of_bob(self.processes) > before)
        wait_for(
            "bob's flow is in the switch, cut to port 22", ANSWERED,
            lambda: f"priority=10,tcp,in_port={port},tp_dst={SHELL} actions=output:2" in self.switches.flows("br0"))

    def learn(self, host, port):
        """A packet each way between host 1 and another one, for port 80: alice learns where they are, and makes a flow."""
        source = 1024 + host
        wait_for("alice makes a flow for a host that she has learned of", ANSWERED * 2, lambda: self.is_learned(host, port, source))

    def is_learned(self, host, port, source):
        self.switches.inject("br0", 1, 1, host, (source, WEB))
        time.sleep(0.3)
        self.switches.inject("br0", port, host, 1, (source + 1, WEB))
        time.sleep(0.3)
        wanted = f"in_port={port},vlan_tci=0x0000,dl_src=00:00:00:00:00:{host:02x},"
        return any(wanted in flow and f"tp_dst={WEB} " in flow for flow in self.switches.flows("br0"))

    # The checks, in their order: each begins where the one before has ended.

    def both_are_connected(self):
        """two slices: the switch is connected, and each controller is shown it"""
        self.switches.wait_connected()

    def bob_gets_what_is_his(self):
        """a packet for port 22 goes to bob, and his flow for all packets of a port is cut to his slice"""
        self.shell_packet()
        if any("tp_dst" not in flow for flow in self.switches.flows("br0")):
            raise Unmet(f"a flow isn't cut to its slice: {self.switches.flows('br0')}")

    def alice_gets_what_is_hers(self):
        """packets for port 80 go to alice alone, who learns and makes a flow inside her slice"""
        before = packets_of_bob(self.processes)
        self.learn(2, 2)
        time.sleep(QUIET)
        if packets_of_bob(self.processes) != before:
            raise Unmet("bob was shown a packet for port 80")

    def nobody_gets_the_rest(self):
        """a packet for port 443 goes to nobody, and makes no flow"""
        before = packets_of_bob(self.processes), sorted(self.switches.flows("br0"))
        self.switches.inject("br0", 1, 1, 2, (1024, NOBODY))
        time.sleep(QUIET)
        if (packets_of_bob(self.processes), sorted(self.switches.flows("br0"))) != before:
            raise Unmet("something came of it")

    def every_flow_is_inside(self):
        """each flow of the switch is one of TCP to port 80 or 22"""
        flows = self.switches.flows("br0")
        outside = [flow for flow in flows if "tcp" not in flow or not any(f"tp_dst={port} " in flow for port in (WEB, SHELL))]
        if outside or not flows:
            raise Unmet(f"these aren't: {outside or 'there are none'}")

    def alice_comes_back(self):
        """alice's controller is killed and started again: it is dialled, and learns of another host"""
        self.processes.end(self.alice, signal.SIGKILL)
        time.sleep(QUIET)
        self.alice = learning_switch(self.processes, self.ports[0])
        wait_for("she learns of host 3", DIALLED, lambda: self.is_learned(3, 3, 1030))

    def switch_comes_back(self):
        """the switch leaves and comes back: both controllers are dialled for it anew"""
        self.switches.configure("del-controller", "br0")
        time.sleep(QUIET)
        self.switches.point("br0", self.target)
        self.switches.wait_connected()
        self.shell_packet()
        self.learn(2, 2)

    def switch_is_killed(self):
        """the switch's program is killed and started again: it is connected, with an empty table that its packets fill"""
        self.switches.kill()
        time.sleep(QUIET)
        self.switches.start()
        self.switches.wait_connected()
        self.shell_packet()
        self.learn(2, 2)

    def bob_hangs_up(self):
        """a controller that hangs up is dialled now and then, and the other one sees nothing of it"""
        self.processes.end(self.bob, signal.SIGKILL)
        with Hanger(self.ports[1]) as hanger:
            wait_for("it is dialled", DIALLED, lambda: hanger.moments)
            self.learn(4, 3)
            time.sleep(WATCHED)
            last = [moment for moment in hanger.moments if moment > time.monotonic() - WATCHED]
        if not 1 <= len(last) <= MOST_DIALS:
            raise Unmet(f"it was dialled {len(last)} times in {WATCHED} seconds")
        if self.switches.connected() != 1:
            raise Unmet("the switch isn't connected any more")

    def bob_is_back(self):
        """bob's own program, back after one that hung up, is dialled, and gets his packets"""
        self.bob = bob(self.processes, self.ports[1])
        before = packets_of_bob(self.processes)

        def is_dialled():
            self.switches.inject("br0", 3, 1, 2, (1024, SHELL))
            time.sleep(QUIET)
            return packets_of_bob(self.processes) > before

        wait_for("he gets a packet for port 22", DIALLED, is_dialled)

    def proxy_sent_what_a_replay_says(self):
        """all that the proxy sent in these checks is what a replay of the capture says, byte for byte"""
        self.capture.compare(self.program, self.policy, self.port)

    CHECKS = (
        both_are_connected, bob_gets_what_is_his, alice_gets_what_is_hers, nobody_gets_the_rest, every_flow_is_inside,
        alice_comes_back, switch_comes_back, switch_is_killed, bob_hangs_up, bob_is_back, proxy_sent_what_a_replay_says,
    )


class Sealed(Shared):
    """The same, with TLS between the switch and haproxy, and between haproxy and alice's controller."""

    def connect(self):
        if lacks("openssl"):
            raise LeftOut("there is no openssl")
        seal = Seal(self.processes, "proxy", "switch", "alice")
        self.alice = learning_switch(self.processes, self.ports[0], seal)
        front, behind = free_port(), free_port()
        _proxy, port = serve(self.processes, self.program, shared_policy(self.processes, behind, self.ports[1]))
        ends = {"0.0.0.0:6653": front, "127.0.0.1:6701": port, "127.0.0.1:6733": behind, "192.0.2.5:6633": self.ports[0]}
        balance(self.processes, "haproxy-tls.cfg", ends)
        self.switches.configure("set-ssl", *(seal.path(name) for name in ("switch.key", "switch.pem", "authority.pem")))
        return f"ssl:127.0.0.1:{front}"

    def both_get_what_is_theirs(self):
        """over TLS, with haproxy before the proxy and behind it, each controller gets what is its"""
        self.switches.wait_connected()
        self.shell_packet()
        self.learn(2, 2)

    def others_are_refused(self):
        """a switch without a certificate isn't connected"""
        self.switches.point("br0", self.target.replace("ssl:", "tcp:"))
        wait_for("it isn't connected", DIALLED, lambda: self.switches.connected() == 0)
        time.sleep(2 * QUIET)
        self.switches.wait_connected(0)

    CHECKS = (both_get_what_is_theirs, others_are_refused)


class Many:
    """Bridges of a port each, with one slice whose controller knows which of them are there."""

    def __init__(self, processes, program, watcher, ports):
        self.processes = processes
        self.program = program
        self.watcher = watcher
        self.policy = sole_policy(processes, ports)
        self.switches = Switches(processes)
        self.proxies = []

    def add(self, numbers, port):
        for number in numbers:
            self.switches.add(f"sw{number}", number, 1, f"tcp:127.0.0.1:{port}")

    def wait_served(self, count, seconds):
        wait_for(f"{count} switches are served", seconds, lambda: len(self.watcher.datapaths()) == count)

    def sixteen_at_once(self):
        """sixteen switches are served at once, a seventeenth isn't, and is once one of them has gone"""
        proxy, port = serve(self.processes, self.program, self.policy)
        self.add(range(1, PLACES + 1), port)
        self.wait_served(PLACES, DIALLED)
        self.add([PLACES + 1], port)
        time.sleep(2 * QUIET)
        if self.watcher.datapaths() != set(range(1, PLACES + 1)):
            raise Unmet(f"these are served: {sorted(self.watcher.datapaths())}")
        self.switches.remove("sw3")
        wait_for("the seventeenth is served", DIALLED, lambda: self.watcher.datapaths() == {*range(1, PLACES + 2)} - {3})
        for number in {*range(1, PLACES + 2)} - {3}:
            self.switches.remove(f"sw{number}")
        self.wait_served(0, DIALLED)
        self.processes.end(proxy)

    def one_of_two_is_killed(self):
        """two proxies behind haproxy serve twenty switches, and when one is killed the other has sixteen within ten seconds"""
        first, second = (serve(self.processes, self.program, self.policy) for _ in range(2))
        port = free_port()
        balance(self.processes, "haproxy.cfg", {"0.0.0.0:6653": port, "127.0.0.1:6701": first[1], "127.0.0.1:6702": second[1]})
        self.add(range(1, BALANCED + 1), port)
        self.wait_served(BALANCED, 2 * DIALLED)
        self.processes.end(first[0], signal.SIGKILL)
        # Until then its switches have gone, on the way to the other.
        time.sleep(QUIET)
        self.wait_served(PLACES, FAILED_OVER - QUIET)
        time.sleep(QUIET)
        self.wait_served(PLACES, QUIET)
        serve(self.processes, self.program, self.policy, first[1])
        self.wait_served(BALANCED, 2 * DIALLED)

    CHECKS = (sixteen_at_once, one_of_two_is_killed)


def run(program):
    """Runs all checks, prints a line for each, and gives how many passed and how many failed."""
    verdicts = []
    for site_verdicts in (shared_verdicts, sealed_verdicts, watched_verdicts, many_verdicts):
        for text, fault in site_verdicts(program):
            word = "passed" if fault is None else "left out" if isinstance(fault, LeftOut) else "failed"
            print(f"{word}: {text}" if fault is None else f"{word}: {text}: {fault}", flush=True)
            verdicts.append(word)
    return verdicts.count("passed"), verdicts.count("failed")


def shared_verdicts(program):
    """The checks of two slices of one switch."""
    with Processes() as processes:
        yield from verdicts_of(Shared.CHECKS, lambda: Shared(processes, program))


def sealed_verdicts(program):
    """The checks of TLS."""
    with Processes() as processes:
        yield from verdicts_of(Sealed.CHECKS, lambda: Sealed(processes, program))


def watched_verdicts(program):
    """The checks of what watches a proxy."""
    ports = free_port(), free_port()
    with Processes() as processes, Greedy(ports[1]):
        yield from verdicts_of(Watched.CHECKS, lambda: Watched(processes, program, ports))


def many_verdicts(program):
    """The checks of many switches."""
    port = free_port()
    with Processes() as processes, Watcher(port) as watcher:
        yield from verdicts_of(Many.CHECKS, lambda: Many(processes, program, watcher, port))


def verdicts_of(checks, make):
    """What each check of a site says, and the fault that was found, or None; all fail where the site can't be made."""
    try:
        site = make()
    except (LeftOut, Unmet, OSError) as error:
        yield from ((check.__doc__, error) for check in checks)
        return
    for check in checks:
        try:
            check(site)
        except (LeftOut, Unmet, OSError) as error:
            yield check.__doc__, error
        else:
            yield check.__doc__, None
