"""Switches: bridges of an Open vSwitch without its kernel module, whose packets are made up."""
import pathlib
import signal

from .processes import wait_for

SCHEMA = pathlib.Path("/usr/share/openvswitch/vswitch.ovsschema")
# Milliseconds between two tries of a bridge to connect.
LONGEST_BACKOFF = 1000
# Seconds until what the switch was sent is so.
STARTED, CONNECTED = 10, 20


class Switches:
    """Daemons of their own, and the bridges in them."""

    def __init__(self, processes):
        self.processes = processes
        database = processes.folder / "conf.db"
        processes.run("ovsdb-tool", "create", database, SCHEMA)
        processes.start("ovsdb-server", "ovsdb-server", database, f"--remote=punix:{processes.folder}/db.sock", "--pidfile")
        wait_for("ovsdb-server listens", STARTED, (processes.folder / "db.sock").exists)
        processes.run("ovs-vsctl", "--no-wait", "init")
        self.daemon = None
        self.start()

    def start(self):
        """Starts the program of the switches; their bridges stand in the database."""
        self.daemon = self.processes.start(
            "ovs-vswitchd", "ovs-vswitchd", f"unix:{self.processes.folder}/db.sock", "--enable-dummy", "--disable-system", "--pidfile")
        wait_for("ovs-vswitchd listens", STARTED, lambda: any(self.processes.folder.glob(f"ovs-vswitchd.{self.daemon.pid}.ctl")))

    def kill(self):
        """Kills the program of the switches, as a switch whose power fails."""
        self.processes.end(self.daemon, signal.SIGKILL)

    def add(self, bridge, datapath, ports, controller=None):
        """Adds a bridge with ports of these numbers, and points it to a controller."""
        words = [
            "add-br", bridge, "--", "set", "bridge", bridge, "datapath_type=dummy", "protocols=OpenFlow10", "fail_mode=secure",
            f"other-config:datapath-id={datapath:016x}",
        ]
        for number in range(1, ports + 1):
            name = f"{bridge}p{number}"
            words += ["--", "add-port", bridge, name, "--", "set", "interface", name, "type=dummy", f"ofport_request={number}"]
        self.configure(*words)
        if controller is not None:
            self.point(bridge, controller)

    def point(self, bridge, controller):
        """Points a bridge to a controller, as tcp:127.0.0.1:6653."""
        self.configure(
            "set-controller", bridge, controller, "--", "set", "controller", bridge, f"max_backoff={LONGEST_BACKOFF}")

    def configure(self, *words):
        self.processes.run("ovs-vsctl", "--timeout=15", *words)

    def remove(self, bridge):
        self.configure("del-br", bridge)

    def connected(self):
        """How many bridges are connected, as `ovs-vsctl show` says."""
        return self.processes.run("ovs-vsctl", "--timeout=15", "show").count("is_connected: true")

    def wait_connected(self, count=1):
        wait_for(f"{count} bridges are connected", CONNECTED, lambda: self.connected() == count)

    def inject(self, bridge, port, source, destination, tcp):
        """Has a TCP packet come in at a port of a bridge, from one host to another; these are numbers, and `tcp` both ports."""
        addresses = f"eth(src=00:00:00:00:00:{source:02x},dst=00:00:00:00:00:{destination:02x}),eth_type(0x0800)"
        network = f"ipv4(src=10.0.0.{source},dst=10.0.0.{destination},proto=6,tos=0,ttl=64,frag=no)"
        packet = f"in_port({port}),{addresses},{network},tcp(src={tcp[0]},dst={tcp[1]})"
        self.processes.run("ovs-appctl", "netdev-dummy/receive", f"{bridge}p{port}", packet)

    def flows(self, bridge):
        """The flows of a bridge, each as `ovs-ofctl dump-flows` prints its match and its actions."""
        lines = self.processes.run("ovs-ofctl", "-O", "OpenFlow10", "dump-flows", bridge).splitlines()
        return [line.rpartition(", ")[2].strip() for line in lines if "actions=" in line]
