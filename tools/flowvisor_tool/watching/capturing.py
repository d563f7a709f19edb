"""The command that captures what is watched."""
import ipaddress
import shlex

# How much the system keeps of what comes faster than it is read, in KiB.
BUFFER = 65536


def capture_filter(ends):
    """The packets of the proxy's connections, as tcpdump's filter says it."""
    own = f"tcp port {ends.port}" if ends.address is None else end_filter(ends.address, ends.port)
    return " or ".join([own, *(end_filter(*end) for end in ends.slots)])


def end_filter(address, port):
    """The packets from and to an address and a port."""
    return f"(host {ipaddress.ip_address(address)} and tcp port {port})"


def capture_command(ends, words):
    """The command for a shell, which has watch with these words read the capture."""
    capture = f"tcpdump -i any -s 0 -B {BUFFER} --immediate-mode -U -w - {shlex.quote(capture_filter(ends))}"
    return f"{capture} | flowvisor-tool {shlex.join(['watch', *words, '-'])}"
