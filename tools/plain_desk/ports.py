"""The ports that a switch has reported (OpenFlow 1.0.0, sections 5.2.1, 5.3.1 and 5.4.3)."""
from flowvisor_tool.openflow.protocol import Port as PortNumber
from flowvisor_tool.openflow.protocol import PortConfig, PortReason

from .wire import is_port

# How many ports of a switch are known (this proxy's own rule).
MOST_PORTS = 1364


def told_ports(ports):
    """The table of some ports: of two with one number the later one, and none with a number that is reserved."""
    return {port.number: port for port in ports if is_port(port.number)}


def is_kept(known, status):
    """Whether a status changes what is known (this proxy's own rule)."""
    number = status.port.number
    if not is_port(number) or status.reason not in list(PortReason):
        return False
    if status.reason == PortReason.DELETE:
        return number in known
    return number in known or len(known) < MOST_PORTS


def changed(known, status):
    """The table after a status that is kept."""
    others = {number: port for number, port in known.items() if number != status.port.number}
    return others if status.reason == PortReason.DELETE else others | {status.port.number: status.port}


def ascending(known):
    return tuple(known[number] for number in sorted(known))


def flooded_ports(known):
    """The ports that ALL stands for, and those that FLOOD does."""
    every = [port for port in ascending(known) if port.number != PortNumber.LOCAL]
    flood = [port for port in every if not port.config & PortConfig.NO_FLOOD]
    return tuple(port.number for port in flood), tuple(port.number for port in every)
