"""What of a policy is watched: the slices with their limits, and where their controllers are."""
from dataclasses import dataclass

from ..ends import Ends, slot_of, slots_of
from ..faults import Fault
from ..policy_text import read_policy_file

DEFAULTS = {"rate": 1000, "burst": 1000, "quota": 1024}


@dataclass(frozen=True, slots=True)
class SliceLimits:
    """A slice of the policy: messages a second, how many at once, and how many entries of a switch."""

    slot: int
    name: str
    controller: str
    rate: int
    burst: int
    quota: int


def watched_policy(path):
    """The policy in a file, and its slices by slot."""
    reading = read_policy_file(path)
    if reading.faults:
        raise Fault("it isn't accepted: flowvisor-tool lint prints why", path)
    tables = reading.document.root.content["slice"].content
    return reading.policy, {
        one.slot: SliceLimits(one.slot, one.name, one.controller, **limits_of(table.content))
        for one, table in zip(reading.policy.slices, tables)
    }


def limits_of(content):
    """The limits that a slice's table gives, or their defaults."""
    return {key: content[key].content if key in content else value for key, value in DEFAULTS.items()}


def watched_ends(switch_port, slices, given, path):
    """The addresses of the proxy's connections: where switches connect to, and where controllers are. ValueError for no slice's name."""
    names = [(one.name, one.controller) for one in slices.values()]
    return Ends(*switch_port, slots_of([(slot_of(name, names), end) for name, end in given], names, path))
