"""What is counted, in Prometheus' text format (version 0.0.4)."""
import math

from .parties import OTHER_CODE
from .state import error_text
from .tallies import NAMES

CONTENT_TYPE = "text/plain; version=0.0.4; charset=utf-8"
OPENFLOW_ERROR = "OTHER OTHER"


def metrics_of(world, follower):
    """The text of all metrics."""
    return "".join(line + "\n" for line in lines_of(world, follower))


def lines_of(world, follower):
    """Its lines."""
    families = [
        *capture_families(world, follower), *switch_families(world), *slice_families(world), *message_families(world),
    ]
    for name, kind, text, samples in families:
        yield f"# HELP {name} {text}"
        yield f"# TYPE {name} {kind}"
        for labels, value in samples:
            told = ",".join(f'{key}="{escaped(one)}"' for key, one in labels.items())
            yield f"{name}{{{told}}} {value_text(value)}" if told else f"{name} {value_text(value)}"


def escaped(text):
    """A label's value."""
    return str(text).replace("\\", "\\\\").replace('"', '\\"').replace("\n", "\\n")


def value_text(value):
    """A sample's value."""
    return repr(float(value)) if isinstance(value, float) else str(int(value))


def capture_families(world, follower):
    """What was read."""
    return [
        ("flowvisor_capture_packets_total", "counter", "Packets of the capture that were read.", [({}, follower.packets)]),
        ("flowvisor_capture_missing_bytes_total", "counter", "Bytes of connections that the capture lacks.", [({}, follower.missing())]),
        ("flowvisor_capture_unread_bytes_total", "counter", "Bytes of connections of which it isn't known what they say.",
         [({}, follower.unread())]),
        ("flowvisor_capture_unreadable_packets_total", "counter", "Packets that can't be read.", [({}, follower.unreadable)]),
        ("flowvisor_capture_timestamp_seconds", "gauge", "The time of the last packet.",
         [({}, float(follower.time))] if math.isfinite(follower.second) else []),
        ("flowvisor_switches", "gauge", "Switches that are connected.", [({}, sum(switch.is_up for switch in world.switches))]),
    ]


def switches_of(world):
    """The switches whose datapath ids are known, with their labels."""
    return [(switch, {"switch": switch.name()}) for switch in world.switches if switch.datapath is not None]


def slices_of(world):
    """The slices on these, with their labels."""
    for switch, labels in switches_of(world):
        for slot, here in switch.slices.items():
            yield here, world.slices[slot], labels | {"slice": world.slices[slot].name}


def switch_families(world):
    """What is known of switches."""
    switches = switches_of(world)
    return [
        ("flowvisor_switch_up", "gauge", "Whether the switch is connected.", [(labels, switch.is_up) for switch, labels in switches]),
        ("flowvisor_switch_state_timestamp_seconds", "gauge", "Since when the switch is up, or down.",
         [(labels, float(switch.since)) for switch, labels in switches]),
        ("flowvisor_switch_connections_total", "counter", "Connections of the switch that were seen.",
         [(labels, switch.connections) for switch, labels in switches]),
        ("flowvisor_switch_errors_total", "counter", "Errors that the switch sent.",
         [(labels, switch.errors) for switch, labels in switches]),
        ("flowvisor_switch_unowned_packets_total", "counter", "Packet-ins that no rule of the policy has.",
         [(labels, switch.nobody) for switch, labels in switches]),
    ]


def slice_families(world):
    """What is known of slices."""
    slices = list(slices_of(world))
    return [
        ("flowvisor_slice_up", "gauge", "Whether the slice's controller is connected for the switch.",
         [(labels, here.is_up) for here, _one, labels in slices]),
        ("flowvisor_slice_state_timestamp_seconds", "gauge", "Since when the slice is up, or down.",
         [(labels, float(here.since)) for here, _one, labels in slices]),
        ("flowvisor_slice_connections_total", "counter", "Connections to the slice's controller that were seen.",
         [(labels, here.connections) for here, _one, labels in slices]),
        ("flowvisor_slice_silent_seconds", "gauge", "For how long what was sent isn't acknowledged.",
         [(labels, here.silent) for here, _one, labels in slices]),
        ("flowvisor_slice_sent_flow_mods_total", "counter", "Flow-mods that the switch was sent for the slice.",
         [(labels, here.pieces) for here, _one, labels in slices]),
        ("flowvisor_slice_entries", "gauge", "Entries of the switch that are the slice's, as far as was seen.",
         [(labels, here.entries) for here, _one, labels in slices]),
        ("flowvisor_slice_quota_entries", "gauge", "How many entries the slice may have.",
         [(labels, one.quota) for _here, one, labels in slices]),
        ("flowvisor_slice_rated_messages", "gauge", "Messages of the last second that the slice's rate counts.",
         [(labels, here.rated()) for here, _one, labels in slices]),
        ("flowvisor_slice_rate_limit_messages_per_second", "gauge", "How many messages a second the slice's rate gives.",
         [(labels, one.rate) for _here, one, labels in slices]),
        ("flowvisor_slice_refused_messages_total", "counter", "Messages of the slice that were answered by an error.",
         [(labels | error_labels(error), count) for here, _one, labels in slices for error, count in here.refused.items()]),
    ]


def error_labels(error):
    """The labels that name an error."""
    kind, code = (OPENFLOW_ERROR if error == OTHER_CODE else error_text(error)).split(" ")
    return {"type": kind, "code": code}


def message_families(world):
    """Messages by type and direction."""
    of_switches = [
        (labels | {"direction": direction, "type": name}, count)
        for switch, labels in switches_of(world)
        for direction, tally in (("from_switch", switch.sent), ("to_switch", switch.got))
        for name, count in zip(NAMES, tally.totals()) if count
    ]
    of_slices = [
        (labels | {"direction": direction, "type": name}, count)
        for here, _one, labels in slices_of(world)
        for direction, tally in (("from_controller", here.sent), ("to_controller", here.got))
        for name, count in zip(NAMES, tally.totals()) if count
    ]
    return [
        ("flowvisor_switch_messages_total", "counter", "Messages between the switch and the proxy.", of_switches),
        ("flowvisor_slice_messages_total", "counter", "Messages between the slice's controller and the proxy.", of_slices),
    ]
