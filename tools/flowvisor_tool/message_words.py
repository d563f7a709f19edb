"""Flow-mods and packet-outs, read as `ovs-ofctl` takes them for `add-flow` and `packet-out`."""
import re

from plain_desk.actions import spelled_actions
from plain_desk.matches import Match, normal_match, spelled_match
from plain_desk.messages import FlowMod, PacketOut

from .action_words import read_actions
from .faults import Fault
from .fields import EMPTY, Header, number_of, value_of, whole, words_of
from .flow_text import DELETES, read_flow
from .made_frames import frame_of
from .openflow.protocol import NO_BUFFER, UNTAGGED, FlowModCommand, FlowModFlag, Port

XID = 1
DEFAULT_PRIORITY = 0x8000  # that of `ovs-ofctl`
LARGEST_MESSAGE = 0xFFFF
LARGEST = {"priority": 0xFFFF, "cookie": (1 << 64) - 1, "idle_timeout": 0xFFFF, "hard_timeout": 0xFFFF}
COMMANDS = {command.name.lower(): command for command in FlowModCommand}
DEFAULT_COMMAND = "add"
# A packet, as `ovs-ofctl packet-out` has it, or its bytes alone.
FRAME = re.compile(
    r"(?:in_port=(?P<port>[^,\s]*)[,\s]+)?(?:packet=)?(?P<bytes>(?:[0-9A-Fa-f]{2})+)(?:[,\s]+actions?=(?P<actions>.*))?", re.DOTALL
)


def flow_mod_of(flow, command, actions):
    """The FLOW_MOD of a flow, as `ovs-ofctl` would send it."""
    numbers = {name: number_in(flow, name, greatest) for name, greatest in LARGEST.items()}
    flags = FlowModFlag.SEND_FLOW_REM * ("send_flow_rem" in flow.flags) | FlowModFlag.CHECK_OVERLAP * ("check_overlap" in flow.flags)
    return within_limit(FlowMod(
        XID, match_of(flow.fields), numbers["cookie"] or 0, command, numbers["idle_timeout"] or 0, numbers["hard_timeout"] or 0,
        DEFAULT_PRIORITY if numbers["priority"] is None else numbers["priority"], NO_BUFFER, out_port_of(flow), flags, actions,
    ))


def number_in(flow, name, greatest):
    """A number that a flow says beside its match; None where it says none."""
    text = flow.settings.get(name)
    number = None if text is None else number_of(text, greatest)
    if text is not None and number is None:
        raise Fault(f"{name}={text}: it is a number from 0 to {greatest}")
    return number


def out_port_of(flow):
    text = flow.settings.get("out_port", "NONE")
    port = value_of("in_port", text)
    if port is None:
        raise Fault(f"out_port={text} is no port")
    return port


def match_of(fields):
    """The match that binds fields; where it says that there is no tag, `ovs-ofctl` binds the tag's priority too."""
    if fields.get("dl_vlan") == whole({"dl_vlan": UNTAGGED})["dl_vlan"]:
        fields = fields | whole({"dl_vlan_pcp": 0})
    return normal_match(spelled_match(Match.of(fields)))


def packet_out_of(in_port, data, actions):
    """The PACKET_OUT of a packet."""
    return within_limit(PacketOut(XID, NO_BUFFER, in_port, actions, data))


def within_limit(message):
    """A message that isn't too long to be one."""
    rest = len(message.data) + 16 if isinstance(message, PacketOut) else 72
    if rest + len(spelled_actions(message.actions)) > LARGEST_MESSAGE:
        raise Fault(f"the message would be longer than {LARGEST_MESSAGE} bytes")
    return message


def read_message(text, actions, command, is_packet=False):
    """The message that a flow, or a packet, and actions are. Fields are those of a packet only where that is said."""
    frame = FRAME.fullmatch(text)
    if (frame or is_packet) and command is not None:
        raise Fault("a packet is sent out, and has no command")
    if frame:
        return read_packet_out(frame, actions)
    if not words_of(text):
        raise Fault("the packet is empty: it is given as a flow, as priority=10,tcp,tp_dst=80, or by the bytes of a frame in hex")
    flow, command = read_flow(text), COMMANDS[command or DEFAULT_COMMAND]
    if is_packet:
        return packet_out_of_fields(flow, read_actions(one_text(actions, flow.actions)))
    if command in DELETES and actions is None and flow.actions is None:
        return flow_mod_of(flow, command, ())
    return flow_mod_of(flow, command, read_actions(one_text(actions, flow.actions)))


def read_packet_out(frame, actions):
    """The PACKET_OUT of a packet that is given by its bytes."""
    port = value_of("in_port", frame["port"] or Port.NONE.name)
    if port is None:
        raise Fault(f"in_port={frame['port']} is no port")
    return packet_out_of(port, bytes.fromhex(frame["bytes"]), read_actions(one_text(actions, frame["actions"])))


def packet_out_of_fields(flow, actions):
    """The PACKET_OUT of a packet that is given by its fields; what isn't said of it is 0, and it comes in by no port."""
    if flow.settings or flow.flags:
        raise Fault(f"{', '.join((*flow.settings, *sorted(flow.flags)))}: of a flow, not of a packet")
    fields = EMPTY | {"in_port": Port.NONE.value} | {name: value for name, (value, _mask) in flow.fields.items()}
    if any(constraint != whole({name: constraint[0]})[name] for name, constraint in flow.fields.items()):
        raise Fault("a packet has one address, not a network")
    header = Header(**fields)
    return packet_out_of(header.in_port, frame_of(header), actions)


def one_text(*texts):
    """The one of some texts that there is."""
    given = [text for text in texts if text is not None]
    if len(given) != 1:
        raise Fault("the actions stand twice" if given else "there are no actions: drop says so")
    return given[0]
