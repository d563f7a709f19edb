"""Which actions a slice may send, and what becomes of FLOOD and ALL (this proxy's own rule; for the ports see OpenFlow
1.0.0, section 5.2.1)."""
from dataclasses import dataclass

from flowvisor_tool.fields import Header
from flowvisor_tool.openflow.protocol import ActionType, Port

from .actions import spelled_actions
from .errors import ACTION_ARGUMENT, ACTION_NOT_PERMITTED, ACTION_PORT, TOO_MANY_ACTIONS, Refused
from .matches import Match
from .rewriting import rewritten_header, rewritten_match

LARGEST_VLAN, LARGEST_PCP = 4095, 7
LARGEST_LIST = 65_463
OUTPUTS = (ActionType.OUTPUT, ActionType.ENQUEUE)
# Outputs where the port of entry counts.
WITH_IN_PORT = (Port.CONTROLLER, Port.TABLE)


@dataclass(frozen=True)
class PieceOrigin:
    """The packets of an entry: each cover of what the actions have made of them must lie in one rule."""

    match: Match
    ports = (Port.IN_PORT, Port.CONTROLLER, Port.FLOOD, Port.ALL)

    def after(self, action):
        return PieceOrigin(rewritten_match(self.match, action))

    def may_come_back(self, settings):
        return True

    def is_own(self, settings, port):
        return settings.owns(self.match) if port in WITH_IN_PORT else settings.owns_aside(self.match)


@dataclass(frozen=True)
class PacketOrigin:
    """One packet: its header, as the actions have made it, must lie in a rule."""

    header: Header
    ports = (*PieceOrigin.ports, Port.TABLE)

    def after(self, action):
        return PacketOrigin(rewritten_header(self.header, action))

    def may_come_back(self, settings):
        return settings.has_port(self.header.in_port)

    def is_own(self, settings, port):
        if port in WITH_IN_PORT:
            return settings.writes_header(self.header)
        return settings.writes_header_aside(self.header)


@dataclass(frozen=True)
class ProbeOrigin:
    """A packet that is marked as the slice's: it may be sent anywhere by its ports, as it is."""

    in_port: int
    ports = (Port.IN_PORT, Port.FLOOD, Port.ALL)

    def after(self, action):
        return self

    def may_come_back(self, settings):
        return settings.has_port(self.in_port)

    def is_own(self, settings, port):
        return True


def refuse_action(settings, origin, action):
    """The tests of one action on what those before it have made of the packets."""
    kind, value = action.kind, action.value
    if kind == ActionType.SET_VLAN_VID and value > LARGEST_VLAN or kind == ActionType.SET_VLAN_PCP and value > LARGEST_PCP:
        raise Refused(ACTION_ARGUMENT)
    if kind in OUTPUTS:
        if not is_port_permitted(settings, origin, action):
            raise Refused(ACTION_PORT)
        if not origin.is_own(settings, value):
            raise Refused(ACTION_NOT_PERMITTED)
    elif isinstance(origin, ProbeOrigin):
        raise Refused(ACTION_NOT_PERMITTED)


def is_port_permitted(settings, origin, action):
    """Whether an output may name its port."""
    ports = origin.ports if action.kind == ActionType.OUTPUT else (Port.IN_PORT,)
    if action.value == Port.IN_PORT:
        return origin.may_come_back(settings)
    return settings.has_port(action.value) or action.value in ports


def expanded(action, flood, every):
    """An action, and for FLOOD and ALL the outputs to the slice's ports in their place."""
    ports = {Port.FLOOD: flood, Port.ALL: every}.get(action.value)
    if action.kind != ActionType.OUTPUT or ports is None:
        return [action]
    return [action._replace(value=port) for port in ports]


def permitted(settings, origin, actions, flood, every):
    """The list that is sent in the place of one of a slice's; the first action that is forbidden refuses it."""
    sent = []
    for action in actions:
        refuse_action(settings, origin, action)
        sent += expanded(action, flood, every)
        origin = origin.after(action)
    return tuple(sent)


def refuse_long_list(actions):
    if len(spelled_actions(actions)) > LARGEST_LIST:
        raise Refused(TOO_MANY_ACTIONS)
