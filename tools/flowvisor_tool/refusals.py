"""Why the proxy refuses a flow-mod or a packet-out of a slice: which action, and which rule or port decides."""
from dataclasses import dataclass

from plain_desk.actions import Action, spelled_actions
from plain_desk.errors import ACTION_ARGUMENT, ACTION_PORT, Refused
from plain_desk.messages import FlowMod
from plain_desk.permitted import LARGEST_LIST, LARGEST_PCP, LARGEST_VLAN, WITH_IN_PORT, PacketOrigin, PieceOrigin, ProbeOrigin
from plain_desk.permitted import expanded, refuse_action
from plain_desk.pieces import LARGEST_EXPANSION, pieces
from plain_desk.slice_messages import own_packet
from plain_desk.wire import LARGEST_MESSAGE, is_port

from .fields import BITS, constraint_text, packet_text, set_text, whole
from .frame_header import header_of
from .openflow.actions import actions_text
from .openflow.protocol import ERROR_CODES, ActionType, ErrorType, Port
from .openflow.text import port_of, standard_name_of


@dataclass(frozen=True)
class ForbiddenAction:
    """The first action that is forbidden: its place, what those before it have made of the packets, and the rule of the piece."""

    place: int
    action: Action
    origin: PieceOrigin | PacketOrigin | ProbeOrigin
    error: tuple[int, int]
    rule: object = None


def error_text(family, code):
    """An error by its numbers and its names (OpenFlow 1.0.0, section 5.4.4)."""
    name = standard_name_of(ERROR_CODES[ErrorType(family)], code)
    return f"type {family} ({ErrorType(family).name}), code {code} ({name})"


def reasons(trial):
    """The lines that say why a message was refused, or a deleting one sends nothing; ports are the switch's."""
    if trial.settings.swaps:
        yield "below, ports have the switch's own numbers"
    read = flow_mod_reasons if isinstance(trial.message, FlowMod) else packet_out_reasons
    yield from read(trial)


def flow_mod_reasons(trial):
    parts = piece_rules(trial)
    if not parts:
        yield "no rule that it writes has any of its packets"
        yield from nearest_rule(trial, constraints_in(trial.physical.match), conflicting, "flow")
        return
    forbidden = first_forbidden(trial, [(PieceOrigin(part), rule) for part, rule in parts])
    if forbidden is not None:
        yield from action_reasons(trial, forbidden)
    elif len(parts) > trial.settings.quota:
        yield f"it would have {len(parts)} entries, and its quota is {trial.settings.quota}"
    else:
        yield from size_reasons(trial, len(parts))


def packet_out_reasons(trial):
    message, settings = trial.physical, trial.settings
    if not settings.may_come_from(message.in_port):
        yield f"it comes in by port {port_of(message.in_port)}, which is neither one of its ports nor NONE nor CONTROLLER"
        yield ports_text(trial)
        return
    try:
        origin, _in_port, _data = own_packet(settings, message)
    except Refused:
        yield "no rule that it writes has its packet, the port by which that comes in disregarded"
        header = whole(header_of(message.in_port, message.data)._asdict())
        yield from nearest_rule(trial, header, uncovered_aside, "packet")
        return
    forbidden = first_forbidden(trial, [(origin, None)])
    if forbidden is not None:
        yield from action_reasons(trial, forbidden)
    else:
        yield from size_reasons(trial, 1)


def piece_rules(trial):
    """The pieces of a flow-mod, each with the first rule of which it is one."""
    rules = {}
    for rule, write in zip(trial.writes, trial.settings.writes, strict=True):
        rules.setdefault(write.meet(trial.physical.match), rule)
    return [(part, rules[part]) for part in pieces(trial.settings, trial.physical.match)]


def first_forbidden(trial, origins):
    """The first action that is forbidden, of the pieces in order and in each of the actions in order; or None."""
    for origin, rule in origins:
        for place, action in enumerate(trial.physical.actions, 1):
            try:
                refuse_action(trial.settings, origin, action)
            except Refused as refusal:
                return ForbiddenAction(place, action, origin, refusal.error, rule)
            origin = origin.after(action)
    return None


def action_reasons(trial, forbidden):
    """Why an action is forbidden."""
    piece = f", of the piece by {forbidden.rule}" if forbidden.rule else ""
    yield f"by action {forbidden.place}, {actions_text(forbidden.action.spelled())}{piece}"
    if forbidden.error == ACTION_ARGUMENT:
        is_tag = forbidden.action.kind == ActionType.SET_VLAN_VID
        yield f"a VLAN is at most {LARGEST_VLAN}" if is_tag else f"a VLAN's priority is at most {LARGEST_PCP}"
    elif forbidden.error == ACTION_PORT:
        yield from port_reasons(trial, forbidden)
    elif isinstance(forbidden.origin, ProbeOrigin):
        yield "a probe may only be sent out by ports, as it is"
    else:
        yield from image_reasons(trial, forbidden)


def port_reasons(trial, forbidden):
    """Why an output may not name its port."""
    port, origin = forbidden.action.value, forbidden.origin
    if port == Port.IN_PORT:
        yield f"its packet comes in by port {port_of(in_port_of(origin))}, which isn't one of its ports"
    elif is_port(port):
        yield f"port {port_of(port)} isn't one of its ports"
    elif forbidden.action.kind == ActionType.ENQUEUE:
        yield "only ports of its own, and IN_PORT, have queues that it may name"
    elif port == Port.TABLE and isinstance(origin, PieceOrigin):
        yield "only a packet-out may go through the table"
    elif isinstance(origin, ProbeOrigin):
        yield f"a probe may not go to {port_of(port)}"
    else:
        yield f"no slice may send to {port_of(port)}"
    if is_port(port) or port == Port.IN_PORT:
        yield ports_text(trial)


def in_port_of(origin):
    """The port by which the packet of a packet-out comes in."""
    return origin.in_port if isinstance(origin, ProbeOrigin) else origin.header.in_port


def ports_text(trial):
    """The ports of the slice, and the rules that name them."""
    if not trial.writes:
        return "it has no ports, since it writes no rule on this switch"
    named = {}
    for rule in trial.writes:
        if "in_port" not in rule.pattern.constraints:
            return f"its ports are all that the switch has, by {rule}"
        named.setdefault(rule.pattern.constraints["in_port"][0], rule)
    return "its ports are " + ", ".join(f"{port_of(port)} by {rule}" for port, rule in sorted(named.items()))


def image_reasons(trial, forbidden):
    """Why the packets that an output sends, as the actions before it have made them, may not be sent."""
    origin = forbidden.origin
    if isinstance(origin, PieceOrigin):
        constraints, text = constraints_in(origin.match), set_text(constraints_in(origin.match)) or "any packet"
    else:
        constraints, text = whole(origin.header._asdict()), packet_text(origin.header)
    with_port = forbidden.action.value in WITH_IN_PORT
    aside = "" if with_port else ", the port by which they come in disregarded"
    yield f"no one rule that it writes has all of what is sent: {text}{aside}"
    yield from nearest_rule(trial, constraints, uncovered if with_port else uncovered_aside, "packet")


def constraints_in(match):
    """The fields that a match binds, each with its value and its mask."""
    return {name: match.constraint(name) for name in BITS if not match.is_free(name)}


def conflicting(rule, constraints):
    """The fields of a rule that keep all of some packets out."""
    return [
        name for name, (value, mask) in rule.pattern.constraints.items()
        if name in constraints and (value ^ constraints[name][0]) & mask & constraints[name][1]
    ]


def uncovered(rule, constraints):
    """The fields of a rule that keep some of these packets out."""
    return [
        name for name, (value, mask) in rule.pattern.constraints.items()
        if name not in constraints or mask & ~constraints[name][1] or (value ^ constraints[name][0]) & mask
    ]


def uncovered_aside(rule, constraints):
    """The same, the port of entry disregarded."""
    return [name for name in uncovered(rule, constraints) if name != "in_port"]


def nearest_rule(trial, constraints, missed_by, noun):
    """The rule of the slice that packets miss by the fewest fields, and these."""
    if not trial.writes:
        yield "it writes no rule on this switch"
        return
    rule = min(trial.writes, key=lambda rule: len(missed_by(rule, constraints)))
    yield f"nearest is {rule}"
    for name in missed_by(rule, constraints):
        shown = constraint_text(name, *constraints[name]) if name in constraints else "any"
        yield f"not by {name} = {rule.texts[name]}: the {noun} has {shown}"


def size_reasons(trial, count):
    """Why what would be sent is too large: so many lists of actions, with the slice's ports for FLOOD and ALL."""
    ports = [number for number in sorted(set(trial.site.ports)) if trial.settings.has_port(number) and number != Port.LOCAL]
    actions = [one for action in trial.message.actions for one in expanded(action, ports, ports)]
    size = len(spelled_actions(actions))
    yield f"with its ports in the place of FLOOD and ALL the actions have {size} bytes in each of {count} messages"
    yield f"a list has at most {LARGEST_LIST} bytes, a message {LARGEST_MESSAGE}, and the pieces of a flow-mod {LARGEST_EXPANSION} in all"
