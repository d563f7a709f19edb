"""The text of a policy, as `flowvisor flatten` prints it. All of it is this proxy's own rule."""
from flowvisor_tool.fields import BITS, HARDWARE_FIELDS, NETWORK_FIELDS

from .policy_file import DEFAULTS


def policy_lines(policy):
    """The lines: the version, the slices, the rules and the port tables, each under its header."""
    yield f"version = {2 if policy.swaps else 1}"
    for one in policy.slices:
        yield from ("", "[[slice]]", f"name = {spelled_text(one.name)}", f"controller = {spelled_text(one.controller)}")
        yield from (f"{key} = {getattr(one, key)}" for key, default in DEFAULTS.items() if getattr(one, key) != default)
    for rule in policy.rules:
        yield from ("", "[[rule]]", *rule_lines(rule, [one.name for one in policy.slices]))
    for swap in policy.swaps:
        yield from ("", "[[port]]", *port_lines(swap, policy.slices[swap.slot].name))


def rule_lines(rule, names):
    if rule.switch is not None:
        yield f'switch = "{rule.switch:016x}"'
    yield f"priority = {rule.priority}"
    if rule.writer is not None:
        yield f'write = "{names[rule.writer]}"'
    if rule.readers:
        yield f"read = [{', '.join(spelled_text(names[slot]) for slot in rule.readers)}]"
    for name in BITS:
        value, mask = rule.match.constraint(name)
        if mask:
            yield f"{name} = {spelled_value(name, value, mask)}"


def port_lines(swap, name):
    yield f"slice = {spelled_text(name)}"
    if swap.switch is not None:
        yield f'switch = "{swap.switch:016x}"'
    yield from (f"shown = {swap.shown}", f"physical = {swap.physical}")


def spelled_value(name, value, mask):
    if name in HARDWARE_FIELDS:
        return spelled_text(value.to_bytes(6).hex(":"))
    if name in NETWORK_FIELDS:
        address = ".".join(map(str, value.to_bytes(4)))
        length = mask.bit_count()
        return spelled_text(address if length == 32 else f"{address}/{length}")
    return str(value)


def spelled_text(text):
    """A text between quotes; one that needs escapes may be written in other ways too."""
    escaped = "".join(f"\\u{ord(one):04x}" if ord(one) < 32 or ord(one) == 127 else one for one in text.replace("\\", "\\\\").replace('"', '\\"'))
    return f'"{escaped}"'
