"""The text of a policy, read up to its first fault, in the order and in the words of `flowvisor check`.

The forms of values, and TOML, are read by flowvisor-tool's modules; which fault comes first is this proxy's own rule.
"""
from flowvisor_tool.acceptance import MOST_PORTS, MOST_RULES, MOST_SLICES, MOST_WRITE_RULES
from flowvisor_tool.fields import BITS, NEEDS
from flowvisor_tool.policy_forms import (
    HIGHEST_VERSION, PORT_FORMS, PORT_REQUIRED, RULE_FORMS, RULE_REQUIRED, SLICE_FORMS, SLICE_REQUIRED, constraint, number,
    top_keys,
)
from flowvisor_tool.toml_reader import read_document

from .matches import Match
from .policy import Policy, Rule, Slice, Swap, in_order

DEFAULTS = {"rate": 1000, "burst": 1000, "quota": 1024}


class PolicyRefused(Exception):
    """A policy that isn't one: its text says why."""


def read_policy(data, highest=HIGHEST_VERSION):
    """The policy that a file's bytes are, of a version up to the highest."""
    top = read_top(data, highest)
    slice_tables, rule_tables, port_tables = tables_of(top)
    slices = [read_slice(slot, table) for slot, table in enumerate(slice_tables)]
    names = [one.name for one in slices]
    rules = [read_rule(place, table, names) for place, table in enumerate(rule_tables)]
    swaps = [read_swap(place, table, names) for place, table in enumerate(port_tables)]
    policy = Policy(tuple(slices), tuple(rules), tuple(swaps))
    refuse_unaccepted(policy)
    return policy


def read_top(data, highest):
    """The top table, with its version right and no key that it can't have."""
    try:
        document = read_document(data.decode())
    except UnicodeDecodeError:
        raise PolicyRefused("not TOML") from None
    if document.faults:
        raise PolicyRefused("not TOML")
    top = document.root.content
    if "version" not in top:
        raise PolicyRefused("missing version")
    version = number(1, highest).read(top["version"].content)
    if version is None:
        raise PolicyRefused("bad value version")
    refuse_unknown_keys(top, top_keys(version), "")
    return top


def refuse_unknown_keys(table, known, place):
    """Tells of the least key that isn't known, by its bytes."""
    unknown = sorted((key for key in table if key not in known), key=str.encode)
    if unknown:
        raise PolicyRefused(f"unknown key {place}{unknown[0]}")


def is_tables(node):
    """Whether a value is an array of tables."""
    return isinstance(node.content, list) and all(isinstance(item.content, dict) for item in node.content)


def tables_of(top):
    """The tables of the slices, of which there is one at least, those of the rules, and the port tables."""
    if "slice" not in top:
        raise PolicyRefused("missing slice")
    if not is_tables(top["slice"]) or not top["slice"].content:
        raise PolicyRefused("bad value slice")
    return top["slice"].content, *(optional_tables(top, key) for key in ("rule", "port"))


def optional_tables(top, key):
    if key not in top:
        return []
    if not is_tables(top[key]):
        raise PolicyRefused(f"bad value {key}")
    return top[key].content


def values_of(table, forms, required, place):
    """The values of a table's keys, each of its form."""
    refuse_unknown_keys(table.content, forms, place)
    values = {}
    for key, form in forms.items():
        if key not in table.content:
            if key in required:
                raise PolicyRefused(f"missing {place}{key}")
            continue
        values[key] = form.read(table.content[key].content)
        if values[key] is None:
            raise PolicyRefused(f"bad value {place}{key}")
    return values


def read_slice(slot, table):
    values = DEFAULTS | values_of(table, SLICE_FORMS, SLICE_REQUIRED, f"slice.{slot}.")
    return Slice(**{key: values[key] for key in SLICE_FORMS})


def read_rule(place, table, names):
    values = values_of(table, RULE_FORMS, RULE_REQUIRED, f"rule.{place}.")
    named, readers = [values["write"]] if "write" in values else [], values.get("read", ())
    if not {*named, *readers} <= {*names}:
        raise PolicyRefused(f"rule {place} names no slice")
    if len({*readers}) < len(readers):
        raise PolicyRefused(f"rule {place} improper read")
    refuse_unmet_needs(place, values)
    constraints = {name: constraint(name, values[name]) for name in BITS if name in values}
    switch = int(values["switch"], 16) if "switch" in values else None
    writer = names.index(values["write"]) if named else None
    slots = tuple(names.index(name) for name in readers)
    return Rule(place, switch, values["priority"], Match.of(constraints), writer, slots)


def read_swap(place, table, names):
    values = values_of(table, PORT_FORMS, PORT_REQUIRED, f"port.{place}.")
    if values["slice"] not in names:
        raise PolicyRefused(f"port {place} names no slice")
    switch = int(values["switch"], 16) if "switch" in values else None
    return Swap(names.index(values["slice"]), switch, values["shown"], values["physical"])


def refuse_unmet_needs(place, values):
    """Tells of the first field that lacks what it needs beside it."""
    for name in BITS:
        if name in values and any(values.get(need.name) not in need.values for need in NEEDS.get(name, ())):
            raise PolicyRefused(f"rule {place} improper {name}")


def refuse_unaccepted(policy):
    """Tells what keeps well-formed slices, rules and swaps from being a policy."""
    slices, rules = policy.slices, policy.rules
    if len(slices) > MOST_SLICES:
        raise PolicyRefused(f"too many slices {len(slices)}")
    if len(rules) > MOST_RULES:
        raise PolicyRefused(f"too many rules {len(rules)}")
    names = [one.name for one in slices]
    for slot, name in enumerate(names):
        if name in names[:slot]:
            raise PolicyRefused(f"slice {slot} is a duplicate")
    for rule in rules:
        if rule.writer in rule.readers:
            raise PolicyRefused(f"rule {rule.place} improper read")
    for slot in range(len(slices)):
        count = sum(rule.writer == slot for rule in rules)
        if count > MOST_WRITE_RULES:
            raise PolicyRefused(f"too many write rules {count}")
    refuse_overlaps(in_order(rules))
    refuse_swaps(policy.swaps)


def refuse_swaps(swaps):
    if len(swaps) > MOST_PORTS:
        raise PolicyRefused(f"too many ports {len(swaps)}")
    for place, swap in enumerate(swaps):
        if any(swap.shares_a_number(earlier) for earlier in swaps[:place]):
            raise PolicyRefused(f"port {place} is named twice")


def refuse_overlaps(rules):
    """Tells of the first two rules, in their order, of which the later would take headers from the earlier's slice."""
    for place, later in enumerate(rules):
        if later.writer is None:
            continue
        for earlier in rules[:place]:
            is_of_others = earlier.writer != later.writer and earlier.shares_a_switch(later)
            if is_of_others and earlier.match.meets(later.match):
                raise PolicyRefused(f"rules {earlier.place} and {later.place} overlap")
