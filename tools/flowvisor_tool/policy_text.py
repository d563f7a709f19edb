"""The text of a policy, read with all that is wrong in it, each with its place.

A policy has a fault here exactly where `flowvisor check` refuses it.
"""
import difflib
import functools
from dataclasses import dataclass, field

from .acceptance import MOST_SLICES, acceptance_faults
from .faults import Fault
from .fields import BITS, NEEDS
from .files import named
from .policy import Finding, Pattern, Policy, Rule, Slice, Swap
from .policy_forms import (
    HIGHEST_VERSION, PORT_FORMS, PORT_REQUIRED, RULE_FORMS, RULE_REQUIRED, SLICE_FORMS, SLICE_REQUIRED, constraint, number,
    read_names, top_keys,
)
from .toml_reader import Document, Position, read_document

LARGEST_FILE = 1 << 20


@dataclass
class PolicyReading:
    """A policy that was read: all that is wrong with it, and of it what is well formed."""

    document: Document
    policy: Policy
    faults: list[Finding] = field(default_factory=list)


@functools.cache
def alike(name, names):
    """A hint at a name that this one may have been meant to be."""
    close = difflib.get_close_matches(name, names, n=1)
    return f"; is {close[0]} meant?" if close else ""


def text_under(table, key):
    """The text under a key of a table; None where there is none."""
    node = table.content.get(key)
    return node.content if node and isinstance(node.content, str) else None


class PolicyReader:
    """Reads the tables of a document, and notes what is wrong with them."""

    def __init__(self, document, highest=HIGHEST_VERSION):
        self.document, self.highest = document, highest
        self.faults = [self.finding(fault.offset, f"not TOML: {fault.text}") for fault in document.faults]
        # Texts under `name` that aren't the name of a slice for a fault of their own: a rule may name one.
        self.improper_names = {name for table in document.stray if (name := text_under(table, "name")) is not None}

    def finding(self, offset, told):
        return Finding(self.document.position(offset), told)

    def fault(self, offset, told):
        self.faults.append(self.finding(offset, told))

    def read(self):
        """The policy, with its faults."""
        top = self.document.root
        version = self.version(top)
        self.top_keys(top, version)
        slice_tables, rule_tables = self.tables(top, "slice"), self.tables(top, "rule")
        port_tables = self.tables(top, "port") if "port" in top_keys(version) else None
        if slice_tables == []:
            self.fault(top.content["slice"].start, "slice is empty, but there must be at least one slice")
        slices = tuple(self.slice(slot, table) for slot, table in enumerate(slice_tables or ()))
        rules = [self.rule(index, table) for index, table in enumerate(rule_tables or ())]
        swaps = tuple(self.swap(index, table) for index, table in enumerate(port_tables or ()))
        policy = Policy(slices, tuple(rule for rule in rules if rule.pattern is not None), swaps)
        if slice_tables is not None:
            self.names(slices, rule_tables or (), port_tables or ())
        self.faults += acceptance_faults(slices, rules, swaps)
        return PolicyReading(self.document, policy, sorted(self.faults))

    def version(self, top):
        """The version; the highest where it is missing or none."""
        node = top.content.get("version")
        if node is None:
            if not self.document.faults:
                self.fault(0, "version is missing: a policy has the line version = 1")
            return self.highest
        version = number(1, self.highest).read(node.content)
        if version is None:
            versions = " or ".join(map(str, range(1, self.highest + 1)))
            self.fault(node.start, f"version is {self.document.source(node)}, but must be {versions}")
        return version or self.highest

    def top_keys(self, top, version):
        """Tables that must be there, and keys that a policy of the version doesn't have."""
        if "slice" not in top.content and not self.document.faults:
            self.fault(0, "slice is missing: a policy has at least one table [[slice]]")
        known = top_keys(version)
        if "port" in top.content and "port" in top_keys(self.highest) and "port" not in known:
            self.fault(top.content["port"].key_start, "a policy has no key port; with version = 2 it may have")
            known += ("port",)
        self.unknown_keys(top, known, "a policy")

    def unknown_keys(self, table, known, owner):
        for key, node in table.content.items():
            if key not in known:
                self.fault(node.key_start, f"{owner} has no key {key}{alike(key, tuple(known))}")

    def tables(self, top, key):
        """The tables of an array of tables; None where the key isn't there or has another value."""
        node = top.content.get(key)
        if node is None:
            return None
        is_tables = isinstance(node.content, list) and all(isinstance(item.content, dict) for item in node.content)
        if not is_tables:
            self.fault(node.start, f"{key} must be tables, each under a header [[{key}]] with two brackets")
            return None
        return node.content

    def values(self, table, forms, required, owner):
        """The values of a table that have their form."""
        self.unknown_keys(table, forms, owner)
        found = {}
        for key, form in forms.items():
            node = table.content.get(key)
            if node is None:
                if key in required and not table.is_damaged:
                    self.fault(table.start, f"{owner} has no {key}: it is {form.expected}")
                continue
            value = form.read(node.content)
            if value is None:
                told = f"{owner}: {key} is {self.document.source(node)}, but must be {form.expected}"
                self.fault(node.start, told)
            else:
                found[key] = value
        return found

    def place(self, table, key):
        """Where the value of a key stands, if the table has it."""
        node = table.content.get(key)
        return self.document.position(node.start) if node else None

    def slice(self, slot, table):
        values = self.values(table, SLICE_FORMS, SLICE_REQUIRED, f"slice {slot}")
        name = text_under(table, "name")
        if name is not None and "name" not in values:
            self.improper_names.add(name)
        return Slice(
            slot,
            values.get("name"),
            values.get("controller"),
            self.document.position(table.start),
            self.place(table, "name"),
            self.place(table, "controller"),
        )

    def rule(self, index, table):
        """A rule; its pattern is None where what it has of fields isn't well formed."""
        values = self.values(table, RULE_FORMS, RULE_REQUIRED, f"rule {index}")
        given = [name for name in BITS if name in table.content]
        has_needs = self.has_needs(index, table, values)
        has_forms = table.content.keys() & {"write", "switch", *given} <= values.keys() and "priority" in values
        is_sound = has_needs and has_forms and not table.is_damaged
        switch = int(values["switch"], 16) if "switch" in values else None
        constraints = {name: constraint(name, values[name]) for name in given if name in values}
        return Rule(
            index,
            self.document.position(table.start),
            values.get("priority", 0),
            Pattern(constraints, switch) if is_sound else None,
            values.get("write"),
            values.get("read", ()),
            {name: self.document.source(table.content[name]) for name in given},
        )

    def swap(self, index, table):
        """A port table; the names of slices are looked up later."""
        values = self.values(table, PORT_FORMS, PORT_REQUIRED, f"port {index}")
        is_sound = values.keys() >= {*PORT_REQUIRED} and ("switch" in values or "switch" not in table.content)
        switch = int(values["switch"], 16) if "switch" in values else None
        shown, physical = (values["shown"], values["physical"]) if is_sound else (None, None)
        return Swap(index, self.document.position(table.start), values.get("slice"), switch, shown, physical)

    def has_needs(self, index, table, values):
        """Whether each field has what it needs beside it; one that needs a field that has a fault isn't reported."""
        has_all = True
        for name, needs in NEEDS.items():
            if name not in table.content:
                continue
            for need in needs:
                node = table.content.get(need.name)
                if values.get(need.name) in need.values:
                    continue
                has_all = False
                if node is None or need.name in values:
                    state = "is missing" if node is None else f"is {self.document.source(node)}"
                    told = f"rule {index}: {name} needs {need.name} {need.text} beside it, but {need.name} {state}"
                    self.fault(table.content[name].key_start, told)
                break
        return has_all

    def names(self, slices, rule_tables, port_tables):
        """The names under `write` and `read`, and under `slice` in a port table."""
        known = {one.name for one in slices} - {None}
        hints = tuple(sorted(known))[:MOST_SLICES]
        for index, table in enumerate(rule_tables):
            writer, read = table.content.get("write"), table.content.get("read")
            readers = read.content if read and read_names(read.content) is not None else []
            self.repeated_names(index, writer, readers)
            for node in [writer, *readers] if writer else readers:
                self.known_name(f"rule {index}", node, known, hints)
        for index, table in enumerate(port_tables):
            if "slice" in table.content:
                self.known_name(f"port {index}", table.content["slice"], known, hints)

    def known_name(self, owner, node, known, hints):
        """A name that must be a slice's."""
        if isinstance(node.content, str) and node.content not in known and node.content not in self.improper_names:
            self.fault(node.start, f"{owner}: {self.document.source(node)} is no slice's name{alike(node.content, hints)}")

    def repeated_names(self, index, writer, readers):
        """Readers that stand twice, or under `write` too."""
        seen = set()
        for node in readers:
            told = f"rule {index}: {self.document.source(node)} stands"
            if node.content in seen:
                self.fault(node.start, f"{told} twice under read")
            elif writer and writer.content == node.content:
                self.fault(node.start, f"{told} under write too; it reads what it writes anyway")
            seen.add(node.content)


def faulty(told, position=Position(1, 1)):
    """A reading of which nothing but one fault is known."""
    return PolicyReading(read_document(""), Policy((), ()), [Finding(position, told)])


def read_policy(data, highest=HIGHEST_VERSION):
    """The policy that a file's bytes are, of a version up to the highest, with all faults."""
    if len(data) > LARGEST_FILE:
        return faulty(f"the file has {len(data)} bytes, but may have at most {LARGEST_FILE}")
    try:
        source = data.decode()
    except UnicodeDecodeError as error:
        before = data[: error.start].decode()
        line_start = before.rfind("\n") + 1
        position = Position(before.count("\n") + 1, len(before) - line_start + 1)
        return faulty("not TOML: a byte that isn't UTF-8", position)
    return PolicyReader(read_document(source), highest).read()


def read_policy_file(path):
    with open(path, "rb") as file, named(path):
        return read_policy(file.read())


def accepted_policy(path):
    """The policy in a file. Of one that has faults no more is said: lint does that."""
    reading = read_policy_file(path)
    if reading.faults:
        raise Fault("it isn't accepted: flowvisor-tool lint prints why", path)
    return reading.policy
