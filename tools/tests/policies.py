"""Policies drawn from a seed: mostly well formed, spelled in many ways, and with a mistake here and there."""
import random

import running  # noqa: F401  (puts tools/ on the path)

from flowvisor_tool.fields import BITS

NAMES = ["alice", "bob", "carol", "dave"]
ADDRESSES = ["10.0.0.1", "10.0.0.0/8", "10.1.0.0/16", "10.1.2.3/24", "192.168.0.1/32", "0.0.0.0/1"]
GOOD = {
    "name": NAMES,
    "controller": ["127.0.0.1:6633", "c1:6653", "[fd00::5]:6633", "x"],
    "rate": [1, 1000, 1000000],
    "burst": [1, 50, 1000000],
    "quota": [0, 1024, 4096],
    "switch": ["00000000000000a1", "00000000000000b2", "ffffffffffffffff"],
    "priority": [0, 1, 2, 100, 4294967295],
    "in_port": [0, 1, 2, 65280, 65534],
    "dl_src": ["00:11:22:33:44:55", "ff:ff:ff:ff:ff:ff"],
    "dl_dst": ["00:11:22:33:44:55", "00:00:00:00:00:01"],
    "dl_vlan": [0, 10, 4095, 65535],
    "dl_vlan_pcp": [0, 7],
    "dl_type": [0x0800, 0x0800, 0x0800, 0x0806, 0x88CC],
    "nw_tos": [0, 4, 252],
    "nw_proto": [1, 6, 6, 17, 47],
    "nw_src": ADDRESSES,
    "nw_dst": ADDRESSES,
    "tp_src": [0, 80, 65535],
    "tp_dst": [22, 80, 443],
}
# What no key may have, some may not, or only just may.
EDGES = [
    *(-1, 0, 1, 3, 8, 253, 256, 4096, 65281, 65535, 65536, 1000001, 4294967296, 1 << 63),
    *("", "a", "A" * 32, "a" * 32, "a" * 33),
    *("é", "00:11:22:33:44:5G", "00:11:22:33:44:AA", "10.0.0", "10.0.0.256", "10.0.0.01", "10.0.0.1/0", "10.0.0.1/33", "10.0.0.1/08"),
    *("1.2.3.4/", " 1.2.3.4", "x" * 255, "x" * 256, "é" * 128, "00000000000000A1", "zed"),
    *(True, 1.0, [], ["bob"], [1], {}, {"a": 1}),
]
PIECES = [
    *('"', "'", "[", "]", "{", "}", ",", "=", ".", "#", "\n", "\r\n", "\r", "\t", " ", "0", "1", "_", "-", "\\", "\\u0061"),
    *("\\x62", "\\e", '"""', "'''", "0x", "true", "1.5", "1979-05-27", "07:32:00", "priority = 3\n", "[[rule]]\n", "[[slice]]\n"),
    *("[rule]\n", "[slice.x]\n", "\ufeff", "\x00", "\x7f", "é", 'write = "alice"\n', "read = []\n", "a.b = 1\n", "# note\n", "= 1"),
]


class PolicyMaker:
    """Draws policies."""

    def __init__(self, seed):
        self.draw = random.Random(seed)

    def chance(self, one_in):
        return self.draw.randrange(one_in) == 0

    def spelled(self, value):
        """A value in one of the ways in which TOML can write it."""
        match value:
            case bool() | float():
                return str(value).lower()
            case int() if value >= 0 and self.chance(4):
                return self.draw.choice([hex(value), oct(value), bin(value), f"+{value}", f"{value:_}"])
            case int():
                return str(value)
            case list():
                ending = self.draw.choice(["", "", ",", "\n # end\n"]) if value else ""
                return "[" + ", ".join(map(self.spelled, value)) + ending + "]"
            case dict():
                return "{" + ", ".join(f"{key} = {self.spelled(item)}" for key, item in value.items()) + "}"
        return self.spelled_text(value)

    def spelled_text(self, value):
        if value and self.chance(60):
            code = ord(value[0])
            return self.draw.choice([f'"\\U{code:08x}{value[1:]}"', f'"\\x{code:02x}{value[1:]}"'])
        if self.chance(10):
            return self.draw.choice([f"'{value}'", f'"""{value}"""', f"'''\n{value}'''", '"""\\\n   ' + value + '"""'])
        return f'"{value}"'

    def slice(self, slot):
        table = {"name": NAMES[slot], "controller": self.draw.choice(GOOD["controller"])}
        table |= {key: self.draw.choice(GOOD[key]) for key in ("rate", "burst", "quota") if self.chance(4)}
        return self.damaged(table)

    def rule(self, names):
        table = {"priority": self.draw.choice(GOOD["priority"])}
        if self.chance(3):
            table["switch"] = self.draw.choice(GOOD["switch"])
        if not self.chance(4):
            table["write"] = self.draw.choice(names)
        if self.chance(3):
            table["read"] = self.draw.sample(names, self.draw.randrange(len(names) + 1))
        for name in self.draw.sample(list(BITS), self.draw.choice([0, 1, 2, 3, 6, 12])):
            self.add_field(table, name)
        return self.damaged(table)

    def add_field(self, table, name):
        """A field, mostly with what it needs."""
        if not self.chance(12):
            if name.startswith(("nw_", "tp_")):
                table.setdefault("dl_type", 0x0800)
            if name.startswith("tp_"):
                table.setdefault("nw_proto", 6)
            if name == "dl_vlan_pcp":
                table.setdefault("dl_vlan", 10)
        table.setdefault(name, self.draw.choice(GOOD[name]))

    def damaged(self, table):
        """Rarely a key less, a key more, or a value of another kind."""
        if self.chance(25) and table:
            del table[self.draw.choice(list(table))]
        if self.chance(40):
            table[self.draw.choice(["zz", "nam", "prio rity", "é"])] = 1
        if self.chance(15) and table:
            table[self.draw.choice(list(table))] = self.draw.choice(EDGES)
        return table

    def lines(self, table):
        for key, value in self.draw.sample(list(table.items()), len(table)):
            bare = key.replace("_", "").isascii() and " " not in key and not self.chance(12)
            yield f"{key if bare else self.draw.choice([repr(key), chr(34) + key + chr(34)])} = {self.spelled(value)}"

    def tables(self, key, tables):
        """Tables under headers, or rarely in braces."""
        if self.chance(12):
            inner = [self.draw.choice(["{%s}", "{ %s }", "{\n%s, }"]) % ", ".join(self.lines(table)) for table in tables]
            return [f"{key} = [{', '.join(inner)}]"]
        return [line for table in tables for line in ("", f"[[{key}]]", *self.lines(table))]

    def policy(self):
        """The bytes of a policy."""
        count = self.draw.choice([1, 2, 2, 3, 4])
        slices = [self.slice(slot) for slot in range(count)]
        names = [*NAMES[:count], *(["zed"] if self.chance(30) else [])]
        rules = [self.rule(names) for _ in range(self.draw.choice([0, 1, 1, 2, 2, 3, 5]))]
        parts = [["version = 1"], self.tables("rule", rules), self.tables("slice", slices)]
        parts[1:] = parts[:0:-1] if self.chance(2) else parts[1:]
        text = self.draw.choice(["\n"] * 6 + ["\r\n"]).join(line for part in parts for line in part) + "\n"
        if self.chance(3):
            text = self.mutated(text)
        return text.encode()

    def mutated(self, text):
        """A text with one to three changes."""
        for _ in range(self.draw.randint(1, 3)):
            at = self.draw.randrange(len(text) + 1)
            lines = text.split("\n")
            place = self.draw.randrange(len(lines))
            match self.draw.randrange(4):
                case 0:
                    text = text[:at] + self.draw.choice(PIECES) + text[at:]
                case 1:
                    text = text[:at] + text[at + self.draw.choice([1, 1, 2, 5]) :]
                case 2:
                    lines.insert(self.draw.randrange(len(lines)), lines[place])
                    text = "\n".join(lines)
                case 3:
                    del lines[place]
                    text = "\n".join(lines)
        return text
