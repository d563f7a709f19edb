"""Pairs of policies drawn from a seed, of which the second divides a slice of the first, mostly as it may."""
import random

import running  # noqa: F401  (puts tools/ on the path)
from policies import GOOD, NAMES

TENANTS = ["erin", "frank", "grace"]
SWITCHES = GOOD["switch"]
# Fields that need no others, but for the port of entry and the VLAN, by which writers differ.
FREE = ("dl_src", "dl_dst")


class DivisionMaker:
    """Draws an outer policy, a name and an inner policy."""

    def __init__(self, seed):
        self.draw = random.Random(seed)

    def chance(self, one_in):
        return self.draw.randrange(one_in) == 0

    def division(self):
        outer, inner = NAMES[: self.draw.randint(1, 4)], TENANTS[: self.draw.randint(1, 3)]
        holder = self.draw.choice(outer) if not self.chance(12) else "nobody"
        if self.chance(8):
            inner = [*inner[1:], self.draw.choice(outer)]
        shares = {} if self.chance(8) else {"rate": 1000 // len(inner), "burst": 1000 // len(inner), "quota": 1024 // len(inner)}
        return self.policy(outer, {}, "in_port", 20), holder, self.policy(inner, shares, "dl_vlan", 15)

    def policy(self, names, shares, field, one_in):
        """A policy in which a field tells the rules of writers apart; one rule of so many is written by nobody."""
        tables = [self.slice(name, shares) for name in names]
        tables += [self.rule(names, field, one_in) for _ in range(self.draw.randint(0, 5))]
        return "\n".join(["version = 1", *(line for table in tables for line in table)]).encode()

    def slice(self, name, shares):
        shares = {key: value + self.chance(20) for key, value in shares.items()}
        return ["[[slice]]", f'name = "{name}"', 'controller = "c:1"', *(f"{key} = {value}" for key, value in shares.items())]

    def rule(self, names, field, one_in):
        yield from ("[[rule]]", f"priority = {self.draw.choice(GOOD['priority'])}")
        slot = len(names) if self.chance(one_in) else self.draw.randrange(len(names))
        if slot < len(names):
            yield f'write = "{names[slot]}"'
        readers = [name for place, name in enumerate(names) if place != slot and self.chance(3)]
        if readers:
            yield f"read = {readers}"
        yield f"{field} = {slot}"
        if self.chance(3):
            yield f'switch = "{self.draw.choice(SWITCHES)}"'
        for name in FREE:
            if self.chance(4):
                yield f'{name} = "{self.draw.choice(GOOD[name])}"'
        if self.chance(2):
            yield from self.network_fields()

    def network_fields(self):
        yield "dl_type = 2048"
        for name in ("nw_src", "nw_dst"):
            if self.chance(2):
                yield f'{name} = "{self.draw.choice(GOOD[name])}"'
        if self.chance(2):
            yield from ("nw_proto = 6", f"tp_dst = {self.draw.choice(GOOD['tp_dst'])}")
