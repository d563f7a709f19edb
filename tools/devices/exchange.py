"""The traffic of those to whom nothing is done: numbered, both ways, and looked at."""

import asyncio
import contextlib

from devices.messages import echo_request, numbered_flow_mod, numbered_packet_in
from devices.numbers import Numbers

TICK = 0.01
# For how many seconds turns may be made up for at once, and what was sent may be under way at the end.
MOST_OWED = 0.1
SETTLING = 60
# The least share of the turns that there are to be, where the machine lets some run too late.
LEAST_SHARE = 0.5


async def ended(task):
    """Waits for a task that was cancelled. What it was ended by before goes on from here."""
    with contextlib.suppress(asyncio.CancelledError):
        await task


class Exchange:
    """What goes between a switch and the controller of one slice."""

    def __init__(self, switch, slot, link):
        self.switch, self.slot = switch, slot
        self.name = f"slot {slot} of switch {switch.datapath}"
        self.packets = Numbers(f"packet-ins to {self.name}")
        self.mods = Numbers(f"flow-mods of {self.name}")
        self.echoes = Numbers(f"echoes of {self.name}")
        self.link = None
        switch.exchanges[slot] = self
        self.begin(link)

    def begin(self, link):
        self.link = link
        link.exchange = self

    def leave(self):
        """The controller closes its link; what is under way may be lost."""
        self.link.exchange = None
        self.link.transport.close()
        self.link = None
        for numbers in self.all_numbers:
            numbers.renew()

    @property
    def all_numbers(self):
        return self.packets, self.mods, self.echoes

    def hear_flow_mod(self, number):
        self.mods.take(number)

    def turn(self):
        """A packet-in, a flow-mod and an echo of each, where there is a link."""
        if self.link is None or self.link.is_closed or self.switch.is_closed:
            return
        number = self.switch.echoes.next()
        self.switch.send(numbered_packet_in(self.slot, self.packets.next()) + echo_request(number))
        self.link.send(numbered_flow_mod(self.slot, self.mods.next()) + echo_request(self.echoes.next()))

    @property
    def is_settled(self):
        return self.link is None or all(numbers.is_settled for numbers in self.all_numbers)

    def link_faults(self):
        found = []
        if self.link is not None and self.link.is_closed:
            found.append(f"the link of {self.name} was closed")
        if self.link is not None and self.link.errors:
            found.append(f"{self.link.errors} errors came to {self.name}")
        return found

    def order_faults(self):
        return [fault for numbers in self.all_numbers for fault in numbers.faults] + self.link_faults()

    def faults(self):
        return [fault for numbers in self.all_numbers for fault in numbers.all_faults()] + self.link_faults()


class Traffic:
    """Exchanges that have their turns one after another, so many turns a second, from `async with` on until its end,
    when all that was sent has a while to come."""

    def __init__(self, exchanges, turns_per_second):
        self.exchanges = exchanges
        self.switches = list({id(each.switch): each.switch for each in exchanges}.values())
        self.rate = turns_per_second
        self.turns, self.wanted, self.seconds = 0, 0.0, 0.0
        self.task = None
        self.found = []

    async def __aenter__(self):
        self.task = asyncio.create_task(self.run())
        return self

    async def __aexit__(self, *_):
        self.task.cancel()
        await ended(self.task)
        await self.settle()
        self.found = self.faults()

    async def run(self):
        loop = asyncio.get_running_loop()
        last, owed, place = loop.time(), 0.0, 0
        while True:
            await asyncio.sleep(TICK)
            now = loop.time()
            # Where the machine lets this run too late, what is owed is given up.
            owed = min(owed + (now - last) * self.rate, self.rate * MOST_OWED)
            self.wanted += (now - last) * self.rate
            self.seconds += now - last
            last = now
            for _ in range(int(owed)):
                self.exchanges[place % len(self.exchanges)].turn()
                place += 1
                self.turns += 1
            owed -= int(owed)

    async def settle(self):
        for _ in range(SETTLING * 20):
            if all(each.is_settled for each in self.exchanges) and all(s.echoes.is_settled for s in self.switches):
                return
            await asyncio.sleep(0.05)

    def order_faults(self):
        """What came out of its order up to now, and the links that were closed."""
        found = [fault for each in self.exchanges for fault in each.order_faults()]
        return found + [fault for switch in self.switches for fault in switch.echoes.faults]

    def faults(self):
        found = [fault for each in self.exchanges for fault in each.faults()]
        for switch in self.switches:
            found += switch.echoes.all_faults()
            if switch.is_closed:
                found.append(f"the connection of switch {switch.datapath} was closed")
        if self.turns < LEAST_SHARE * self.wanted:
            found.append(f"there were {self.turns:,} turns, and not {self.wanted:,.0f}")
        return found

    def told(self):
        """How much came."""
        packets = sum(each.packets.whole for each in self.exchanges)
        mods = sum(each.mods.whole for each in self.exchanges)
        echoes = sum(each.echoes.whole for each in self.exchanges) + sum(s.echoes.whole for s in self.switches)
        loss = "none lost, none doubled" if not self.found else f"{len(self.found)} FAULTS"
        rate = self.turns / max(1, self.seconds)
        came = f"{packets:,} packet-ins, {mods:,} flow-mods and {echoes:,} echoes came"
        return f"of the others, at {rate:,.0f} turns a second, {came}, {loss}"
