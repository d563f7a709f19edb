"""As many switches and slices as the proxy serves, for as long as is wanted."""

import asyncio
import itertools
import sys
import time

from devices.exchange import Traffic, ended
from devices.outcome import Outcome, expect
from devices.peers import Controller
from devices.site import connect_switch, exchanges_of, site

SWITCHES, SLICES = 16, 32
# The slots from this one on have their links made anew.
RESTLESS = 24
THREADS = SWITCHES * (2 + 2 * SLICES) + 1
PATIENCE = 30
# How many links are made anew each minute, at least.
LEAST_RENEWALS = 30
# The proxy remembers the last requests of each slice, and grows by so many bytes with each until there are as many.
REQUESTS, REQUEST_BYTES = 4_096, 100
ALL_REQUESTS = SWITCHES * SLICES * REQUESTS
# What memory may grow by beside that from the first minute on, in KB.
GROWTH = 4_096


class Renewal:
    """Makes one link after another anew, one each second."""

    def __init__(self, exchanges, controllers):
        self.exchanges, self.controllers = exchanges, controllers
        self.count = 0
        self.faults = []

    async def run(self):
        loop = asyncio.get_running_loop()
        began = loop.time()
        while True:
            await asyncio.sleep(max(0, began + self.count + 1 - loop.time()))
            exchange = self.exchanges[self.count % len(self.exchanges)]
            try:
                await self.renew(exchange)
            except TimeoutError:
                self.faults.append(f"{exchange.name} wasn't dialled again in {PATIENCE} seconds")
                return
            self.count += 1

    async def renew(self, exchange):
        exchange.leave()
        link = await self.controllers[exchange.slot].next_link(PATIENCE)
        is_same = link.datapath == exchange.switch.datapath
        expect(self.faults, is_same, f"{exchange.name}: it was dialled for another switch")
        exchange.begin(link)


class Watch:
    """What the proxy holds, minute by minute."""

    def __init__(self, proxy, traffic, later):
        self.proxy, self.traffic, self.later = proxy, traffic, later
        self.memory, self.threads, self.requests = [], [], []

    def remembered(self):
        """How many requests the proxy remembers at most."""
        return sum(min(REQUESTS, each.mods.whole) for each in self.traffic.exchanges)

    async def run(self, minutes):
        loop = asyncio.get_running_loop()
        began, theirs, ours = loop.time(), self.proxy.processor_seconds, time.process_time()
        for minute in range(minutes + 1):
            await asyncio.sleep(max(0, began + 60 * minute - loop.time()))
            self.memory.append(self.proxy.memory)
            self.threads.append(self.proxy.threads)
            self.requests.append(self.remembered())
            if self.requests[-1] == ALL_REQUESTS:
                self.traffic.rate = self.later
            passed = max(1, loop.time() - began)
            proxy, peers = (self.proxy.processor_seconds - theirs) / passed, (time.process_time() - ours) / passed
            print(
                f"minute {minute}: {self.memory[-1]:,} KB, {self.threads[-1]:,} threads, of a processor {proxy:.2f}, "
                f"the peers {peers:.2f}, {len(self.traffic.order_faults())} faults",
                file=sys.stderr,
                flush=True,
            )

    def growth(self):
        """The most by which memory grew between two minutes beyond what the requests between them may take, in KB."""
        owned = [kb - count * REQUEST_BYTES // 1_024 for kb, count in zip(self.memory, self.requests)][1:]
        return max((later - least for least, later in zip(itertools.accumulate(owned, min), owned)), default=0)

    def faults(self):
        found = []
        expect(found, self.growth() < GROWTH, f"memory grew by {self.growth():,} KB beyond what is remembered")
        expect(found, set(self.threads) == {THREADS}, f"there were {self.threads} threads")
        return found

    def told(self):
        shown = self.memory if len(self.memory) < 8 else [*self.memory[:-1:6], self.memory[-1]]
        text = ", ".join(f"{kilobytes:,}" for kilobytes in shown) + " KB"
        if ALL_REQUESTS not in self.requests:
            return text
        full = self.requests.index(ALL_REQUESTS)
        then = self.memory[full:]
        return f"{text}, from minute {full} on, when it remembered all it can, {min(then):,} to {max(then):,} KB"


async def end_all(proxy, switches):
    """All switches end, and with them the proxy; how it ended."""
    for switch in switches:
        switch.transport.close()
    return await proxy.ending(PATIENCE)


async def run(program, minutes=2, rate=500, later=None):
    """Where `later` is given, there are so many turns a second from the minute on at which the proxy remembers all it
    can, so that what memory does then is seen at a load that the machine has beside other work."""
    controllers = [Controller(slot) for slot in range(SLICES)]
    async with site(program, controllers, connections=SWITCHES) as proxy:
        exchanges = []
        for datapath in range(1, SWITCHES + 1):
            switch = await connect_switch(proxy, datapath)
            exchanges += await exchanges_of(switch, controllers)
        restless = [each for each in exchanges if each.slot >= RESTLESS]
        renewal = Renewal(restless, controllers)
        async with Traffic(exchanges, rate) as traffic:
            watch = Watch(proxy, traffic, rate if later is None else later)
            renewing = asyncio.create_task(renewal.run())
            await watch.run(minutes)
            renewing.cancel()
            await ended(renewing)
        ending = await end_all(proxy, traffic.switches)
    faults = [*renewal.faults, *watch.faults(), *traffic.found]
    expect(faults, ending == (0, ""), f"it ended so: {ending}")
    expect(faults, renewal.count >= LEAST_RENEWALS * minutes, f"only {renewal.count:,} links were made anew")
    seen = (
        f"{SWITCHES} switches with {SLICES} slices each ({THREADS:,} threads) for {minutes} minutes with {rate:,} "
        f"turns a second, {renewal.count:,} links made anew; memory {watch.told()}; {traffic.told()}"
    )
    return Outcome(seen, faults)
