"""Controllers that connect and leave, again and again."""

import asyncio

from devices.exchange import Traffic
from devices.messages import Kind
from devices.outcome import Outcome, expect
from devices.peers import Controller, End
from devices.site import connect_switch, exchanges_of, site
from sunworsted import message

# Each controller is dialled for each switch by itself, later from time to time.
SWITCHES, FICKLE = 8, 28
TIMES, FIRST = 1_000, 2 * SWITCHES * FICKLE
TURNS_PER_SECOND = 500
PATIENCE = 120
# How long after they left nobody dials.
QUIET = 0.3
# What memory may grow by from the first times to the last, in KB.
GROWTH = 512


class Fickle(End):
    """A controller's end that greets, and leaves."""

    def connection_made(self, transport):
        super().connection_made(transport)
        self.send(message(Kind.HELLO, 1, b""))
        transport.close()


class Fickles:
    """Controllers that leave, whose connections come to one queue."""

    def __init__(self):
        self.each = [Controller(slot, Fickle) for slot in range(FICKLE)]
        for controller in self.each[1:]:
            controller.came = self.each[0].came

    async def come_and_go(self, times):
        for _ in range(times):
            await self.each[0].next_link(PATIENCE)
        await asyncio.sleep(QUIET)


def held(proxy):
    return proxy.memory, proxy.threads, proxy.open_files


async def run(program):
    loop = asyncio.get_running_loop()
    fickles, others = Fickles(), [Controller(FICKLE), Controller(FICKLE + 1)]
    async with site(program, [*fickles.each, *others]) as proxy:
        began = loop.time()
        exchanges = []
        for datapath in range(1, SWITCHES + 1):
            exchanges += await exchanges_of(await connect_switch(proxy, datapath), others)
        async with Traffic(exchanges, TURNS_PER_SECOND) as traffic:
            await fickles.come_and_go(FIRST)
            memory, threads, files = held(proxy)
            await fickles.come_and_go(TIMES - FIRST)
            seconds = loop.time() - began
            last_memory, last_threads, last_files = held(proxy)
    faults = [*traffic.found]
    expect(faults, last_memory - memory < GROWTH, f"memory grew from {memory:,} to {last_memory:,} KB")
    expect(faults, last_threads == threads, f"threads became {last_threads} from {threads}")
    expect(faults, last_files <= files + 2, f"descriptors became {last_files} from {files}")
    seen = (
        f"connected and left {TIMES:,} times in {seconds:.1f} seconds; from the {FIRST}th time to the last memory went "
        f"from {memory:,} to {last_memory:,} KB, threads from {threads} to {last_threads}; {traffic.told()}"
    )
    return Outcome(seen, faults)
