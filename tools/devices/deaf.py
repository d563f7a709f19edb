"""Controllers that never read: their links are closed, and no other notices."""

import asyncio

from devices.exchange import Traffic
from devices.messages import port_of
from devices.outcome import Outcome, expect
from devices.peers import Controller, End
from devices.site import connect_switch, exchanges_of, site
from sunworsted import packet_in, tcp_packet

TURNS_PER_SECOND = 500
TICK = 0.05
LARGE_PACKET = 1_400
RECEIVE_BUFFER = 4_096
# What is sent fills the buffers of the system first; after that a write ends in which nothing is taken for 30 seconds,
# and the next one begins them anew where a part was.
PATIENCE = 240
# What may wait for both, and be held beside that, in KB.
GROWTH = 2 * 4_096 + 4_096

# How many packet-ins each is sent at each tick: 14 MB a second, and 57 KB.
MUCH, LITTLE = 500, 2


class Deaf(End):
    """A controller's end that never reads."""

    def connection_made(self, transport):
        super().connection_made(transport)
        transport.pause_reading()


async def feed(switch, controller, count):
    """Sends so many packet-ins for the slice at each tick, until its link is made anew; the seconds that took."""
    loop = asyncio.get_running_loop()
    began = loop.time()
    packet = tcp_packet(port_of(controller.slot)).ljust(LARGE_PACKET, b"\0")
    while controller.came.empty() and loop.time() - began < PATIENCE:
        switch.send(packet_in(0, 1, packet) * count)
        await asyncio.sleep(TICK)
    return loop.time() - began


async def watch(proxy, peaks):
    while True:
        peaks.append(proxy.memory)
        await asyncio.sleep(TICK)


async def run(program):
    deaf = [Controller(slot, Deaf, RECEIVE_BUFFER) for slot in range(2)]
    others = [Controller(2), Controller(3)]
    async with site(program, [*deaf, *others]) as proxy:
        switch = await connect_switch(proxy)
        for controller in deaf:
            await controller.next_link()
        exchanges = await exchanges_of(switch, others)
        before, peaks = proxy.memory, []
        watcher = asyncio.create_task(watch(proxy, peaks))
        async with Traffic(exchanges, TURNS_PER_SECOND) as traffic:
            much, little = await asyncio.gather(feed(switch, deaf[0], MUCH), feed(switch, deaf[1], LITTLE))
        watcher.cancel()
        growth = max(peaks) - before
    faults = [*traffic.found]
    expect(faults, much < PATIENCE, f"the one that is sent much wasn't dialled again in {PATIENCE} seconds")
    expect(faults, little < PATIENCE, f"the one that is sent little wasn't dialled again in {PATIENCE} seconds")
    expect(faults, growth < GROWTH, f"memory grew by {growth:,} KB")
    seen = (
        f"one that is sent 14 MB a second was dialled again after {much:.1f} seconds, and one that is sent 57 KB after "
        f"{little:.1f}; memory grew by at most {growth:,} KB; {traffic.told()}"
    )
    return Outcome(seen, faults)
