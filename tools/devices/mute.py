"""A switch that never reads: its connection is ended, its slices' links with it, and another switch's aren't touched."""

import asyncio

from devices.deaf import watch
from devices.exchange import Traffic, ended
from devices.messages import output, packet_out, port_of
from devices.outcome import Outcome, expect
from devices.peers import Controller, Switch
from devices.site import connect_switch, exchanges_of, site
from sunworsted import tcp_packet

MUTE, OTHER = 0xA1, 0xB2
SLOTS = 2
TURNS_PER_SECOND = 500
TICK = 0.05
# What each of its slices sends out by it: 24 MB a second at most, as long as its link takes that.
LARGE_PACKET, COUNT = 60_000, 20
MOST_UNSENT = 1_000_000
# What is sent fills the buffers of the system first; after that a write ends in which nothing is taken for 30 seconds.
PATIENCE = 240
# What may wait for the switch, be under way from its slices, and be held beside that, in KB.
GROWTH = 4_096


class Mute(Switch):
    """A switch that reads until it is prepared, and then never, until it is to see what became of its connection."""

    is_mute = True

    def hear(self, kind, frame):
        super().hear(kind, frame)
        if self.prepared.done() and self.is_mute:
            self.transport.pause_reading()

    def look(self):
        self.is_mute = False
        self.transport.resume_reading()


async def send_out(link):
    """Has a slice send packets out by the switch until its link is closed."""
    packet = tcp_packet(port_of(link.controller.slot)).ljust(LARGE_PACKET, b"\0")
    message = packet_out(packet, output(2))
    while not link.is_closed:
        if link.transport.get_write_buffer_size() < MOST_UNSENT:
            link.send(message * COUNT)
        await asyncio.sleep(TICK)


async def stand_still(switch, links):
    """Until the slices' links to the switch are closed; the seconds that took, and whether its own connection was."""
    loop = asyncio.get_running_loop()
    began = loop.time()
    senders = [asyncio.create_task(send_out(link)) for link in links]
    await asyncio.wait([link.closed for link in links], timeout=PATIENCE)
    seconds = loop.time() - began
    for sender in senders:
        sender.cancel()
        await ended(sender)
    switch.look()
    await asyncio.wait([switch.closed], timeout=PATIENCE)
    return seconds, switch.is_closed


async def run(program):
    controllers = [Controller(slot) for slot in range(SLOTS)]
    faults = []
    async with site(program, controllers) as proxy:
        other = await exchanges_of(await connect_switch(proxy, OTHER), controllers)
        switch = await proxy.connect(Mute(MUTE))
        links = [await controller.next_link() for controller in controllers]
        before, peaks = proxy.memory, []
        watcher = asyncio.create_task(watch(proxy, peaks))
        async with Traffic(other, TURNS_PER_SECOND) as traffic:
            seconds, is_ended = await stand_still(switch, links)
        watcher.cancel()
        growth = max(peaks) - before
        expect(faults, all(link.is_closed for link in links), f"its links weren't closed in {PATIENCE} seconds")
        expect(faults, is_ended, "its connection wasn't ended")
        expect(faults, growth < GROWTH, f"memory grew by {growth:,} KB")
    seen = (
        f"a switch that never reads, by which two slices send out 24 MB a second each, was ended after {seconds:.1f} "
        f"seconds, and its links were closed; memory grew by at most {growth:,} KB; {traffic.told()}"
    )
    return Outcome(seen, faults + traffic.found)
