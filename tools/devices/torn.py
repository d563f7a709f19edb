"""A switch that ends in the middle of a message: its session ends with it, the next one begins anew, and another
switch's isn't touched."""

import asyncio

from devices.exchange import Traffic
from devices.messages import Kind, port_of
from devices.outcome import Outcome, expect
from devices.peers import Controller, Link
from devices.site import connect_switch, exchanges_of, site
from sunworsted import packet_in, tcp_packet

BUFFER = 7
PATIENCE = 10
SLOTS = 2
OTHER = 0xB2
TURNS_PER_SECOND = 200
# The descriptors of the proxy once all but the other switch and its links have ended.
OPEN_FILES = 16


class Listener(Link):
    """A controller's end that keeps the packet-ins that came."""

    def __init__(self, controller):
        super().__init__(controller)
        self.packets = asyncio.Queue()

    def hear(self, kind, frame):
        super().hear(kind, frame)
        if kind == Kind.PACKET_IN:
            self.packets.put_nowait(bytes(frame))


def held_packet(slot):
    """A packet-in of a packet that the switch holds."""
    return packet_in(0, 1, tcp_packet(port_of(slot)), BUFFER)


def first_packet(slot):
    """The same as the slice is sent it, where it is its first one."""
    return packet_in(0, 1, tcp_packet(port_of(slot)), 0)


async def tear(proxy, controllers, length, is_reset):
    """A session that ends behind so many bytes of a message; what is wrong with it."""
    switch = await connect_switch(proxy)
    links = [await controller.next_link(PATIENCE) for controller in controllers]
    faults = []
    for slot, link in enumerate(links):
        switch.send(held_packet(slot))
        came = await asyncio.wait_for(link.packets.get(), PATIENCE)
        expect(faults, came == first_packet(slot), f"slot {slot} began with {came.hex()}")
    switch.send(held_packet(0)[:length])
    if is_reset:
        # The bytes are to be taken before the reset, which would overtake them.
        await asyncio.sleep(0.005)
        switch.reset()
    else:
        switch.transport.close()
    await asyncio.wait_for(asyncio.gather(*(link.closed for link in links)), PATIENCE)
    for slot, link in enumerate(links):
        expect(faults, link.packets.empty(), f"slot {slot} was handed what was torn at {length}")
    return faults


async def run(program):
    controllers = [Controller(slot, Listener) for slot in range(SLOTS)]
    whole = len(held_packet(0))
    faults, sessions = [], 0
    async with site(program, controllers) as proxy:
        other = await exchanges_of(await connect_switch(proxy, OTHER), controllers)
        async with Traffic(other, TURNS_PER_SECOND) as traffic:
            for is_reset in (False, True):
                for length in range(1, whole):
                    faults += await tear(proxy, controllers, length, is_reset)
                    sessions += 1
            await asyncio.sleep(0.5)
            for controller in controllers:
                expect(faults, controller.came.empty(), f"slot {controller.slot} was dialled without a switch")
            expect(faults, proxy.open_files < OPEN_FILES, f"{proxy.open_files} descriptors stay open")
    seen = (
        f"{sessions} sessions of a switch that ended behind 1 to {whole - 1} bytes of a message of {whole}, by an end "
        "and by a reset: each time both links were closed, nothing of it was handed on, and the next one began anew; "
        f"{traffic.told()}"
    )
    return Outcome(seen, faults + traffic.found)
