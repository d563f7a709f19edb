"""Peers that shut their writing side while much waits for them: each is given up within a second."""

import asyncio
import contextlib
import os

from devices.deaf import LARGE_PACKET, MUCH, RECEIVE_BUFFER, TICK, Deaf
from devices.exchange import Traffic, ended
from devices.messages import port_of
from devices.mute import Mute, send_out
from devices.outcome import Outcome, expect
from devices.peers import Controller, Switch
from devices.site import connect_switch, exchanges_of, site
from sunworsted import packet_in, tcp_packet

TURNS_PER_SECOND = 500
# So long they are sent much, before they shut their side, and it may take until they are given up.
FILLING, PATIENCE = 4, 1
# A link that ended soon is dialled again after a second.
PATIENCE_OF_A_LINK = PATIENCE + 1
# How often one that takes a byte now and then does, in seconds.
NOW_AND_THEN = 5
PLACES = 16
# How long a place is waited for.
LONGEST = 90
DATAPATH, MUTE, LATER, FIRST_OTHER = 0xA1, 0xB1, 0xC1, 0xD1


async def nibble(peer):
    """Takes a byte now and then, where there is one."""
    while not peer.is_closed:
        await asyncio.sleep(NOW_AND_THEN)
        with contextlib.suppress(OSError):
            os.read(peer.transport.get_extra_info("socket").fileno(), 1)


async def feed(switch, controller):
    """Sends packet-ins for the slice for a while."""
    packet = tcp_packet(port_of(controller.slot)).ljust(LARGE_PACKET, b"\0")
    for _ in range(int(FILLING / TICK)):
        switch.send(packet_in(0, 1, packet) * MUCH)
        await asyncio.sleep(TICK)


async def shut(peer):
    """Shuts its writing side; when that was."""
    peer.transport.write_eof()
    return asyncio.get_running_loop().time()


async def of_controllers(switch, controllers):
    """How long it takes until controllers that shut their writing side are dialled again: the first never reads, and
    the second takes a byte now and then."""
    loop = asyncio.get_running_loop()
    links = [await controller.next_link() for controller in controllers]
    nibbler = asyncio.create_task(nibble(links[1]))
    await asyncio.gather(*(feed(switch, controller) for controller in controllers))
    seconds = []
    for link, controller in zip(links, controllers):
        began = await shut(link)
        await controller.next_link()
        seconds.append(loop.time() - began)
    nibbler.cancel()
    return seconds


async def link_of(controller, datapath):
    """The controller's link to a switch."""
    while True:
        link = await controller.next_link()
        if link.datapath == datapath:
            return link


async def served_after(proxy, began):
    """How long it takes until a switch is served, where all places were taken."""
    loop = asyncio.get_running_loop()
    while loop.time() - began < LONGEST:
        switch = await proxy.connect(Switch(LATER))
        await asyncio.wait([switch.prepared, switch.closed], return_when=asyncio.FIRST_COMPLETED)
        if switch.prepared.done():
            switch.transport.close()
            break
        await asyncio.sleep(TICK)
    return loop.time() - began


async def of_switch(proxy, controllers, datapath, takes_bytes):
    """How long it takes until the place of a switch that never reads, and shuts its writing side, is free."""
    switch = await proxy.connect(Mute(datapath))
    links = [await link_of(controller, datapath) for controller in controllers]
    tasks = [asyncio.create_task(send_out(link)) for link in links]
    if takes_bytes:
        tasks.append(asyncio.create_task(nibble(switch)))
    others = [await connect_switch(proxy, other) for other in range(FIRST_OTHER, FIRST_OTHER + PLACES - 2)]
    await asyncio.sleep(FILLING)
    seconds = await served_after(proxy, await shut(switch))
    for task in tasks:
        task.cancel()
        await ended(task)
    for peer in (*others, switch):
        peer.transport.abort()
    await asyncio.sleep(PATIENCE)
    return seconds


async def run(program):
    closing = [Controller(slot, Deaf, RECEIVE_BUFFER) for slot in range(2)]
    others = [Controller(2), Controller(3)]
    async with site(program, [*closing, *others]) as proxy:
        switch = await connect_switch(proxy, DATAPATH)
        async with Traffic(await exchanges_of(switch, others), TURNS_PER_SECOND) as traffic:
            links = await of_controllers(switch, closing)
            places = [await of_switch(proxy, others, MUTE + takes, bool(takes)) for takes in range(2)]
    faults = [*traffic.found]
    expect(faults, max(links) < PATIENCE_OF_A_LINK, f"a controller was dialled again after {max(links):.1f} seconds")
    expect(faults, max(places) < PATIENCE, f"a place was free after {max(places):.1f} seconds")
    seen = (
        f"controllers that shut their side were dialled again after {links[0]:.1f} and {links[1]:.1f} seconds, and the "
        f"places of switches were free after {places[0]:.1f} and {places[1]:.1f}; {traffic.told()}"
    )
    return Outcome(seen, faults)
