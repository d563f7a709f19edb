"""A proxy that has no file descriptor left, first for links and then for switches, and later has some again."""

import asyncio
import resource

from devices.exchange import Exchange, Traffic
from devices.outcome import Outcome, expect
from devices.peers import Controller, Switch
from devices.site import connect_switch, exchanges_of, site

TURNS_PER_SECOND = 500
# A connection has a descriptor, and so has the accept that waits.
OF_ONE, OF_ACCEPT = 1, 1
# A dial that failed is tried again after 1, 2 and 3 seconds, an accept after one.
WITHOUT, PATIENCE = 1.5, 10


def leave_free(proxy, connections):
    """Descriptors for so many connections are left to the proxy from now on."""
    limit = proxy.open_files + OF_ONE * connections + OF_ACCEPT
    hard = resource.prlimit(proxy.process.pid, resource.RLIMIT_NOFILE)[1]
    resource.prlimit(proxy.process.pid, resource.RLIMIT_NOFILE, (limit, hard))


async def without_links(proxy, controllers, faults):
    """A switch whose links find no descriptor until there are some; its exchanges, and how long they took then."""
    loop = asyncio.get_running_loop()
    leave_free(proxy, 1)
    switch = await connect_switch(proxy, 2)
    await asyncio.sleep(WITHOUT)
    expect(faults, all(each.came.empty() for each in controllers), "a link was made without a descriptor")
    leave_free(proxy, len(controllers))
    began = loop.time()
    links = [await each.next_link(PATIENCE) for each in controllers]
    exchanges = [Exchange(switch, each.slot, link) for each, link in zip(controllers, links)]
    return exchanges, loop.time() - began


async def until_served(proxy, datapath):
    """Connects as a switch does, again where it was closed, until the proxy has prepared it."""
    while True:
        switch = await proxy.connect(Switch(datapath))
        await asyncio.wait([switch.prepared, switch.closed], return_when=asyncio.FIRST_COMPLETED)
        if switch.prepared.done():
            return switch
        await asyncio.sleep(0.1)


async def without_accepts(proxy, controllers, faults):
    """A switch that finds no descriptor until there are some; how long it took then until it was served."""
    loop = asyncio.get_running_loop()
    leave_free(proxy, 0)
    # This one takes that of the accept that waits, and its links find none.
    await connect_switch(proxy, 4)
    serving = asyncio.create_task(until_served(proxy, 3))
    await asyncio.sleep(WITHOUT)
    expect(faults, not serving.done(), "a switch was served without a descriptor")
    leave_free(proxy, 1 + 2 * len(controllers))
    began = loop.time()
    try:
        await asyncio.wait_for(serving, PATIENCE)
    except TimeoutError:
        faults.append(f"a switch wasn't served within {PATIENCE} seconds after there were descriptors again")
    return loop.time() - began


async def run(program):
    controllers = [Controller(0), Controller(1)]
    faults = []
    async with site(program, controllers) as proxy:
        first = await connect_switch(proxy, 1)
        async with Traffic(await exchanges_of(first, controllers), TURNS_PER_SECOND) as traffic:
            exchanges, of_links = await without_links(proxy, controllers, faults)
            async with Traffic(exchanges, TURNS_PER_SECOND) as later:
                of_switch = await without_accepts(proxy, controllers, faults)
        expect(faults, proxy.process.poll() is None, "the proxy ended")
    seen = (
        f"links that found none were made {of_links:.1f} seconds after there were some again, and a switch that found "
        f"none was served after {of_switch:.1f}; meanwhile {traffic.told()}"
    )
    return Outcome(seen, faults + traffic.found + later.found)
