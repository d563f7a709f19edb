"""A proxy between controllers, each with a slice of its own."""

import contextlib

from devices.exchange import Exchange
from devices.peers import Switch
from devices.proxy import Proxy, slice_at

AMPLE = "rate = 1000000\nburst = 1000000\nquota = 4096\n"


@contextlib.asynccontextmanager
async def site(program, controllers, **options):
    """The proxy, while it runs; the controllers listen from before it is started on."""
    for controller in controllers:
        await controller.listen()
    slices = [slice_at(each.slot, each, AMPLE) for each in controllers]
    try:
        async with Proxy(program, slices, **options) as proxy:
            yield proxy
    finally:
        for controller in controllers:
            controller.server.close()


async def connect_switch(proxy, datapath=0xA1):
    """A switch that the proxy has asked what it is."""
    switch = await proxy.connect(Switch(datapath))
    await switch.prepared
    return switch


async def exchanges_of(switch, controllers):
    """The exchanges between a switch and the controllers whose next links are of it."""
    return [Exchange(switch, each.slot, await each.next_link()) for each in controllers]
