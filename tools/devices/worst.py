"""The others' latency while one slice sends the worst messages, beside that without them.

The slice's controller, a process of its own, sends its messages round by round, each with a barrier behind it, and the
next once the barrier was answered: so it keeps the proxy at work, and has no more under way than one round. At the end
it sends in one go what is more than may wait for a switch, which reads all the time.
"""

import asyncio
import contextlib
import dataclasses
import statistics

from devices.heavy import LISTS, Heavy
from devices.loads import HEAVY_PORTS, ONE_PORT, SWITCH_PORTS, flows_told
from devices.messages import (
    HEAD,
    Kind,
    number_of_packet_in,
    numbered_flow_mod,
    numbered_packet_in,
    slot_and_number,
    xid_of,
)
from devices.outcome import Outcome, expect
from devices.peers import Controller, Link, Peer
from devices.proxy import Proxy, Slice, slice_at
from devices.site import AMPLE
from sunworsted import features_reply, message

OTHERS = 2
DATAPATH = 0xA1
# Each block has a packet-in every two milliseconds, whether those before are answered or not.
BLOCKS, TURNS, INTERVAL = 3, 400, 0.002
PATIENCE = 60
# So many rounds are sent first, to see how much processor time one takes.
ROUNDS = 5
# What the others' latency may grow to, as a multiple.
RATIO = 2
# A burst of small flow-mods in 256 pieces each: 2 MB in all for the switch.
BURST = 100


class QuickSwitch(Peer):
    """A switch with many ports, which is asked for barriers and flows, and sees how long its packet-ins take. It goes
    from message to message without a look at what it doesn't want, so that it keeps up."""

    def __init__(self):
        super().__init__()
        self.left = b""
        self.heard = {
            Kind.FLOW_MOD: self.hear_flow_mod,
            Kind.BARRIER_REQUEST: self.hear_barrier,
            Kind.STATS_REQUEST: self.hear_question,
        }
        self.flows = flows_told()
        # When the packet-ins were sent that aren't answered yet, and how long the others took.
        self.sent = {}
        self.times = []

    def connection_made(self, transport):
        super().connection_made(transport)
        self.send(features_reply(0xFF000001, DATAPATH, SWITCH_PORTS))

    def data_received(self, data):
        data, at = self.left + data, 0
        while len(data) - at >= HEAD:
            size = data[at + 2] << 8 | data[at + 3]
            if len(data) - at < size:
                break
            hear = self.heard.get(data[at + 1])
            if hear:
                hear(data, at)
            at += size
        self.left = data[at:]

    def hand_up(self, slot, number):
        """Sends a packet-in whose answer is waited for."""
        self.sent[slot, number] = asyncio.get_running_loop().time()
        self.send(numbered_packet_in(slot, number))

    def hear_flow_mod(self, data, at):
        began = self.sent.pop(slot_and_number(data, at), None)
        if began is not None:
            self.times.append(asyncio.get_running_loop().time() - began)

    def hear_barrier(self, data, at):
        self.send(message(Kind.BARRIER_REPLY, xid_of(data, at), b""))

    def hear_question(self, data, at):
        self.send(message(Kind.STATS_REPLY, xid_of(data, at), self.flows))


class Answering(Link):
    """A controller's end that answers each packet-in by a flow-mod of the same number."""

    def hear(self, kind, frame):
        if kind == Kind.PACKET_IN:
            self.send(numbered_flow_mod(self.controller.slot, number_of_packet_in(frame)))
        else:
            super().hear(kind, frame)


@dataclasses.dataclass
class Latency:
    """Median and 99th of a hundred, in microseconds."""

    median: float
    late: float

    @classmethod
    def of(cls, times):
        return cls(statistics.median(times) * 1e6, sorted(times)[len(times) * 99 // 100] * 1e6)


class Bench:
    """The peers, once all are connected, and the list of the loads."""

    def __init__(self, proxy, switch, heavy, links, name):
        self.proxy, self.switch, self.heavy, self.links, self.name = proxy, switch, heavy, links, name
        self.turns = self.rounds = 0
        self.is_refused = False

    async def cost(self, place):
        """The processor time that the proxy takes for a round, in milliseconds."""
        before = self.proxy.processor_seconds
        await self.heavy.order("rounds", self.name, place, ROUNDS)
        return (self.proxy.processor_seconds - before) / ROUNDS * 1e3

    async def latencies(self):
        """How long packet-ins take until their answers are at the switch."""
        loop, switch = asyncio.get_running_loop(), self.switch
        switch.times, began = [], loop.time()
        for place in range(TURNS):
            await asyncio.sleep(began + place * INTERVAL - loop.time())
            if switch.is_closed:
                raise ConnectionError("the switch's connection was closed")
            switch.hand_up(self.links[place % len(self.links)].controller.slot, self.turns)
            self.turns += 1
        while switch.sent:
            if switch.is_closed or loop.time() - began > PATIENCE:
                raise ConnectionError(f"{len(switch.sent)} packet-ins weren't answered")
            await asyncio.sleep(INTERVAL)
        return switch.times

    @contextlib.asynccontextmanager
    async def under(self, place):
        """The heavy slice sends round by round."""
        await self.heavy.order("go", self.name, place)
        try:
            yield
        finally:
            rounds, is_refused = map(int, (await self.heavy.order("halt")).split())
            self.rounds += rounds
            self.is_refused = bool(is_refused)

    async def compare(self, place):
        """The latencies without the load and with it, block by block in turn; and how many rounds there were."""
        without, beside = [], []
        self.rounds = 0
        for _ in range(BLOCKS):
            without += await self.latencies()
            async with self.under(place):
                beside += await self.latencies()
        return Latency.of(without), Latency.of(beside), self.rounds

    async def seen_under(self, place, faults):
        """What is seen under a load, in some words."""
        load = LISTS[self.name]()[place]
        cost = await self.cost(place)
        without, beside, rounds = await self.compare(place)
        is_refused = self.is_refused
        expect(faults, is_refused == load.is_refused, f"{load.name}: refused {is_refused}, and not {load.is_refused}")
        ratio, late = beside.median / without.median, beside.late / without.late
        expect(faults, ratio <= RATIO, f"{load.name}: the median grew {ratio:.1f} times")
        expect(faults, late <= RATIO, f"{load.name}: the 99th grew {late:.1f} times")
        return (
            f"{load.name} ({rounds} rounds of {cost:.1f} ms): median {without.median:.0f} to {beside.median:.0f} us "
            f"({ratio:.1f}), 99th {without.late:.0f} to {beside.late:.0f} ({late:.1f})"
        )

    async def seen_under_all(self, faults):
        return [await self.seen_under(place, faults) for place in range(len(LISTS[self.name]()))]

    async def burst(self, faults):
        """Sends more at once than may wait for the switch; what becomes of that."""
        await self.heavy.order("burst", BURST)
        await asyncio.sleep(1)
        if self.switch.is_closed:
            faults.append(f"the switch, which reads all the time, was closed by {BURST} flow-mods of one slice at once")
            return "was closed"
        return "stayed"


@contextlib.asynccontextmanager
async def bench_of(program, name, fields=""):
    """A bench for a list of loads, whose heavy slice has rules that also say this."""
    others = [Controller(slot, Answering) for slot in range(1, OTHERS + 1)]
    for controller in others:
        await controller.listen()
    async with Heavy() as heavy:
        slices = [
            Slice("heavy", heavy.port, HEAVY_PORTS, AMPLE, fields),
            *(slice_at(each.slot, each, AMPLE) for each in others),
        ]
        async with Proxy(program, slices) as proxy:
            switch = await proxy.connect(QuickSwitch())
            expect_came(await heavy.told())
            yield Bench(proxy, switch, heavy, [await each.next_link() for each in others], name)


def expect_came(told):
    if told != "came":
        raise ConnectionError(told)


async def run(program):
    faults = []
    async with bench_of(program, "one_port", f"in_port = {ONE_PORT}\n") as bench:
        seen = await bench.seen_under_all(faults)
    async with bench_of(program, "all") as bench:
        await bench.heavy.order("fill")
        seen += await bench.seen_under_all(faults)
        became = await bench.burst(faults)
    seen.append(f"the switch {became} where {BURST} flow-mods in 256 pieces came at once")
    return Outcome("the others' latency: " + "; ".join(seen), faults)
