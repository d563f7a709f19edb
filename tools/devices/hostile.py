"""Controllers that send hostile bytes: each is answered as `replay` says of the same bytes, and no other notices."""

import asyncio
import dataclasses
import enum
import pathlib
import random
import struct
import subprocess

from devices.exchange import Traffic
from devices.messages import NO_BUFFER, NO_PORT, Kind, any_match
from devices.outcome import Outcome, expect
from devices.peers import PORTS, Controller, Raw
from devices.site import connect_switch, exchanges_of, site
from sunworsted import (
    SLICE_BYTES,
    SLICE_DOWN,
    SLICE_UP,
    SWITCH_BYTES,
    SWITCH_UP,
    features_reply,
    message,
    record,
    recording,
)

DATAPATH = 0xA1
TURNS_PER_SECOND = 500
QUIET = 0.02
PATIENCE = 10
# Among so many controllers the attacks are divided, since each waits longer for its next link than for the one before.
HOSTILE = 24
SEEDS = 20

# How many bytes a message of each type has at least.
SIZES = dict(zip(Kind, [8, 12, 8, 8, 12, 8, 32, 8, 12, 12, 20, 88, 64, 16, 72, 32, 12, 12, 8, 8, 12, 16]))


class Manner(enum.Enum):
    """How bytes are sent, and how the controller ends the connection that wasn't ended."""

    WHOLE = enum.auto()
    BY_BYTES = enum.auto()
    RESET = enum.auto()


@dataclasses.dataclass
class Attack:
    """What a hostile controller sends on one connection."""

    name: str
    data: bytes
    manner: Manner = Manner.WHOLE


def head(version, kind, length, xid=7):
    return struct.pack(">BBHI", version, kind, length, xid)


def bad_lengths():
    for kind in (Kind.HELLO, Kind.ECHO_REQUEST, Kind.FLOW_MOD, 200):
        for length in range(8):
            yield Attack(f"type {int(kind)} of length {length}", head(1, kind, length))


def versions():
    yield Attack("HELLO of version 0", head(0, Kind.HELLO, 8))
    yield Attack("HELLO of version 4", head(4, Kind.HELLO, 8))
    for version in (0, 2, 4, 255):
        others = [kind for kind in Kind if version or kind != Kind.HELLO]
        yield Attack(f"all types of version {version}", b"".join(head(version, kind, 8) for kind in others))


def bodies():
    yield Attack("unknown types", b"".join(message(kind, kind, b"?") for kind in range(len(Kind), 256)))
    for kind, size in SIZES.items():
        cut = b"".join(message(kind, length, bytes(length)) for length in range(size))
        yield Attack(f"bodies of {kind.name}, cut and too long", cut)
    yield Attack("messages of 65,535 bytes", b"".join(message(kind, 7, bytes(65_527)) for kind in Kind))


def fields():
    """Messages of a right length, or of a wrong one whose front is right, in which a field is wrong."""
    front = any_match() + struct.pack(">QHHHHIHH", 0, 0, 0, 0, 1, NO_BUFFER, NO_PORT, 0)
    for kind, size in ((0xFFFF, 0), (6, 0), (1, 40), (2, 45), (4, 7), (5, 9), (0, 1)):
        body = struct.pack(">HH", kind, 0) + bytes(size)
        yield Attack(f"statistics of type {kind} with {size} bytes", message(Kind.STATS_REQUEST, 7, body))
    for length in (9, 8, 7, 1_000):
        body = struct.pack(">IHH", NO_BUFFER, NO_PORT, length) + bytes(8)
        yield Attack(f"a packet-out of 24 bytes with {length} of actions", message(Kind.PACKET_OUT, 7, body))
    for kind, length in ((12, 8), (0xFFFF, 8), (0xFFFE, 8), (0, 4), (0, 0), (0, 9), (0, 16), (4, 8), (0, 65_528)):
        actions = struct.pack(">HHI", kind, length, 0)
        name = f"a flow-mod with an action of type {kind} and length {length}"
        yield Attack(name, message(Kind.FLOW_MOD, 7, front + actions))
    yield Attack("a flow-mod that ends in half an action", message(Kind.FLOW_MOD, 7, front + bytes(4)))
    for command in (5, 255, 0xFFFF):
        changed = front[:48] + struct.pack(">H", command) + front[50:]
        yield Attack(f"a flow-mod of command {command}", message(Kind.FLOW_MOD, 7, changed))
    yield Attack("an emergency flow-mod", message(Kind.FLOW_MOD, 7, front[:-2] + struct.pack(">H", 4)))


def random_message(draw):
    """A message with a random body, whose length is wrong in one of ten."""
    body = draw.randbytes(draw.randrange(120))
    length = draw.randrange(160) if draw.randrange(10) == 0 else 8 + len(body)
    return head(1, draw.choice(list(Kind)), length) + body


def noise():
    for seed in range(SEEDS):
        draw = random.Random(seed)
        yield Attack(f"random bytes of seed {seed}", draw.randbytes(100_000))
        yield Attack(f"random messages of seed {seed}", b"".join(random_message(draw) for _ in range(50)))


def ends():
    whole = b"".join(message(kind, 7, bytes(size)) for kind, size in SIZES.items())
    yield Attack("one byte at a time", whole + head(1, Kind.ECHO_REQUEST, 7), Manner.BY_BYTES)
    yield Attack("an end in the middle", whole[:-5])
    yield Attack("a reset in the middle", whole[:-5], Manner.RESET)
    yield Attack("nothing", b"")


def attacks():
    yield from bad_lengths()
    yield from versions()
    yield from bodies()
    yield from fields()
    yield from noise()
    yield from ends()


class Oracle:
    """What `replay` says that the controller is sent, from its first connection on."""

    def __init__(self, program, policy, slot):
        self.program, self.policy, self.slot = program, policy, slot
        self.file = pathlib.Path(policy).with_name(f"hostile-{slot}.rec")
        self.records = [record(SWITCH_UP, 0), record(SWITCH_BYTES, 0, features_reply(0xFF000001, DATAPATH, PORTS))]
        self.told = 0

    def replay(self):
        self.file.write_bytes(recording(*self.records))
        done = subprocess.run([self.program, "replay", self.policy, self.file], capture_output=True, check=True)
        return [line.split() for line in done.stdout.decode().splitlines()]

    async def answer(self, data):
        """What the controller is sent on its next connection, where it sends these bytes, and whether it is closed."""
        self.records += [record(SLICE_UP, self.slot), record(SLICE_BYTES, self.slot, data)]
        lines = await asyncio.to_thread(self.replay)
        mine = [line for line in lines[self.told : -1] if line[2] != "lane"]
        self.told = len(lines) - 1
        self.records.append(record(SLICE_DOWN, self.slot))
        sent = b"".join(bytes.fromhex(line[4]) for line in mine if line[2] == "to")
        return sent, any(line[2] == "close" for line in mine)


async def send(raw, attack):
    if attack.manner is not Manner.BY_BYTES:
        raw.send(attack.data)
        return
    for place in range(len(attack.data)):
        if raw.is_closed:
            return
        raw.send(attack.data[place : place + 1])
        await asyncio.sleep(0.001)


async def wait_for(raw, length, is_closed):
    """Waits until so many bytes came, and the end where there is to be one."""
    while len(raw.taken) < length or (is_closed and not raw.is_closed):
        raw.changed.clear()
        await raw.changed.wait()


async def tried(raw, oracle, attack):
    """What is wrong with what becomes of an attack, and whether its connection was closed."""
    sent, is_closed = await oracle.answer(attack.data)
    await send(raw, attack)
    faults = []
    try:
        await asyncio.wait_for(wait_for(raw, len(sent), is_closed), PATIENCE)
        await asyncio.sleep(QUIET)
    except TimeoutError:
        faults.append(f"{attack.name}: {len(raw.taken)} of {len(sent)} bytes came in {PATIENCE} seconds")
    expect(faults, raw.taken == sent, f"{attack.name}: {raw.taken.hex()[:200]} came, and not {sent.hex()[:200]}")
    expect(faults, raw.is_closed == is_closed, f"{attack.name}: closed {raw.is_closed}, and not {is_closed}")
    if attack.manner is Manner.RESET:
        raw.reset()
    else:
        raw.transport.close()
    return faults, is_closed


@dataclasses.dataclass
class Siege:
    """What became of a controller's attacks."""

    faults: list[str] = dataclasses.field(default_factory=list)
    count: int = 0
    closed: int = 0
    answered: int = 0


async def besiege(controller, oracle, attacks):
    """Tries attacks one after the other, each on the controller's next link; there is another behind the last one."""
    siege = Siege()
    for attack in attacks:
        raw = await controller.next_link()
        found, was_closed = await tried(raw, oracle, attack)
        siege.faults += found
        siege.count += 1
        siege.closed += was_closed
        siege.answered += len(raw.taken)
    await controller.next_link()
    return siege


async def run(program):
    hostile = [Controller(slot, Raw) for slot in range(HOSTILE)]
    others = [Controller(HOSTILE), Controller(HOSTILE + 1)]
    every = list(attacks())
    async with site(program, [*hostile, *others]) as proxy:
        switch = await connect_switch(proxy, DATAPATH)
        async with Traffic(await exchanges_of(switch, others), TURNS_PER_SECOND) as traffic:
            sieges = await asyncio.gather(
                *(besiege(each, Oracle(program, proxy.policy, each.slot), every[each.slot :: HOSTILE]) for each in hostile)
            )
    count, closed, answered = (sum(getattr(siege, name) for siege in sieges) for name in ("count", "closed", "answered"))
    faults = [fault for siege in sieges for fault in siege.faults]
    seen = (
        f"{count} kinds of hostile bytes, each answered as replay says of them ({answered:,} bytes), {closed} closed, "
        f"and dialled again after each; {traffic.told()}"
    )
    return Outcome(seen, faults + traffic.found)
