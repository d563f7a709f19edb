"""The controller that sends the worst messages, in a process of its own, so that its work isn't in the others' way.

`Heavy` starts it and gives it orders. It tells the port at which it listens, then that the proxy has connected, and then
of each order that it was carried out, a line each:

    fill                    the flow-mods that book as many entries as there can be
    rounds LIST PLACE N     N rounds of a load of a list
    go LIST PLACE           begins rounds of a load, one behind the other
    halt                    ends them; tells how many there were, and whether messages were refused
    burst N                 N flow-mods in 256 pieces each, at once
"""

import asyncio
import contextlib
import pathlib
import sys

from devices.loads import everything, full_book, loads, loads_of_one_port
from devices.messages import Kind, output
from devices.peers import Controller, Peer
from sunworsted import message

TOOLS = pathlib.Path(__file__).resolve().parent.parent
PATIENCE = 60
LISTS = {"all": loads, "one_port": loads_of_one_port}
# How many bytes of what begins with a mark are handed on.
SCANNED = 8


class Scanning(Peer):
    """A peer that looks for some marks in all that comes, and not message by message, so that it keeps up."""

    def __init__(self, marks):
        super().__init__()
        self.marks = marks
        self.left = b""

    def data_received(self, data):
        data = self.left + data
        for mark, hear in self.marks.items():
            # Two bytes of which the second is rare are found soonest.
            at = data.find(mark[:2])
            while 0 <= at <= len(data) - SCANNED:
                if data.startswith(mark, at):
                    hear(data[at : at + SCANNED])
                at = data.find(mark[:2], at + 1)
        self.left = data[1 - SCANNED :]


class HeavyLink(Scanning):
    """The end of its connection; by their length errors differ from what else comes."""

    def __init__(self, controller):
        super().__init__({b"\x01\x13\0\x08": self.hear_done, b"\0\x4c": self.hear_refusal})
        self.controller = controller
        self.is_refused = False
        self.done = asyncio.Event()

    def connection_made(self, transport):
        super().connection_made(transport)
        self.controller.came.put_nowait(self)

    def hear_done(self, _):
        self.done.set()

    def hear_refusal(self, _):
        self.is_refused = True

    async def round(self, data):
        """Sends this, and a barrier that is answered."""
        self.done.clear()
        self.send(data + message(Kind.BARRIER_REQUEST, 9, b""))
        await asyncio.wait_for(self.done.wait(), PATIENCE)


class Orders:
    """What is carried out on one link."""

    def __init__(self, link):
        self.link = link
        self.is_going = False
        self.going = None

    async def keep_sending(self, data):
        rounds = 0
        while self.is_going:
            await self.link.round(data)
            rounds += 1
        return rounds

    async def carry_out(self, words):
        """What there is to tell of an order that was carried out."""
        match words:
            case ["fill"]:
                for data in full_book():
                    await self.link.round(data)
            case ["rounds", name, place, count]:
                for _ in range(int(count)):
                    await self.link.round(LISTS[name]()[int(place)].data)
            case ["go", name, place]:
                self.link.is_refused, self.is_going = False, True
                self.going = asyncio.create_task(self.keep_sending(LISTS[name]()[int(place)].data))
            case ["halt"]:
                self.is_going = False
                return f"{await self.going} {int(self.link.is_refused)}"
            case ["burst", count]:
                self.link.send(everything(output(2)) * int(count))
        return "done"


class Heavy:
    """That process, from `async with` on until its end."""

    def __init__(self):
        self.process = None
        self.port = None

    async def __aenter__(self):
        pipe = asyncio.subprocess.PIPE
        self.process = await asyncio.create_subprocess_exec(
            sys.executable, "-m", "devices.heavy", cwd=TOOLS, stdin=pipe, stdout=pipe
        )
        self.port = int(await self.told())
        return self

    async def __aexit__(self, *_):
        with contextlib.suppress(ProcessLookupError):
            self.process.kill()
        await self.process.wait()

    async def told(self):
        line = await asyncio.wait_for(self.process.stdout.readline(), PATIENCE)
        if not line:
            raise ConnectionError("the controller of the worst messages has ended")
        return line.decode().strip()

    async def order(self, *words):
        """Has an order carried out, and gives what is reported of it."""
        self.process.stdin.write((" ".join(map(str, words)) + "\n").encode())
        return await self.told()


async def obey():
    controller = Controller(0, HeavyLink)
    await controller.listen()
    print(controller.port, flush=True)
    coming = asyncio.StreamReader()
    await asyncio.get_running_loop().connect_read_pipe(lambda: asyncio.StreamReaderProtocol(coming), sys.stdin)
    orders = Orders(await controller.next_link(PATIENCE))
    print("came", flush=True)
    while line := await coming.readline():
        print(await orders.carry_out(line.decode().split()), flush=True)


if __name__ == "__main__":
    asyncio.run(obey())
