"""The program that is tried: how it is started, and what the system tells of it."""

import asyncio
import dataclasses
import os
import pathlib
import socket
import subprocess
import tempfile

from devices.messages import port_of

# More connections of switches than any case makes.
CONNECTIONS = 100_000


@dataclasses.dataclass
class Slice:
    """A slice of a policy: where its controller listens, the TCP ports that it writes, and what else its rules say."""

    name: str
    port: int
    tcp_ports: range
    terms: str = ""
    fields: str = ""


def slice_at(slot, controller, terms=""):
    """The slice at a slot, which has one TCP port."""
    return Slice(f"s{slot}", controller.port, range(port_of(slot), port_of(slot) + 1), terms)


def policy_text(slices):
    parts = ["version = 1\n"]
    for each in slices:
        parts.append(f'[[slice]]\nname = "{each.name}"\ncontroller = "127.0.0.1:{each.port}"\n{each.terms}')
    for each in slices:
        for port in each.tcp_ports:
            parts.append(
                f'[[rule]]\npriority = 1\nwrite = "{each.name}"\n{each.fields}dl_type = 2048\nnw_proto = 6\n'
                f"tp_dst = {port}\n"
            )
    return "".join(parts)


def free_port():
    with socket.create_server(("127.0.0.1", 0)) as free:
        return free.getsockname()[1]


class Proxy:
    """`serve` under a policy, from `async with` on until its end."""

    def __init__(self, program, slices, connections=CONNECTIONS):
        self.folder = tempfile.TemporaryDirectory()
        self.policy = pathlib.Path(self.folder.name) / "policy.toml"
        self.policy.write_text(policy_text(slices))
        self.program = program
        self.port = free_port()
        self.connections = connections
        self.process = None

    async def __aenter__(self):
        self.process = subprocess.Popen(
            [self.program, "serve", self.policy, f"127.0.0.1:{self.port}", str(self.connections)],
            stderr=subprocess.PIPE,
        )
        return self

    async def __aexit__(self, *_):
        self.process.kill()
        self.process.wait()
        self.process.stderr.close()
        self.folder.cleanup()

    async def connect(self, peer):
        """Connects this peer as a switch, once the program listens."""
        loop = asyncio.get_running_loop()
        for _ in range(200):
            try:
                await loop.create_connection(lambda: peer, "127.0.0.1", self.port)
                return peer
            except ConnectionRefusedError:
                await asyncio.sleep(0.02)
        raise TimeoutError("the program doesn't listen")

    async def ending(self, seconds):
        """The status with which it ends in this time, and what it says; None where it goes on."""
        for _ in range(int(seconds * 50)):
            if self.process.poll() is not None:
                return self.process.returncode, self.process.stderr.read().decode()
            await asyncio.sleep(0.02)
        return None

    def status(self, key):
        """A number of /proc/PID/status."""
        for line in pathlib.Path(f"/proc/{self.process.pid}/status").read_text().splitlines():
            if line.startswith(key + ":"):
                return int(line.split()[1])
        raise KeyError(key)

    @property
    def memory(self):
        """Kilobytes that are resident."""
        return self.status("VmRSS")

    @property
    def threads(self):
        return self.status("Threads")

    @property
    def open_files(self):
        return len(os.listdir(f"/proc/{self.process.pid}/fd"))

    @property
    def processor_seconds(self):
        """How long its threads that haven't ended ran on a processor."""
        tasks = pathlib.Path(f"/proc/{self.process.pid}/task").iterdir()
        return sum(int((task / "schedstat").read_text().split()[0]) for task in tasks) / 1e9
