"""Controllers of several makes: two of others, one that hangs up, and one that sees which switches it has."""
import re
import socket
import threading
import time

from flowvisor_tool.openflow.protocol import HEADER, MessageType
from sunworsted import ROOT, message

PYTHON_BLOCK = re.compile(r"^```python bob\.py\n(.*?)^```$", re.MULTILINE | re.DOTALL)
LISTENED = "127.0.0.1"
DATAPATH_SIZE = 8


def learning_switch(processes, port, seal=None):
    """Alice's controller: the learning switch that comes with Open vSwitch. With a seal it speaks TLS."""
    kind, words = ("ptcp", ()) if seal is None else ("pssl", seal.words_of("alice"))
    return processes.start("alice", "ovs-testcontroller", *words, f"{kind}:{port}:{LISTENED}")


def bob(processes, port):
    """Bob's controller: the program of docs/TUTORIAL.md, which os-ken runs."""
    program = processes.folder / "bob.py"
    program.write_text(PYTHON_BLOCK.search((ROOT / "docs/TUTORIAL.md").read_text())[1])
    return processes.start("bob", "osken-manager", "--ofp-listen-host", LISTENED, "--ofp-tcp-listen-port", port, program)


def packets_of_bob(processes):
    """How many packets bob's program says that it got."""
    return processes.lines("bob", "packet of ")


class Listener:
    """A controller in a thread of this process, from `with` on: what it does with a connection is `serve`."""

    def __init__(self, port):
        self.socket = socket.create_server((LISTENED, port))

    def __enter__(self):
        threading.Thread(target=self.accept, daemon=True).start()
        return self

    def __exit__(self, *_):
        # The thread that waits for a connection keeps listening otherwise.
        self.socket.shutdown(socket.SHUT_RDWR)
        self.socket.close()

    def accept(self):
        while True:
            try:
                link, _address = self.socket.accept()
            except OSError:
                return
            threading.Thread(target=self.serve, args=(link,), daemon=True).start()


class Hanger(Listener):
    """Accepts each connection and hangs up, and notes when."""

    def __init__(self, port):
        super().__init__(port)
        self.moments = []

    def serve(self, link):
        self.moments.append(time.monotonic())
        link.close()


class Watcher(Listener):
    """Asks each switch what it is, and knows by their datapath ids which are there. It answers echoes."""

    def __init__(self, port):
        super().__init__(port)
        self.links = {}  # datapath ids, by connection

    def datapaths(self):
        return set(self.links.copy().values())

    def serve(self, link):
        rest = b""
        try:
            with link:
                link.sendall(message(MessageType.HELLO, 1, b"") + message(MessageType.FEATURES_REQUEST, 2, b""))
                while data := link.recv(65536):
                    rest = self.hear(link, rest + data)
        except OSError:
            pass
        finally:
            self.links.pop(link, None)

    def hear(self, link, data):
        """Takes the messages that are whole, and gives what is left."""
        while len(data) >= HEADER.size:
            _version, kind, length, xid = HEADER.unpack_from(data)
            if len(data) < length:
                break
            body, data = data[HEADER.size : length], data[max(HEADER.size, length) :]
            if kind == MessageType.FEATURES_REPLY:
                self.links[link] = int.from_bytes(body[:DATAPATH_SIZE])
            elif kind == MessageType.ECHO_REQUEST:
                link.sendall(message(MessageType.ECHO_REPLY, xid, body))
        return data
