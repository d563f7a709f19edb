"""A server of HTTP that is only read: the page, the state behind it, and the metrics."""
import contextlib
import ipaddress
import socket
import threading
import time

MOST_CONNECTIONS = 16
# In seconds: how long a request may take to come, and an answer to be taken.
LONGEST_WAIT = 5
LARGEST_HEAD = 8192
LONGEST_TARGET = 256
STATUSES = {200: "OK", 400: "Bad Request", 404: "Not Found"}
METHODS = ("GET", "HEAD")
POLICY_OF_CONTENT = "default-src 'none'; style-src 'unsafe-inline'; script-src 'unsafe-inline'; connect-src 'self'; base-uri 'none'"


class BadRequest(Exception):
    """A request that isn't answered but with this status."""

    def __init__(self, status):
        super().__init__(status)
        self.status = status


def is_loopback(address):
    """Whether an address is this machine's own."""
    return ipaddress.ip_address(address).is_loopback


class Server:
    """Answers requests for some targets, each with what a function gives: the kind of its content, and a text.

    Each connection has a thread, and one request. Beyond 16 connections a further one waits.
    """

    def __init__(self, address, port, targets):
        self.targets = targets
        family = socket.AF_INET6 if ":" in address else socket.AF_INET
        self.listening = socket.create_server((address, port), family=family, backlog=MOST_CONNECTIONS)
        self.places = threading.BoundedSemaphore(MOST_CONNECTIONS)
        self.is_closed = False

    def end(self):
        """The address and the port at which it listens."""
        return self.listening.getsockname()[:2]

    def start(self):
        """Begins to answer."""
        threading.Thread(target=self.accept, daemon=True).start()

    def close(self):
        """Takes no further connection."""
        self.is_closed = True
        with contextlib.suppress(OSError):
            self.listening.shutdown(socket.SHUT_RDWR)
        self.listening.close()

    def accept(self):
        """Takes connections, one for each place that is free."""
        while not self.is_closed:
            self.places.acquire()
            try:
                connection, _peer = self.listening.accept()
                threading.Thread(target=self.serve, args=(connection,), daemon=True).start()
            except (OSError, RuntimeError):
                # No descriptor, or no thread, is left: the next one is tried a little later.
                self.places.release()
                threading.Event().wait(0.1)

    def serve(self, connection):
        """Answers the request of a connection."""
        try:
            with connection:
                connection.settimeout(LONGEST_WAIT)
                self.answer(connection)
        except OSError:
            pass
        finally:
            self.places.release()

    def answer(self, connection):
        """Reads a request and answers it."""
        try:
            method, target = request_of(read_head(connection))
            if target not in self.targets:
                raise BadRequest(404)
            kind, text = self.targets[target]()
            send(connection, 200, kind, text.encode(), method == "HEAD")
        except BadRequest as refused:
            status = refused.status
            send(connection, status, "text/plain; charset=utf-8", f"{status} {STATUSES[status]}\n".encode())
        with contextlib.suppress(OSError):
            connection.shutdown(socket.SHUT_WR)


def read_head(connection):
    """The head of a request, up to its empty line."""
    head, end = b"", time.monotonic() + LONGEST_WAIT
    while b"\r\n\r\n" not in head:
        if len(head) > LARGEST_HEAD or time.monotonic() > end:
            raise BadRequest(400)
        try:
            data = connection.recv(4096)
        except TimeoutError:
            raise BadRequest(400) from None
        if not data:
            raise BadRequest(400)
        head += data
    return head.partition(b"\r\n\r\n")[0]


def request_of(head):
    """The method and the target of a request, without the target's query."""
    lines = head.decode("latin-1").split("\r\n")
    words = lines[0].split(" ")
    if len(words) != 3 or not words[2].startswith("HTTP/1.") or not all(":" in line for line in lines[1:]):
        raise BadRequest(400)
    method, target, _version = words
    if method not in METHODS or not target.startswith("/") or len(target) > LONGEST_TARGET:
        raise BadRequest(400)
    return method, target.partition("?")[0]


def send(connection, status, kind, body, is_head=False):
    """Answers a request."""
    fields = {
        "Content-Type": kind, "Content-Length": len(body), "Connection": "close", "Cache-Control": "no-store",
        "Content-Security-Policy": POLICY_OF_CONTENT, "X-Content-Type-Options": "nosniff", "Referrer-Policy": "no-referrer",
    }
    head = f"HTTP/1.1 {status} {STATUSES[status]}\r\n" + "".join(f"{name}: {value}\r\n" for name, value in fields.items())
    connection.sendall(head.encode() + b"\r\n" + (b"" if is_head else body))
