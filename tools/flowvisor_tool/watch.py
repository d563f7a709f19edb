"""Shows what passes between switches, the proxy and controllers, as a capture of it grows (pcap, pcapng)."""
import argparse
import contextlib
import os
import shutil
import signal
import sys

from .captures import Problem
from .ends import spelled
from .faults import Fault
from .from_pcap import slice_end, switch_end
from .watching.capturing import capture_command
from .watching.policies import watched_ends, watched_policy
from .watching.screen import screen_of
from .watching.server import is_loopback
from .watching.watcher import Watcher
from .watching.world import moment_text

NAME = "watch"
SUMMARY = "show what switches and slices do, as a capture grows"
USAGE = "%(prog)s [OPTION]... POLICY [CAPTURE]"
EPILOG = """\
CAPTURE is a file that grows, or - for standard input, which it is where nothing is said. --how prints the command that
captures what is needed. The page and /metrics are served at --http ADDRESS:PORT.
"""
DEFAULT_PORT = None, 6653
CLEAR = "\x1b[H\x1b[2J"


def add_arguments(parser):
    parser.usage = USAGE
    parser.epilog = EPILOG
    add = parser.add_argument
    add("--switch-port", default=DEFAULT_PORT, type=switch_end, metavar="PORT", help="where switches connect to (6653)")
    add("--slice", action="append", default=[], type=slice_end, metavar="SLICE=ADDRESS:PORT", help="a slice's controller")
    add("--how", action="store_true", help="print the command that captures, and end")
    add("--log", action="store_true", help="print a line for each thing that happens")
    add("--http", type=http_end, metavar="ADDRESS:PORT", help="serve the page and /metrics there")
    add("--public", action="store_true", help="at any address, not only this machine's own")
    add("--to-end", action="store_true", help="end where the file ends now")
    add("policy", metavar="POLICY", help="the policy's file")
    add("capture", metavar="CAPTURE", nargs="?", default="-", help="the capture, or - for standard input")


def http_end(text):
    """An address, which is numeric, and a port."""
    address, _colon, port = text.rpartition(":")
    address = address.removeprefix("[").removesuffix("]")
    try:
        is_loopback(address)
        if not (port.isascii() and port.isdecimal() and 0 <= int(port) < 1 << 16):
            raise ValueError
    except ValueError:
        raise argparse.ArgumentTypeError(f"{text!r} isn't ADDRESS:PORT") from None
    return address, int(port)


def run(arguments):
    if arguments.http and not arguments.public and not is_loopback(arguments.http[0]):
        arguments.usage_error(f"--http: {arguments.http[0]} isn't this machine's own address; --public serves there")
    policy, slices = watched_policy(arguments.policy)
    try:
        ends = watched_ends(arguments.switch_port, slices, arguments.slice, arguments.policy)
    except ValueError as problem:
        arguments.usage_error(f"argument --slice: {problem}")
    if arguments.how:
        print(capture_command(ends, words_of(arguments)))
        return 0
    watcher = Watcher(policy, slices, ends, arguments.policy, log_line if arguments.log else None)
    is_drawn = not arguments.log and sys.stdout.isatty()
    with opened(arguments.capture) as file, ended_by_terminate():
        if arguments.http:
            serve(watcher, arguments.http)
        try:
            watcher.follow(file.fileno(), arguments.to_end, draw(watcher) if is_drawn else lambda: None)
        except Problem as problem:
            raise Fault(str(problem), arguments.capture) from None
        except Terminated:
            pass
        finally:
            if is_drawn or not (arguments.log or arguments.http):
                print_screen(watcher, is_drawn)
    return 0


def words_of(arguments):
    """The words that say what is watched, and where it is shown."""
    address, port = arguments.switch_port
    words = [] if (address, port) == DEFAULT_PORT else ["--switch-port", str(port) if address is None else spelled((address, port))]
    for name, end in arguments.slice:
        words += ["--slice", f"{name}={spelled(end)}"]
    if arguments.http:
        words += ["--http", end_text(*arguments.http)]
    return [*words, *["--public"] * arguments.public, *["--log"] * arguments.log, arguments.policy]


def end_text(address, port):
    """An address and a port as --http spells them."""
    return f"[{address}]:{port}" if ":" in address else f"{address}:{port}"


@contextlib.contextmanager
def opened(name):
    """The file of a capture."""
    if name == "-":
        if sys.stdin is None or sys.stdin.isatty():
            raise Fault("standard input has no capture: --how prints the command that makes one")
        yield sys.stdin.buffer
        return
    with open(name, "rb", buffering=0) as file:
        yield file


class Terminated(Exception):
    """The signal by which services are ended: all is as it should be."""


@contextlib.contextmanager
def ended_by_terminate():
    """A signal to terminate ends it."""
    def end(_number, _frame):
        raise Terminated

    before = signal.signal(signal.SIGTERM, end)
    try:
        yield
    finally:
        signal.signal(signal.SIGTERM, before)


def serve(watcher, end):
    """Begins to serve the page."""
    try:
        server = watcher.serve(*end)
    except OSError as error:
        raise Fault(f"--http: {os.strerror(error.errno) if error.errno else error}") from None
    print(f"http://{end_text(*server.end())}/", file=sys.stderr, flush=True)


def log_line(time, text):
    """Prints what happened."""
    print(f"{moment_text(time)} {text}", flush=True)


def draw(watcher):
    """What renews the screen."""
    return lambda: print_screen(watcher, True)


def print_screen(watcher, is_terminal):
    """Prints the state: on a terminal as much of it as one screen has, in the place of what was there."""
    if is_terminal:
        columns, lines = shutil.get_terminal_size()
        print(CLEAR + screen_of(watcher.state(), columns, lines - 1), flush=True)
    else:
        print(screen_of(watcher.state(), 1 << 16, 1 << 16), flush=True)
