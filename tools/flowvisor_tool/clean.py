"""Sends a switch the plan of a change of policy, or prints the commands that do."""
import argparse
import contextlib
import shlex
import sys

from .ends import number_of
from .files import named, say
from .flow_text import flow_mod_text
from .openflow.messages import message_text
from .passive import Refused, end_text, send
from .plans import Plan, plan_for
from .recordings import SWITCHES

NAME = "clean"
SUMMARY = "send a switch the plan of a change of policy"
EPILOG = """\
A plan takes away the entries that slices may no longer have under a new policy, and adds none. It has a line
`SWITCH clean BYTES-IN-HEX` for each flow-mod, and a last line `end EVENTS MESSAGES`. --ovs prints a command of Open
vSwitch for each message, for a shell. --to sends them by OpenFlow 1.0 to a port where the switch listens for
controllers (with Open vSwitch ptcp:PORT), and waits until it has answered a barrier behind them. Without a file the
plan is read from standard input.
"""
STANDARD_INPUT = "standard input"


def add_arguments(parser):
    parser.epilog = EPILOG
    way = parser.add_mutually_exclusive_group(required=True)
    way.add_argument("--ovs", metavar="BRIDGE", help="print the commands for a bridge of Open vSwitch")
    way.add_argument("--to", metavar="HOST:PORT", type=listening_end, help="send the plan to a switch that listens there")
    parser.add_argument("--switch", metavar="NUMBER", type=switch_number, help="the switch's number in the plan, where it is for several")
    parser.add_argument("plan", metavar="PLAN", nargs="?", help="the plan")


def listening_end(text):
    """A host, by name or address, and a port."""
    host, _colon, port = text.rpartition(":")
    host = host[1:-1] if host.startswith("[") and host.endswith("]") else host
    with contextlib.suppress(ValueError):
        if host:
            return host, number_of(port, 1, 1 << 16)
    raise argparse.ArgumentTypeError(f"{text!r} isn't HOST:PORT")


def switch_number(text):
    with contextlib.suppress(ValueError):
        return number_of(text, 0, SWITCHES)
    raise argparse.ArgumentTypeError(f"{text!r} is no number from 0 to {SWITCHES - 1}")


def run(arguments):
    plan = read_plan(arguments.plan, arguments.switch)
    if arguments.ovs is not None:
        say(ovs_command(arguments.ovs, message) for message in plan)
        return 0
    return send_plan(plan, arguments.to)


def read_plan(path, switch):
    """The messages of a plan for one switch, once all of it was read."""
    if path is None:
        return plan_for(Plan(sys.stdin.buffer, STANDARD_INPUT), switch)
    with open(path, "rb") as file, named(path):
        return plan_for(Plan(file, path), switch)


def ovs_command(bridge, message):
    """The command that has Open vSwitch do what a message says."""
    return shlex.join(["ovs-ofctl", "--strict", "del-flows", bridge, flow_mod_text(message)])


def send_plan(plan, end):
    """Sends a plan, and says what came of it; the status is 1 where the switch refused a message."""
    if not plan:
        say(["the plan has no message for the switch: nothing was sent"])
        return 0
    with named(end_text(end)):
        refused = send(end, plan)
    if refused:
        say([message_text(error) for error in refused])
        raise Refused(end, len(refused), len(plan))
    say([f"{end_text(end)}: done, {len(plan)} message{'s' * (len(plan) != 1)}"])
    return 0
