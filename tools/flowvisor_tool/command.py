"""The command line of flowvisor-tool: its subcommands, and how what is wrong with an input is reported."""
import argparse
import contextlib
import os
import signal
import sys

from flowvisor_tool import VERSION, clean, compare, explain, from_pcap, lint, show, to_pcap, try_message, watch
from .faults import Fault

# Each has NAME, SUMMARY, add_arguments(parser) and run(arguments), which gives the status.
SUBCOMMANDS = (lint, explain, try_message, show, to_pcap, from_pcap, compare, watch, clean)
BROKEN_PIPE_STATUS = 128 + signal.SIGPIPE
MISSPELLED_STATUS = 2
INTERRUPTED_STATUS = 128 + signal.SIGINT


def help_formatter(prog):
    """Has the help of each option on its line."""
    return argparse.HelpFormatter(prog, max_help_position=30)


class Parser(argparse.ArgumentParser):
    """A parser that ends with its status also where standard error takes nothing: that of Python 3.11.2 doesn't."""

    def error(self, message):
        with contextlib.suppress(OSError):
            self.print_usage(sys.stderr)
        with contextlib.suppress(OSError):
            print(f"{self.prog}: error: {message}", file=sys.stderr, flush=True)
        sys.exit(MISSPELLED_STATUS)


def parser():
    """The parser of the words, with a parser for each subcommand."""
    command = Parser(
        prog="flowvisor-tool",
        description="Reads what flowvisor takes and gives: policies, recordings, reports, plans and captures.",
        allow_abbrev=False,
    )
    command.add_argument("--version", action="version", version=f"%(prog)s {VERSION}")
    subparsers = command.add_subparsers(required=True, metavar="COMMAND")
    for subcommand in SUBCOMMANDS:
        words = subparsers.add_parser(
            subcommand.NAME, help=subcommand.SUMMARY, description=subcommand.__doc__, allow_abbrev=False,
            formatter_class=help_formatter,
        )
        subcommand.add_arguments(words)
        words.set_defaults(run=subcommand.run, usage_error=words.error)
    return command


def system_text(error):
    """A fault of the system, with the file that it is of."""
    reason = error.strerror or str(error)
    return reason if error.filename is None else f"{error.filename}: {reason}"


def tell(text):
    """Says on standard error what is wrong, as far as that takes it."""
    with contextlib.suppress(OSError):
        print(f"flowvisor-tool: {text}", file=sys.stderr, flush=True)


def run(words):
    """Runs the subcommand that the words name, and gives its status."""
    if sys.stderr is None:
        sys.stderr = open(os.devnull, "w")
    if sys.stdout is None:
        raise Fault("standard output is closed")
    try:
        arguments = parser().parse_args(words)
        return arguments.run(arguments)
    finally:
        sys.stdout.flush()


def main(words=None):
    """Runs the subcommand that the words name, and gives its status: 1 for an input that can't be taken."""
    try:
        return run(words)
    except Fault as fault:
        tell(fault)
    except BrokenPipeError:
        # The reader of a pipe has gone, as `head` does. What it didn't read would be written once more at the exit.
        os.dup2(os.open(os.devnull, os.O_WRONLY), sys.stdout.fileno())
        return BROKEN_PIPE_STATUS
    except OSError as error:
        tell(system_text(error))
    except KeyboardInterrupt:
        return INTERRUPTED_STATUS
    return 1
