"""The command line: its forms, and the statuses and lines with which `flowvisor` ends."""
import pathlib
import re
import sys
from dataclasses import dataclass

from flowvisor_tool.policy_text import LARGEST_FILE
from flowvisor_tool.recordings import LARGEST_RECORDING

from .division import DivisionRefused, flattened
from .generator import POLICY, rounds
from .policy_file import PolicyRefused, read_policy
from .policy_print import policy_lines
from .recording import RecordingRefused, read_records
from .report import report_lines
from .summary import summary_lines

USAGE = "usage: flowvisor check POLICY / replay POLICY RECORDING / gen SEED COUNT / serve POLICY LISTEN COUNT / flatten OUTER NAME INNER"
NUMBER = re.compile("0|[1-9][0-9]*")
SEEDS, MOST_ROUNDS = 1 << 64, 1_000_000


@dataclass
class Ending(Exception):
    """A run that does nothing more: its status, and the line on standard error."""

    status: int
    line: str


def main(words=None):
    """Does what the words say, and gives the status. `serve` isn't done here, and its words are none of the forms."""
    try:
        lines = answered(sys.argv[1:] if words is None else words)
        put(lines)
    except Ending as ending:
        print(ending.line, file=sys.stderr)
        return ending.status
    return 0


def answered(words):
    """The lines that answer some words."""
    match words:
        case ["check", policy] if are_words(policy):
            accepted = load_policy(policy)
            return [f"ok {len(accepted.slices)} {len(accepted.rules)}"]
        case ["replay", policy, recording] if are_words(policy, recording):
            accepted = load_policy(policy)
            return report_lines(accepted, load_records(recording, accepted))
        case ["gen", seed, count] if is_number(seed, SEEDS - 1) and is_number(count, MOST_ROUNDS):
            accepted = load_policy(POLICY)
            records = read_records(rounds(int(seed), int(count)), len(accepted.slices))
            return summary_lines(accepted, records)
        case ["flatten", outer, name, inner] if are_words(outer, name, inner):
            return policy_lines(divided(load_policy(outer), name, inner))
    raise Ending(1, USAGE)


def are_words(*words):
    return all(word and not word.startswith("-") for word in words)


def is_number(word, greatest):
    return NUMBER.fullmatch(word) is not None and int(word) <= greatest


def load(path, limit):
    """The bytes of a file, which may have so many."""
    try:
        data = pathlib.Path(path).read_bytes()
    except (OSError, ValueError):
        raise Ending(4, "read fault") from None
    if len(data) > limit:
        raise Ending(7, "too large")
    return data


def load_policy(path):
    try:
        return read_policy(load(path, LARGEST_FILE))
    except PolicyRefused as refusal:
        raise Ending(2, f"policy: {refusal}") from None


def load_records(path, policy):
    try:
        return read_records(load(path, LARGEST_RECORDING), len(policy.slices))
    except RecordingRefused as refusal:
        raise Ending(3, f"recording: {refusal}") from None


def divided(outer, name, path):
    """The flat policy where the slice of this name is divided by the policy at a path, which is read behind the name."""
    names = [one.name for one in outer.slices]
    if name not in names:
        raise Ending(2, "nest: no slice")
    inner = load_policy(path)
    try:
        return flattened(outer, names.index(name), inner)
    except DivisionRefused as refusal:
        raise Ending(2, f"nest: {refusal}") from None
    except PolicyRefused as refusal:
        raise Ending(2, f"policy: {refusal}") from None


def put(lines):
    """Writes lines as they come."""
    try:
        for line in lines:
            sys.stdout.write(line + "\n")
        sys.stdout.flush()
    except OSError:
        raise Ending(5, "write fault") from None
