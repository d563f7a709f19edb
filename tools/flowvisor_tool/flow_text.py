"""Flows as `ovs-ofctl` takes them for `add-flow` and prints them for `dump-flows`."""
import re
from dataclasses import dataclass

from .fields import constraints_of, words_of
from .openflow.actions import actions_text
from .openflow.matches import Match
from .openflow.messages import FLOW_MOD, split
from .openflow.protocol import HEADER, FlowModCommand, FlowModFlag, Port
from .openflow.text import hexadecimal, port_of

# What stands in a flow beside its match: what it is printed with, what was counted, and flags.
SETTINGS = ("priority", "cookie", "idle_timeout", "hard_timeout", "out_port")
COUNTED = ("table", "duration", "n_packets", "n_bytes", "idle_age", "hard_age", "importance")
FLAGS = ("send_flow_rem", "check_overlap", "reset_counts", "no_packet_counts", "no_byte_counts")
FLAG_WORDS = {FlowModFlag.SEND_FLOW_REM: "send_flow_rem", FlowModFlag.CHECK_OVERLAP: "check_overlap"}
DELETES = (FlowModCommand.DELETE, FlowModCommand.DELETE_STRICT)
ACTIONS = re.compile(r"(?:^|[,\s])actions?=(?P<actions>.*)", re.DOTALL)


@dataclass(frozen=True)
class FlowText:
    """A flow: the fields of its match, each with a value and a mask, what else is said of it, and the text of its actions."""

    fields: dict[str, tuple[int, int]]
    settings: dict[str, str]
    flags: frozenset[str]
    actions: str | None

    def is_flow(self):
        """Whether it says something that a packet doesn't have."""
        return bool(self.settings or self.flags) or self.actions is not None


def read_flow(text):
    """The flow that a text says, as one line or as the words of it."""
    found = ACTIONS.search(text)
    words = words_of(text[: found.start()] if found else text)
    flags = frozenset(word for word in words if word in FLAGS)
    settings, fields = {}, []
    for word in words:
        name, equals, value = word.partition("=")
        if equals and name in (*SETTINGS, *COUNTED):
            settings[name] = value
        elif word not in FLAGS:
            fields.append(word)
    return FlowText(constraints_of(fields), settings, flags, found["actions"].strip() if found else None)


def flow_mod_text(frame):
    """A FLOW_MOD as the words of a flow that say the same. The command stands in no word, and one that deletes has no actions."""
    match, cookie, command, idle, hard, priority, _buffer, out_port, flags, actions = split(FLOW_MOD, frame[HEADER.size :])
    words = [f"priority={priority}"]
    numbers = {"cookie": cookie and hexadecimal(cookie), "idle_timeout": idle, "hard_timeout": hard}
    words += [f"{name}={number}" for name, number in numbers.items() if number]
    words += [word for flag, word in FLAG_WORDS.items() if flags & flag]
    if out_port != Port.NONE:
        words.append(f"out_port={port_of(out_port)}")
    match = Match.of(match)
    words += [str(match)] if str(match) != "any" else []
    if command not in DELETES:
        words.append(f"actions={actions_text(actions)}")
    return ",".join(words)
