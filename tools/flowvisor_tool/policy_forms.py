"""What the value of each key of a policy must be, and how it is read."""
import re
from collections.abc import Callable
from dataclasses import dataclass

from .fields import BITS, LARGEST_VLAN
from .openflow.protocol import LARGEST_PHYSICAL_PORT, UNTAGGED, Port

FULL_NETWORK = (1 << 32) - 1

NAME = re.compile(r"[a-z0-9_-]{1,32}")
SWITCH = re.compile(r"[0-9a-f]{16}")
HARDWARE = re.compile(r"[0-9a-f]{2}(?::[0-9a-f]{2}){5}")
NETWORK = re.compile(r"([0-9]{1,3})\.([0-9]{1,3})\.([0-9]{1,3})\.([0-9]{1,3})(?:/([0-9]{1,2}))?")


@dataclass(frozen=True)
class Form:
    """What the value of a key must be, in words, and how it is read: None where it is something else."""

    expected: str
    read: Callable[[object], object]


def number(least, greatest, *, also=None, step=1):
    """Whole numbers of a range, and perhaps one more."""

    def read(content):
        is_number = isinstance(content, int)
        return content if is_number and (content in range(least, greatest + 1, step) or content == also) else None

    multiple = f", a multiple of {step}" if step > 1 else ""
    more = f", or {also}" if also is not None else ""
    return Form(f"a number from {least} to {greatest}{multiple}{more}", read)


def text(expected, pattern):
    """Texts that a pattern has as a whole."""
    return Form(expected, lambda content: content if isinstance(content, str) and pattern.fullmatch(content) else None)


def read_controller(content):
    return content if isinstance(content, str) and 1 <= len(content.encode()) <= 255 else None


def read_names(content):
    is_names = isinstance(content, list) and all(isinstance(item.content, str) for item in content)
    return tuple(item.content for item in content) if is_names else None


def read_hardware(content):
    is_address = isinstance(content, str) and HARDWARE.fullmatch(content)
    return int(content.replace(":", ""), 16) if is_address else None


def is_plain_number(digits, greatest):
    """Whether digits are a number without a leading zero, up to this one."""
    return (digits == "0" or not digits.startswith("0")) and int(digits) <= greatest


def read_network(content):
    """The address and the mask of a network, or of an address alone."""
    match = NETWORK.fullmatch(content) if isinstance(content, str) else None
    if match is None or not all(is_plain_number(part, 255) for part in match.groups()[:4]):
        return None
    length = match[5] or "32"
    if length == "0" or not is_plain_number(length, 32):
        return None
    address = int.from_bytes(bytes(map(int, match.groups()[:4])))
    return address, FULL_NETWORK << (32 - int(length)) & FULL_NETWORK


HARDWARE_ADDRESS = Form('six pairs of hex digits in lower case, as "00:11:22:33:44:55"', read_hardware)
NETWORK_ADDRESS = Form('an address as "10.1.0.7", or with a length from 1 to 32 as "10.1.0.0/16"', read_network)

SWITCH_ID = text('16 hex digits in lower case, as "00000000000000a1"', SWITCH)
SLICE_NAME = text("the name of a slice, a text", re.compile(".*", re.DOTALL))

SLICE_FORMS = {
    "name": text("a text of 1 to 32 of a to z, 0 to 9, _ and -", NAME),
    "controller": Form("a text of 1 to 255 bytes", read_controller),
    "rate": number(1, 1_000_000),
    "burst": number(1, 1_000_000),
    "quota": number(0, 4096),
}
RULE_FORMS = {
    "switch": SWITCH_ID,
    "priority": number(0, (1 << 32) - 1),
    "write": SLICE_NAME,
    "read": Form('an array of names, as ["bob"]', read_names),
    "in_port": number(0, LARGEST_PHYSICAL_PORT, also=Port.LOCAL.value),
    "dl_src": HARDWARE_ADDRESS,
    "dl_dst": HARDWARE_ADDRESS,
    "dl_vlan": number(0, LARGEST_VLAN, also=UNTAGGED),
    "dl_vlan_pcp": number(0, 7),
    "dl_type": number(0, 65535),
    "nw_tos": number(0, 252, step=4),
    "nw_proto": number(0, 255),
    "nw_src": NETWORK_ADDRESS,
    "nw_dst": NETWORK_ADDRESS,
    "tp_src": number(0, 65535),
    "tp_dst": number(0, 65535),
}
PORT_FORMS = {
    "slice": SLICE_NAME,
    "switch": SWITCH_ID,
    "shown": number(0, LARGEST_PHYSICAL_PORT),
    "physical": number(0, LARGEST_PHYSICAL_PORT),
}
SLICE_REQUIRED, RULE_REQUIRED = ("name", "controller"), ("priority",)
PORT_REQUIRED = ("slice", "shown", "physical")
HIGHEST_VERSION = 2  # that `flowvisor check` accepts


def top_keys(version):
    """The keys of a whole policy of a version."""
    return ("version", "slice", "rule", "port") if version == 2 else ("version", "slice", "rule")


def constraint(name, value):
    """The value and the mask of a field."""
    if isinstance(value, tuple):
        return value
    return value, (1 << BITS[name]) - 1
