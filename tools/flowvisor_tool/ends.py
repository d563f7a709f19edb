"""The addresses at which connections are served, and the words that give them."""
import ipaddress

from .connections import SWITCH
from .faults import Fault
from .policy_text import accepted_policy
from .recordings import SLOTS


class Ends:
    """The addresses at which connections are served: those of one role at a port, and the controllers' at their own."""

    def __init__(self, address, port, slots, role=SWITCH):
        self.address = address  # None is any
        self.port = port
        self.slots = slots  # by address and port
        self.role_at_port = role

    def role(self, end):
        """What a connection to this address and port is: a slot's, a switch's, or None."""
        if end in self.slots:
            return self.slots[end]
        return self.role_at_port if end[1] == self.port and self.address in (None, end[0]) else None

    def concern(self, datagram):
        """Whether a segment may be of a connection that is recorded."""
        return self.role(datagram.destination) is not None or self.role(datagram.source) is not None


def spelled(end):
    """An address and a port as the options spell them."""
    address = ipaddress.ip_address(end[0])
    return f"[{address}]:{end[1]}" if address.version == 6 else f"{address}:{end[1]}"


def number_of(text, first, limit):
    """The number of decimal digits, from the first one on and below the limit, or ValueError."""
    if not (text.isascii() and text.isdecimal() and first <= int(text) < limit):
        raise ValueError(f"{text!r} is no such number")
    return int(text)


def port_of(text):
    """A port's number, or ValueError."""
    return number_of(text, 1, 1 << 16)


def end_of(text):
    """An address and a port, as 10.0.0.5:6633 or [fd00::5]:6633, or ValueError."""
    address, _colon, port = text.rpartition(":")
    if address.startswith("[") and address.endswith("]"):
        return ipaddress.IPv6Address(address[1:-1]).packed, port_of(port)
    return ipaddress.IPv4Address(address).packed, port_of(port)


def slices_of(path):
    """The names and the controllers of a policy's slices, by slot."""
    return [(one.name, one.controller) for one in accepted_policy(path).slices]


def slot_of(word, slices):
    """The slot that a slice's name or a number says, or ValueError."""
    names = [name for name, _controller in slices]
    if word in names:
        return names.index(word)
    # Python turns no number of thousands of digits into an int.
    if word.isascii() and word.isdecimal() and len(word) < 10 and int(word) < (len(slices) or SLOTS):
        return int(word)
    text = "is neither a slice's name in the policy nor a slot" if slices else "is no slot, and a name needs --policy"
    raise ValueError(f"{word!r} {text}")


def slots_of(given, slices, path):
    """The slots by the addresses of their controllers: the given ones, by slot, and those of the policy for all other slices."""
    ends = {}
    for slot, end in given:
        ends.setdefault(slot, []).append(end)
    for slot, (name, controller) in enumerate(slices):
        try:
            ends[slot] = ends.get(slot) or [end_of(controller)]
        except ValueError:
            hint = f"--slice {name}=ADDRESS:PORT gives one"
            raise Fault(f"the controller of {name}, {controller!r}, is no numeric address: {hint}", path) from None
    slots = {}
    for slot in sorted(ends):
        for end in ends[slot]:
            if slots.setdefault(end, slot) != slot:
                raise Fault(f"slots {slots[end]} and {slot} have the same controller, {spelled(end)}", path)
    return slots


def unrecorded(slots, recorded):
    """A line for each of the slots, given by address, of which no connection is recorded."""
    if not slots:
        return ["no slice: neither --policy nor --slice gives a controller's address"]
    lines = []
    for slot in sorted(set(slots.values()) - recorded):
        addresses = " or ".join(spelled(end) for end in slots if slots[end] == slot)
        lines.append(f"slot {slot}: no connection to {addresses} is recorded")
    return lines
