"""How numbers, names and bytes of the wire are written."""
import ipaddress

from .protocol import NO_BUFFER, MessageType, Port


def name_of(kind, number):
    """The name of a number of an enumeration, in small letters; or the number."""
    try:
        return kind(number).name.lower()
    except ValueError:
        return str(number)


def standard_name_of(kind, number):
    """The name as the standard writes it; or the number."""
    try:
        return kind(number).name
    except ValueError:
        return str(number)


def flags_of(kind, number):
    """The names of the flags that are set, with a + between them, and what is left as a number; 0 where none is."""
    names = []
    for flag in kind:
        if number & flag == flag:
            names.append(flag.name.lower())
            number &= ~flag
    if number or not names:
        names.append(f"0x{number:x}" if number else "0")
    return "+".join(names)


def hexadecimal(number):
    return f"0x{number:x}"


def xid_of(number):
    return f"0x{number:08x}"


def datapath_of(number):
    return f"{number:016x}"


def port_of(number):
    """A port's number, or its name where it isn't physical."""
    return standard_name_of(Port, number)


def buffer_of(number):
    return "none" if number == NO_BUFFER else str(number)


def mac_of(address):
    return address.hex(":")


def ipv4_of(number):
    return str(ipaddress.IPv4Address(number))


def seconds_of(seconds, nanoseconds):
    return f"{seconds}.{nanoseconds:09d}s"


def is_plain(character):
    return character.isascii() and character.isprintable() and character not in '"\\'


def quoted(data):
    """A text that ends with its first zero byte. What a terminal could take for anything but a letter is escaped."""
    letters = data.partition(b"\0")[0].decode("latin-1")
    return '"' + "".join(letter if is_plain(letter) else f"\\x{ord(letter):02x}" for letter in letters) + '"'


def fields_of(**fields):
    """Fields by name, in one line. The name of one that is a keyword of Python has an underscore behind it."""
    return " ".join(f"{name.rstrip('_')}={value}" for name, value in fields.items())


def message_type_of(number):
    """The name of a message's type; or the number."""
    return standard_name_of(MessageType, number)
