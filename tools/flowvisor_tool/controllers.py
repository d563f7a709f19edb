"""Where controllers listen: texts that no address can be, and addresses that two slices have."""
import ipaddress
import re
import socket

from .policy import Finding

HOST = re.compile(r"(?=.{1,253}\Z)[A-Za-z0-9_](?:[A-Za-z0-9_-]{0,62})(?:\.[A-Za-z0-9_][A-Za-z0-9_-]{0,62})*\.?")
NUMERIC = re.compile(r"[0-9.]+")
PORT = re.compile(r"[0-9]{1,5}")


def address_of(text):
    """The host and the port of a controller; ValueError says why it can have none."""
    host, colon, port = text.rpartition(":")
    if not colon:
        raise ValueError("has no port, so that it can never be dialled: it is written as host:port")
    if not PORT.fullmatch(port) or not 1 <= int(port) <= 65535:
        raise ValueError(f"has the port {port or 'of no digits'}, but a port is a number from 1 to 65535")
    return host_of(host), int(port)


def host_of(host):
    """A host in one spelling: an address, or a name in lower case."""
    if host.startswith("[") and host.endswith("]"):
        return numeric(ipaddress.IPv6Address, host[1:-1], "IPv6 address")
    if NUMERIC.fullmatch(host):
        return numeric(ipaddress.IPv4Address, host, "IPv4 address")
    if ":" in host:
        raise ValueError("has an IPv6 address without brackets: it is written as [fd00::5]:6633")
    if not HOST.fullmatch(host):
        raise ValueError(f"has the host {host!r}, which is neither an address nor a name")
    return host.lower().removesuffix(".")


def numeric(kind, text, noun):
    try:
        return str(kind(text))
    except ValueError:
        raise ValueError(f"has the host {text}, which is no {noun}") from None


def controller_warnings(slices):
    """What no connection can be made to, and what two slices have both."""
    first = {}
    for one in slices:
        if one.controller is None:
            continue
        try:
            address = address_of(one.controller)
        except ValueError as error:
            yield Finding(one.controller_position, f'slice {one.slot}: the controller "{one.controller}" {error}')
            continue
        earlier = first.setdefault(address, one)
        if earlier is not one:
            told = f"slice {one.slot}: the controller is that of slice {earlier.slot} (line {earlier.position.line}) too"
            yield Finding(one.controller_position, told)


def unresolved_names(slices):
    """Hosts of controllers that the system finds no address of, now and here."""
    reasons = {}
    for one in slices:
        try:
            host, port = address_of(one.controller or "")
        except ValueError:
            continue
        if host not in reasons:
            reasons[host] = reason_unresolved(host, port)
        if reasons[host] is not None:
            told = f'slice {one.slot}: the controller "{one.controller}" has the host {host}, which isn\'t resolved here: {reasons[host]}'
            yield Finding(one.controller_position, told)


def reason_unresolved(host, port):
    """Why the system finds no address of a host, or None where it does."""
    try:
        socket.getaddrinfo(host, port, type=socket.SOCK_STREAM)
    except socket.gaierror as error:
        return error.strerror
    except UnicodeError:
        return "it is no name of a host"
    return None
