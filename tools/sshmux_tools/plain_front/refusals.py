"""Why a forwarding is refused, as far as it can be seen from here: the master's own reply is one
text for all causes."""

from __future__ import annotations

import errno
import ipaddress
import re
import socket

from sshmux_tools.plain_front.requests import LETTERS, Forwarding, Kind, end_of
from sshmux_tools.protocol import PORT_OF_PATH
from sshmux_tools.texts import printable, reason


# The master's own bounds.
LONGEST_HOST, HIGHEST_PORT, MOST_FORWARDINGS = 255, 65535, 64

# An interface behind an address.
INTERFACE = re.compile(rb"[A-Za-z0-9._-]+")

# What a host to listen on stands for on this machine.
LOCAL_HOSTS = {b"": b"127.0.0.1", b"localhost": b"127.0.0.1", b"*": b"0.0.0.0"}


def fault_of(forwarding: Forwarding) -> str | None:
    """What is wrong with a request, whatever else is forwarded."""
    ends = [(forwarding.listen_host, forwarding.listen_port)]
    if not forwarding.is_dynamic:
        ends.append((forwarding.connect_host, forwarding.connect_port))
    for host, port in ends:
        if port == PORT_OF_PATH:
            if not host.startswith(b"/") or b"\0" in host:
                return f"{printable(host)} is no path from the root"
        elif port > HIGHEST_PORT:
            return f"port {port} is above {HIGHEST_PORT}"
        elif len(host) > LONGEST_HOST:
            return f"a host has {len(host)} bytes, and at most {LONGEST_HOST} are served"
    letter = LETTERS.get(Kind(forwarding.kind)) if forwarding.kind in set(Kind) else None
    if letter is None:
        return f"kind {forwarding.kind} is none of -L, -R and -D"
    if forwarding.kind == Kind.DYNAMIC and forwarding.listen_port == PORT_OF_PATH:
        return "-D listens at a port"
    if forwarding.listen_port == 0 and forwarding.kind != Kind.REMOTE:
        return f"{letter} listens at a port that is named, and 0 is none"
    if forwarding.connect_port == 0 and not forwarding.is_dynamic:
        return "port 0 is none to connect to"
    return None


def version_of(host: bytes) -> int | None:
    """Whether a host is an address of version 4 or 6, maybe with its interface, or neither."""
    address, percent, interface = host.partition(b"%")
    if percent and not INTERFACE.fullmatch(interface):
        return None
    try:
        return ipaddress.ip_address(address.decode("ascii")).version
    except ValueError:
        return None


def cannot_listen(host: bytes, port: int) -> str | None:
    """Why nobody can listen there on this machine, at this moment."""
    address = LOCAL_HOSTS.get(host, host)
    version = version_of(address)
    if version is None:
        return f"{printable(host)} is a name: -L and -D listen at addresses, at localhost and at *"
    family = socket.AF_INET6 if version == 6 else socket.AF_INET
    try:
        with socket.socket(family) as tried:
            tried.setsockopt(socket.SOL_SOCKET, socket.SO_REUSEADDR, 1)
            tried.bind((address.decode(), port))
            tried.listen(1)
    except OSError as error:
        if error.errno == errno.EADDRINUSE:
            return f"port {port} is taken at {printable(address)}"
        return f"{end_of(address, port)}: {reason(error)}"
    return None


def why_not_listening(forwarding: Forwarding, error: OSError) -> str:
    """Why the front can't listen for a forwarding."""
    if error.errno == errno.EADDRINUSE and forwarding.listen_port == PORT_OF_PATH:
        return f"{forwarding.listening} exists"
    return f"{forwarding.listening}: {reason(error)}"


def why_refused(forwarding: Forwarding, other: Forwarding | None, count: int) -> str:
    """Why the master refused a forwarding. `other` is the one that is open at its place, and so
    many were opened here."""
    if (fault := fault_of(forwarding)) is not None:
        return fault
    if other is not None and not other.goes_where(forwarding):
        return f"{other.name} is open at this place, to another end"
    if forwarding.kind == Kind.REMOTE:
        return (
            f"the server doesn't listen at {forwarding.listening}: it is taken there, the server or"
            " --permit-listen doesn't allow it, or the transport is OpenSSH's master"
        )
    if (fault := cannot_listen(forwarding.listen_host, forwarding.listen_port)) is not None:
        return fault
    if count >= MOST_FORWARDINGS:
        return f"{MOST_FORWARDINGS} forwardings are open"
    return f"the master refuses {forwarding.name}: it may have {MOST_FORWARDINGS} forwardings"
