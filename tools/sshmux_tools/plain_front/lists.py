"""What the master's lists permit, so that what they forbid is refused before anybody listens.

The lists that bind are the master's. These are told to the front beside them, and bind for what the
front serves by itself.
"""

from __future__ import annotations

from sshmux_tools.plain_front.requests import Forwarding, Kind, end_of
from sshmux_tools.protocol import PORT_OF_PATH



def matches(entry: str, host: bytes, port: int) -> bool:
    """Whether an entry of a list permits a host and port, or a path."""
    if entry == "any":
        return True
    if port == PORT_OF_PATH or entry.startswith("/"):
        return port == PORT_OF_PATH and entry.encode() == host
    wanted_host, colon, wanted_port = entry.rpartition(":")
    if wanted_host.startswith("[") and wanted_host.endswith("]"):
        wanted_host = wanted_host[1:-1]
    is_host = not colon or wanted_host == "*" or wanted_host.encode() == host
    is_port = wanted_port == "*" or (wanted_port.isdigit() and int(wanted_port) == port)
    return is_host and is_port


class Lists:
    """The entries of --permit-open, --permit-listen and --permit-here. A list without entries
    permits all. At a door its clients don't connect to paths on this side, which are its owner's."""

    def __init__(
        self, permit_open: list[str], permit_listen: list[str], permit_here: list[str],
        is_door: bool,
    ) -> None:  # fmt: skip
        self.permit_open, self.permit_listen = permit_open, permit_listen
        self.permit_here, self.is_door = permit_here, is_door

    def forbids_open(self, host: bytes, port: int) -> str | None:
        """Why nobody may connect there, or None."""
        return self.forbids("--permit-open", self.permit_open, host, port)

    def forbids_listen(self, host: bytes, port: int) -> str | None:
        return self.forbids("--permit-listen", self.permit_listen, host, port)

    def forbids_here(self, host: bytes, port: int) -> str | None:
        """Why nobody may listen there on this side, or None. A path is its owner's alone, and so
        is what isn't a door."""
        if port == PORT_OF_PATH and not self.is_door and self.permit_here != ["none"]:
            return None
        return self.forbids("--permit-here", self.permit_here, host, port)

    def forbids_path(self, forwarding: Forwarding) -> str | None:
        """Why no connection may be made there on this side, or None."""
        if self.is_door and forwarding.connect_port == PORT_OF_PATH and not forwarding.is_dynamic:
            return "not permitted: a door connects to no path on this side"
        return None

    @staticmethod
    def forbids(flag: str, entries: list[str], host: bytes, port: int) -> str | None:
        if not entries or any(matches(entry, host, port) for entry in entries):
            return None
        return f"not permitted: {flag} doesn't have {end_of(host, port)}"

    def forbids_forwarding(self, forwarding: Forwarding, listen_host: bytes) -> str | None:
        """Why a forwarding may not be, or None. It listens at this host, of the server or here."""
        if forwarding.kind == Kind.REMOTE:
            why = self.forbids_listen(listen_host, forwarding.listen_port)
            return why or self.forbids_path(forwarding)
        why = self.forbids_here(listen_host, forwarding.listen_port)
        if why is None and forwarding.kind == Kind.LOCAL:
            why = self.forbids_open(forwarding.connect_host, forwarding.connect_port)
        return why
