"""The socket at which a transport of `ssh-mux -M` serves one run."""

import os
import socket


def listen(transport: str) -> socket.socket:
    """A listener, which only this user can reach. Its path appears once it listens."""
    listener, name = socket.socket(socket.AF_UNIX), f"{transport}.{os.getpid()}"
    mask = os.umask(0o177)
    try:
        listener.bind(name)
        try:
            listener.listen(1)
            # Unlike a renaming this fails where something stands there already.
            os.link(name, transport)
        finally:
            os.unlink(name)
    finally:
        os.umask(mask)
    return listener
