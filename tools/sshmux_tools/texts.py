"""What others said, and the system's faults, as texts for a line."""

LONGEST_TEXT = 200


def printable(data: bytes) -> str:
    """A text of the other side's, in a form that does nothing to a line or a terminal."""
    text = data[:LONGEST_TEXT].decode(errors="replace")
    shown = "".join(c if c.isprintable() else repr(c)[1:-1] for c in text)
    return shown + ("..." if len(data) > LONGEST_TEXT else "")


def place(host: bytes, port: int) -> str:
    """A host and port."""
    name = printable(host)
    return f"[{name}]:{port}" if ":" in name else f"{name}:{port}"


def reason(error: OSError) -> str:
    return error.strerror or str(error)
