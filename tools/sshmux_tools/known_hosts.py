"""Whether a host's key is the one that the known-hosts files have for it (sshd(8), "SSH_KNOWN_HOSTS
FILE FORMAT").

A key is known where a line has it for the host's name. One that isn't, while a line has another key
of its type, has changed. A key in a @revoked line of the host is refused whatever else stands
there. Lines of @cert-authority are passed over, since no certificate of a host is asked for.
"""

import base64
import dataclasses
import hashlib
import hmac
import re
from collections.abc import Iterator

DEFAULT_PORT = 22


class NotKnown(Exception):
    """The key can't be taken; the text says which file disagrees, or which have nothing."""


@dataclasses.dataclass
class Line:
    place: str
    marker: str
    names: str
    kind: str
    key: bytes


def read_line(text: str, place: str) -> Line | None:
    """The line's fields; None for a comment, and for a line that has no key."""
    fields = text.split()
    if not fields or fields[0].startswith("#"):
        return None
    marker = fields.pop(0) if fields[0].startswith("@") else ""
    if len(fields) < 3:
        return None
    try:
        return Line(place, marker, fields[0], fields[1], base64.b64decode(fields[2], validate=True))
    except ValueError:
        return None


def lines_of(files: list[str]) -> Iterator[Line]:
    for file in files:
        try:
            with open(file, encoding="utf-8", errors="surrogateescape") as stream:
                texts = stream.read().splitlines()
        except FileNotFoundError:
            continue
        except OSError as error:
            raise NotKnown(f"{file}: {error.strerror or error}") from None
        for number, text in enumerate(texts, 1):
            if line := read_line(text, f"{file} line {number}"):
                yield line


def is_hash_of(pattern: str, name: str) -> bool:
    """A hashed name is |1|SALT|HASH, both in base64."""
    parts = pattern.split("|")
    if len(parts) != 4 or parts[1] != "1":
        return False
    try:
        salt, digest = (base64.b64decode(part, validate=True) for part in parts[2:])
    except ValueError:
        return False
    return hmac.compare_digest(hmac.digest(salt, name.encode(), hashlib.sha1), digest)


def matches_pattern(pattern: str, name: str) -> bool:
    pieces = {"*": ".*", "?": "."}
    expression = "".join(pieces.get(c) or re.escape(c) for c in pattern.lower())
    return re.fullmatch(expression, name, re.DOTALL) is not None


def has_name(line: Line, name: str) -> bool:
    """A name that matches a pattern behind an exclamation mark isn't meant by the line."""
    if line.names.startswith("|"):
        return is_hash_of(line.names, name)
    is_named = False
    for pattern in line.names.split(","):
        if pattern.startswith("!"):
            if matches_pattern(pattern[1:], name):
                return False
        elif matches_pattern(pattern, name):
            is_named = True
    return is_named


class KnownHosts:
    """What the files say of one host."""

    def __init__(self, files: list[str], host: str, port: int, alias: str | None) -> None:
        self.files = files
        # An alias stands without a port.
        self.name = (alias or host).lower()
        if alias is None and port != DEFAULT_PORT:
            # A line without a port is taken, too, but speaks against no other key.
            self.other_name, self.name = self.name, f"[{self.name}]:{port}"
        else:
            self.other_name = self.name
        named = [
            line for line in lines_of(files)
            if has_name(line, self.name) or has_name(line, self.other_name)
        ]
        self.revoked = [line for line in named if line.marker == "@revoked"]
        self.keys = [line for line in named if not line.marker]

    def kinds(self) -> list[str]:
        """The types of the keys that are known: the server is asked for one of these."""
        return [line.kind for line in self.keys]

    def check(self, kind: str, key: bytes) -> None:
        """Raises NotKnown where the key isn't the host's."""
        for line in self.revoked:
            if line.key == key:
                raise NotKnown(f"its {kind} key is revoked: {line.place}")
        if any(line.key == key for line in self.keys):
            return
        for line in self.keys:
            if line.kind == kind and has_name(line, self.name):
                raise NotKnown(f"its {kind} key isn't the one that is known: {line.place}")
        raise NotKnown(f"its {kind} key isn't known as {self.name}: {' '.join(self.files)}")
