"""The words of an ssh command: which host is meant, over what connection, and what for."""

import getopt
import os

# ssh's options; those with a value have a colon. The ones that say which connection is meant are
# turned into lines of its configuration.
LETTERS = "1246ab:c:e:fgi:kl:m:no:p:qstvxAB:CD:E:F:GI:J:KL:MNO:P:Q:R:S:TVw:W:XYy"
LINES = {
    "-4": "AddressFamily=inet", "-6": "AddressFamily=inet6", "-C": "Compression=yes",
    "-b": "BindAddress=", "-B": "BindInterface=", "-c": "Ciphers=", "-i": "IdentityFile=",
    "-I": "PKCS11Provider=", "-J": "ProxyJump=", "-l": "User=", "-m": "MACs=", "-o": "",
    "-p": "Port=", "-P": "Tag=",
}  # fmt: skip

# Where this variable has a host's name, the block of that host in ssh's configuration isn't there.
BYPASS = "SSHMUX_DIRECT"


class BadWords(Exception):
    """The words name no host, or have an option that ssh doesn't know."""


class Command:
    """What is asked for by the words of an ssh command."""

    def __init__(self, words: list[str]) -> None:
        try:
            self.options, rest = getopt.getopt(words, LETTERS)
            if not rest:
                raise BadWords("no host is named")
            self.host = rest[0]
            self.options += getopt.getopt(rest[1:], LETTERS)[0]
        except getopt.GetoptError as error:
            raise BadWords(str(error)) from None

    def connection(self) -> list[str]:
        """What the options say about the connection, as words of ssh."""
        words = []
        for flag, value in self.options:
            if flag == "-F":
                words += ["-F", value]
            elif flag in LINES:
                words += ["-o", LINES[flag] + value]
        return words

    def has(self, *flags: str) -> bool:
        return any(flag in flags for flag, _ in self.options)

    def value(self, keyword: str) -> str | None:
        """What the first -o of this keyword says."""
        for flag, line in self.options:
            # A line has an equals sign or blanks behind its keyword.
            name, _, value = line.strip().replace("=", " ", 1).partition(" ")
            if flag == "-o" and name.lower() == keyword:
                return value.strip()
        return None

    def wants_shared_session(self) -> bool:
        """Whether a session of a master is what it is for: it doesn't only list settings or ask a
        master something, and it brings no control path of its own."""
        if self.has("-G", "-V", "-Q", "-S") or self.value("controlpath") is not None:
            return False
        return all(value == "proxy" for flag, value in self.options if flag == "-O")


def host_of(destination: str) -> str:
    """The host of [user@]host, or of ssh://[user@]host[:port], as `Match originalhost` sees it."""
    if not destination.startswith("ssh://"):
        return destination.rpartition("@")[2]
    address = destination.removeprefix("ssh://").partition("/")[0].rpartition("@")[2]
    host, _, port = address.rpartition(":")
    return (host if host and port.isdigit() else address).strip("[]")


def direct_environment(destination: str) -> dict[str, str]:
    """The environment in which ssh goes to this destination by itself, past a share."""
    return {**os.environ, BYPASS: host_of(destination)}
