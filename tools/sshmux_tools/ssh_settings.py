"""The settings of a host, as `ssh -G` lists them."""

import hashlib
import os
import pwd
import re
import socket
import subprocess

from sshmux_tools.ssh_words import direct_environment

TOKEN, VARIABLE = r"%(?P<token>.?)", r"\$\{(?P<variable>\w+)\}"


class NoSettings(Exception):
    """`ssh -G` refuses, or a value can't be read."""


class Settings:
    """Keywords in small letters, each with its values in order."""

    def __init__(self, listing: str) -> None:
        self.values: dict[str, list[str]] = {}
        for line in listing.splitlines():
            keyword, _, value = line.partition(" ")
            self.values.setdefault(keyword.lower(), []).append(value)

    def all(self, keyword: str) -> list[str]:
        return self.values.get(keyword, [])

    def get(self, keyword: str, otherwise: str = "") -> str:
        return self.values.get(keyword, [otherwise])[0]

    def is_on(self, keyword: str) -> bool:
        return self.get(keyword) in ("yes", "true")

    def number(self, keyword: str, otherwise: int) -> int:
        try:
            return int(self.get(keyword, str(otherwise)))
        except ValueError:
            return otherwise

    @property
    def host(self) -> str:
        return self.get("hostname")

    @property
    def port(self) -> int:
        return self.number("port", 22)

    @property
    def user(self) -> str:
        return self.get("user")


def settings_of(destination: str, words: list[str]) -> Settings:
    """What ssh would do for this destination, with these options, past a share."""
    try:
        done = subprocess.run(
            ["ssh", "-G", *words, "--", destination],
            stdin=subprocess.DEVNULL, capture_output=True, text=True, errors="surrogateescape",
            env=direct_environment(destination),
        )
    except OSError as error:
        raise NoSettings(f"ssh -G: {error.strerror or error}") from None
    if done.returncode:
        lines = done.stderr.strip().splitlines() or [f"status {done.returncode}"]
        raise NoSettings(f"ssh -G: {lines[-1]}")
    return Settings(done.stdout)


def home() -> str:
    """The one of the user database, which is ssh's."""
    return pwd.getpwuid(os.getuid()).pw_dir


def expand(value: str, settings: Settings, has_variables: bool = True) -> str:
    """A value with its tokens, its variables and a leading tilde replaced (ssh_config(5), "TOKENS"
    and "ENVIRONMENT VARIABLES"). What stands in their place isn't looked at again."""
    this_host = socket.gethostname()
    tokens = {
        "%": "%", "d": home(), "h": settings.host, "i": str(os.getuid()),
        "j": settings.get("proxyjump"), "k": settings.get("hostkeyalias", settings.get("host")),
        "L": this_host.split(".")[0], "l": this_host, "n": settings.get("host"),
        "p": str(settings.port), "r": settings.user, "u": pwd.getpwuid(os.getuid()).pw_name,
    }
    hashed = this_host + settings.host + str(settings.port) + settings.user
    tokens["C"] = hashlib.sha1(hashed.encode()).hexdigest()

    def of_token(match: re.Match[str]) -> str:
        if match["token"] not in tokens:
            raise NoSettings(f"{value}: {match[0]} is no token here")
        return tokens[match["token"]]

    def of_variable(match: re.Match[str]) -> str:
        if match["variable"] not in os.environ:
            raise NoSettings(f"{value}: {match['variable']} isn't set")
        return os.environ[match["variable"]]

    def replaced(match: re.Match[str]) -> str:
        return of_variable(match) if match.lastgroup == "variable" else of_token(match)

    expanded = re.sub(f"{TOKEN}|{VARIABLE}" if has_variables else TOKEN, replaced, value)
    return home() + expanded[1:] if expanded == "~" or expanded.startswith("~/") else expanded
