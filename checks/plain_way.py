"""The way that plain clients take, which the checks of tools/plain-front share: a client,
plain-front, `ssh-mux -M`, tools/openssh-transport, OpenSSH's master, sshd.

It is plumbing alone, as play.py is.
"""

from __future__ import annotations

import os
import socket
import subprocess
from typing import IO, Any, cast

import play
from play import RUN_SECONDS, START_SECONDS, Way, control_frame, hold, text, u32

FRONT = f"{play.TOP}/tools/plain-front"

CONFIGURATION = """\
Host host
  Hostname 127.0.0.1
  # A client that doesn't find the front goes on by itself, and finds nobody there.
  Port 1
  ControlPath {front}
  ControlMaster no
Host inner
  Hostname 127.0.0.1
  Port {port}
  IdentityFile {folder}/user
  StrictHostKeyChecking no
  UserKnownHostsFile /dev/null
  LogLevel ERROR
  ProxyJump host
"""

# What stands for no escape character, and for a path in place of a host and port (PROTOCOL.mux).
NO_ESCAPE, PORT_OF_PATH = 0xFFFFFFFF, 0xFFFFFFFE


def mux_frame(*fields: int | bytes) -> bytes:
    """A frame of numbers and strings."""
    return control_frame(b"".join(u32(it) if isinstance(it, int) else text(it) for it in fields))


class Piped(subprocess.Popen[bytes]):
    """A process whose pipes were asked for."""

    stdin: IO[bytes]
    stdout: IO[bytes]


class PlainWay(Way):
    """A way with a front before the program."""

    front: subprocess.Popen[bytes]

    def __init__(self, program: str) -> None:
        super().__init__(program)
        self.front_path, self.config = self.path("front"), self.path("config")

    def start_all(self, case: play.Case) -> None:
        super().start_all(case)
        self.front = self.start_front()
        settings = {"front": self.front_path, "port": self.port, "folder": self.folder}
        self.file("config", CONFIGURATION.format(**settings).encode())

    def start_front(self, *words: str, **how: Any) -> subprocess.Popen[bytes]:
        """A front with these words more; its log is apart from what it says on standard error."""
        log = ["--log", self.path("front-log.log")]
        words = (FRONT, *log, *words, self.control, self.front_path)
        front = self.start_part("front", words, **how)
        self.wait_for_path(self.front_path, front, "front")
        return front

    def words(self, *words: str) -> list[str]:
        return ["ssh", "-F", self.config, *words]

    def run(self, *words: str, data: bytes = b"", **how: Any) -> tuple[bytes, int]:
        """A plain ssh: its standard output and status."""
        out, _, status = self.run_program(*self.words(*words), data=data, **how)
        return out, status

    def run_program(self, *words: str, data: bytes = b"", **how: Any) -> tuple[bytes, str, int]:
        """Standard output, what it said, and the status."""
        done = subprocess.run(
            words, input=data, capture_output=True, timeout=RUN_SECONDS, cwd=self.folder, **how
        )
        return done.stdout, done.stderr.decode(), done.returncode

    def tell(self, command: str) -> tuple[int, str]:
        """Status and text of `ssh -O`, found by -S alone."""
        words = ("ssh", "-F", "none", "-S", self.front_path, "-O", command, "host")
        _, said, status = self.run_program(*words)
        return status, said.strip()

    def open(self, *words: str, **how: Any) -> Piped:
        pipes = {"stdin": subprocess.PIPE, "stdout": subprocess.PIPE, "stderr": subprocess.DEVNULL}
        told: dict[str, Any] = {**pipes, **how}
        return cast(Piped, self.start(self.words(*words), **told))

    def connect(self) -> socket.socket:
        return play.connect(self.front_path, START_SECONDS)

    def goes_on(self) -> None:
        hold(self.run("host", "echo still"), (b"still\n", 0), "a later session")
        hold(self.front.poll(), None, "the front's status")
        hold(self.master.poll(), None, "the master's status")
