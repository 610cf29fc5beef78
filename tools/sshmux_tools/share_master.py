"""A master of a share: its transport, its `ssh-mux -M`, and its front."""

from __future__ import annotations

import contextlib
import os
import subprocess
import time

from sshmux_tools.control_socket import Refused, stop_listening
from sshmux_tools.inside import Inside
from sshmux_tools.share_options import Master
from sshmux_tools.share_processes import HERE, Processes, note, program, remove_stale

# How often a front that fails is started anew, with a second between.
FRONT_TRIES, FRONT_SECONDS = 5, 1
# For how long a master's path is gone where it doesn't end.
STOPPED_SECONDS = 1


class SharedMaster:
    """The one of the share itself, which has no name, or that of a door."""

    def __init__(
        self, processes: Processes, host: str, told: Master, folder: str, front: str, name: str = ""
    ) -> None:
        """Its sockets are in `folder`, but for that of its front."""
        self.processes, self.host, self.told, self.name = processes, host, told, name
        self.control, self.transport, self.front = f"{folder}/control", f"{folder}/transport", front
        self.lists = told.lists()
        self.process: subprocess.Popen[bytes] | None = None
        self.transport_process: subprocess.Popen[bytes] | None = None
        self.front_process: subprocess.Popen[bytes] | None = None
        self.front_words: list[str] = []
        self.front_tries = FRONT_TRIES
        self.inside: Inside | None = None
        # It accepts nobody any more; since when its path is gone.
        self.is_draining, self.stopped_at = False, 0.0

    @property
    def label(self) -> str:
        return f"door {self.name}" if self.name else self.host

    def start_process(self, what: str, *words: str) -> subprocess.Popen[bytes]:
        return self.processes.start(f"{what} of {self.name}" if self.name else what, *words)

    # Its start.

    def start(self, transport: list[str]) -> bool:
        """Whether it came up; what didn't has said why. The words start the transport, but for the
        path of its socket."""
        process = self.start_process("transport", *transport, self.transport)
        self.transport_process = process
        if not self.processes.await_socket(self.transport, process):
            return False
        self.process = self.start_process(
            "ssh-mux", program(), "-M", "-F", "none", "-S", self.control, "--transport",
            self.transport, *self.lists.words(), "--", self.host,
        )  # fmt: skip
        return self.processes.await_socket(self.control, self.process)

    def start_front(self) -> bool:
        remove_stale(self.front)
        process = self.start_process(
            "front", f"{HERE}/plain-front", *self.told.front_options(), *self.front_words,
            *self.lists.front_words(), self.control, self.front,
        )  # fmt: skip
        if not self.processes.await_socket(self.front, process):
            return False
        self.front_process = process
        return True

    def look_inside(self) -> None:
        """From now on its clients are counted."""
        if self.process is not None:
            self.inside = Inside(self.process.pid)

    def ask(self, command: str, flag: str, value: str) -> subprocess.CompletedProcess[str]:
        words = [program(), "-S", self.control, "-O", command, flag, value, "--", self.host]
        return subprocess.run(
            words, stdin=subprocess.DEVNULL, capture_output=True, text=True, errors="replace"
        )

    def ask_forwardings(self) -> None:
        """Its own, each by itself; which of them can't be had is told."""
        whose = f"{self.label}: " if self.name else ""
        for flag, value in self.told.forwardings:
            done = self.ask("forward", flag, value)
            said = (done.stdout + done.stderr).strip().replace("\n", "; ")
            if done.returncode:
                note(f"{whose}the forwarding {flag} {value} is refused: {said}")
            elif said:
                note(f"{whose}the forwarding {flag} {value} has port {said}")

    # Its life.

    def runs(self) -> bool:
        return self.process is not None and self.process.poll() is None

    def look_after_front(self) -> None:
        """Plain clients need it. One that fails is started anew; one that was told to stop, or that
        ends with the master, isn't."""
        process = self.front_process
        if process is None or process.poll() is None:
            return
        self.front_process = None
        if process.returncode == 0 or self.is_stopped():
            return
        note(f"{self.front}: the front has ended with {process.returncode}; it is started anew")
        while self.front_tries and not self.start_front():
            self.front_tries -= 1
            self.processes.signals.wait(FRONT_SECONDS)
        if not self.front_tries:
            note(f"{self.front}: the front doesn't come up; there is none from now on")

    def is_stopped(self) -> bool:
        """Whether the master lets nobody in any more: its path is gone."""
        return not os.path.lexists(self.control)

    def has_stopped(self) -> bool:
        """Whether the master has let nobody in for a while. One that ends takes its path away, too,
        a moment before."""
        if not self.is_stopped():
            self.stopped_at = 0.0
        elif not self.stopped_at:
            self.stopped_at = time.monotonic()
        elif not self.is_draining and time.monotonic() - self.stopped_at > STOPPED_SECONDS:
            what = "this door" if self.name else "this share"
            note(f"{self.label}: nobody is let in any more; {what} ends with its last client")
            self.is_draining = True
            # The front may not know it yet.
            with contextlib.suppress(OSError, Refused):
                stop_listening(self.front)
        return self.is_draining

    def stop(self) -> None:
        """Lets nobody in any more, and gives back what its forwardings listen at."""
        self.is_draining = True
        for flag, value in self.told.forwardings:
            self.ask("cancel", flag, value)
        # Where it has no place to ask, nobody finds it any more all the same.
        with contextlib.suppress(OSError, Refused):
            stop_listening(self.front if self.front_process else self.control)

    def is_empty(self) -> bool:
        """Whether nobody is in, at the front neither."""
        # A front that has been told to stop ends with its last client, on whichever connection.
        has_front = self.front_process is not None and self.front_process.poll() is None
        if not self.runs():
            return not has_front
        return self.counts() and not has_front and self.count_inside() == 0

    def counts(self) -> bool:
        """Whether its clients can be counted."""
        return self.inside is not None and self.inside.name is not None

    def count_inside(self) -> int:
        """Who is in at the master, and at the front: those may be on another connection."""
        here = self.inside.count() if self.inside is not None and self.runs() else 0
        front = self.front_process
        return here + (Inside(front.pid).count() if front else 0)

    def terminate(self) -> None:
        if self.process is not None and self.runs():
            self.process.terminate()
