"""What a share-host starts and ends, the signals that it gets, and the lines that it writes."""

from __future__ import annotations

import contextlib
import os
import select
import shutil
import signal
import socket
import subprocess
import sys
import time
from typing import Any, NoReturn

from sshmux_tools import registry
from sshmux_tools.control_socket import Refused, is_served, terminate
from sshmux_tools.ending import ENDING_SIGNALS
from sshmux_tools.folders import is_socket

# The folder of the tools, in which this package lies.
HERE = os.path.dirname(os.path.dirname(os.path.realpath(__file__)))
# The name by which it was called: installed it is ssh-mux-share.
NAME = os.path.basename(sys.argv[0])

# How often it is looked whether a socket is there, and how long an end may take.
START_SECONDS, END_SECONDS = 0.05, 10

# What share-host is told by the one that takes its place.
HAND_OVER = signal.SIGUSR1


def note(text: str) -> None:
    with contextlib.suppress(OSError):
        print(f"{NAME}: {text}", file=sys.stderr, flush=True)


def fail(text: str) -> NoReturn:
    note(text)
    sys.exit(1)


def program() -> str:
    """The command ssh-mux: the one of this clone, or the installed one, or the one on the path."""
    for beside in (f"{HERE}/../ssh-mux", f"{HERE}/../../bin/ssh-mux"):
        if os.path.isfile(beside):
            return os.path.realpath(beside)
    return shutil.which("ssh-mux") or fail("ssh-mux isn't on the path")


class Signals:
    """Ends a wait where a process of ours ends, and this one where it is told to end: then with the
    status that a shell gives to it. Between waits a signal is kept, so that nothing is begun by
    halves. One that the starter of this process ignores stays ignored."""

    def __init__(self) -> None:
        self.ours, self.theirs = socket.socketpair()
        for end in (self.ours, self.theirs):
            end.setblocking(False)
        signal.set_wakeup_fd(self.theirs.fileno(), warn_on_full_buffer=False)
        signal.signal(signal.SIGCHLD, lambda number, frame: None)
        self.ended_by: int | None = None
        self.hands_over = False
        for number in ENDING_SIGNALS:
            if signal.getsignal(number) != signal.SIG_IGN:
                signal.signal(number, self.on_ending)
        signal.signal(HAND_OVER, self.on_hand_over)

    def on_ending(self, number: int, _frame: object) -> None:
        self.ended_by = self.ended_by or number

    def on_hand_over(self, _number: int, _frame: object) -> None:
        self.hands_over = True

    def wait(self, seconds: float | None) -> None:
        select.select([self.ours], [], [], seconds)
        with contextlib.suppress(BlockingIOError):
            self.ours.recv(4096)
        if self.ended_by is not None:
            sys.exit(128 + self.ended_by)


class Processes:
    """Those that this share-host started, which its state names."""

    def __init__(self, state: registry.State, path: str, signals: Signals) -> None:
        self.state, self.path, self.signals = state, path, signals
        self.started: list[subprocess.Popen[bytes]] = []

    def keep_state(self) -> None:
        try:
            self.state.write(self.path)
        except OSError as error:
            note(f"{self.path}: {error.strerror}")

    def start(self, name: str, *words: str, **how: Any) -> subprocess.Popen[bytes]:
        try:
            process: subprocess.Popen[bytes] = subprocess.Popen(words, **how)
        except OSError as error:
            fail(f"{words[0]}: {error.strerror}")
        self.started.append(process)
        self.state.processes.append(registry.Process.of(name, process.pid))
        self.keep_state()
        return process

    def await_socket(self, path: str, process: subprocess.Popen[bytes]) -> bool:
        """Whether it came up before its process ended, which then has said why."""
        while process.poll() is None:
            if os.path.exists(path):
                return True
            self.signals.wait(START_SECONDS)
        return False

    def end(self) -> None:
        """Ends all of them, the last one first."""
        for process in reversed(self.started):
            if process.poll() is None:
                process.terminate()
        for process in reversed(self.started):
            try:
                process.wait(END_SECONDS)
            except subprocess.TimeoutExpired:
                process.kill()
                process.wait()


def remove_stale(path: str) -> None:
    """One that was killed has left its socket. Nothing else is taken away, and no live one."""
    if not os.path.lexists(path):
        return
    if is_served(path):
        fail(f"{path}: another master answers there (ssh -S {path} -O exit HOST ends it)")
    if not is_socket(path) and not os.path.islink(path):
        fail(f"{path} is there, and is no socket")
    with contextlib.suppress(FileNotFoundError):
        os.unlink(path)


def ask_to_end(control: str) -> bool:
    """Whether somebody is there who says that he ends."""
    with contextlib.suppress(OSError, Refused):
        terminate(control)
        return True
    return False


def end_left_behind(share: registry.Share) -> None:
    """Ends what a share-host that was killed has left: its masters, the fronts, the transports, and
    OpenSSH's master, where it is one that the share would have ended."""
    state = share.state
    controls = [f"{share.path}/control", *(door.control for door in share.doors())]
    controls += [f"{share.path}/openssh"]
    controls += [state.openssh] if state and state.ends_openssh else []
    was_there = any([ask_to_end(control) for control in dict.fromkeys(controls)])
    left = [process for process in state.processes if process.runs()] if state else []
    end_processes(left)
    if was_there or left:
        note(f"{share.path}: what a share-host that was killed had left there is ended")
    shutil.rmtree(share.path, ignore_errors=True)


def end_processes(processes: list[registry.Process]) -> None:
    """Ends processes by their number, if they are still the ones that were meant."""
    end = time.monotonic() + END_SECONDS
    for number in (signal.SIGTERM, signal.SIGKILL):
        for process in processes:
            if process.runs():
                with contextlib.suppress(ProcessLookupError):
                    os.kill(process.pid, number)
        while time.monotonic() < end and any(process.runs() for process in processes):
            time.sleep(START_SECONDS)
        end = time.monotonic() + 1
