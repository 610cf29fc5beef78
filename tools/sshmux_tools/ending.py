"""How a program is ended by a signal: once, with the status that a shell gives to it."""

import signal
import sys

ENDING_SIGNALS = (signal.SIGINT, signal.SIGTERM, signal.SIGHUP)


def hold_off() -> None:
    """From now on no signal cuts off what this process still does."""
    # Another thread may take it, and then this one's handler is called.
    for number in ENDING_SIGNALS:
        if signal.getsignal(number) != signal.SIG_IGN:
            signal.signal(number, lambda number, frame: None)
    signal.pthread_sigmask(signal.SIG_BLOCK, ENDING_SIGNALS)


def on_signal(number: int, _frame: object) -> None:
    hold_off()
    sys.exit(128 + number)


def end_by_signals() -> None:
    """Takes the signals by which a program is ended, but for those that its starter ignores, as
    nohup does."""
    for number in ENDING_SIGNALS:
        if signal.getsignal(number) != signal.SIG_IGN:
            signal.signal(number, on_signal)
