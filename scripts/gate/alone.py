"""A run that is the only one of its kind in a checkout, and that a signal ends in order."""

import contextlib
import fcntl
import signal
import sys


SIGNALS = (signal.SIGHUP, signal.SIGINT, signal.SIGTERM)


class Busy(Exception):
    """Another run has the lock."""


@contextlib.contextmanager
def locked(path):
    """Has the lock of this file meanwhile, or raises Busy."""
    with open(path, "w", encoding="ascii") as lock:
        try:
            fcntl.flock(lock, fcntl.LOCK_EX | fcntl.LOCK_NB)
        except BlockingIOError as error:
            raise Busy from error
        yield


def ends_by_signals(interrupted=lambda: None):
    """From now on a signal ends the run in order, with the status of a shell. An interrupt is told first."""

    def stop(number, _frame):
        if number == signal.SIGINT:
            interrupted()
        sys.exit(128 + number)

    for number in SIGNALS:
        signal.signal(number, stop)


@contextlib.contextmanager
def undisturbed():
    """Has a signal that comes meanwhile act afterwards, so that a process which begins here is known before the run ends."""
    came = []
    were = {number: signal.signal(number, lambda number, _frame: came.append(number)) for number in SIGNALS}
    try:
        yield
    finally:
        for number, was in were.items():
            signal.signal(number, was)
        for number in came:
            signal.raise_signal(number)


@contextlib.contextmanager
def alone(path, interrupted=lambda: None):
    """Has the lock of this file, in a folder that is made if needed, or raises Busy; from then on a signal ends the run in order."""
    path.parent.mkdir(exist_ok=True)
    with locked(path):
        ends_by_signals(interrupted)
        yield
