"""The processes that this one has begun, with all that they have begun: found by their parents in /proc, and ended. One
whose parent has ended comes to this process, so none gets away by leaving its group or its session."""
import ctypes
import os
import signal
import time

PR_SET_CHILD_SUBREAPER = 36


class Interrupted(Exception):
    """A signal that ends a run."""

    def __init__(self, number):
        super().__init__(f"interrupted by {signal.Signals(number).name}")
        self.number = number


ENDING = (signal.SIGINT, signal.SIGTERM, signal.SIGHUP)


def interrupt(number, _):
    """Ends what runs here by an exception, once: later signals change nothing."""
    for it in ENDING:
        signal.signal(it, signal.SIG_IGN)
    raise Interrupted(number)


def watch():
    """Makes exceptions of the signals that end a run, and has orphans come to this process."""
    for number in ENDING:
        signal.signal(number, interrupt)
    ctypes.CDLL(None).prctl(PR_SET_CHILD_SUBREAPER, 1, 0, 0, 0)


def parent_of(process):
    """The parent of a process that runs, or nothing."""
    try:
        with open(f"/proc/{process}/stat", encoding="ascii", errors="replace") as file:
            state, parent = file.read().rpartition(")")[2].split()[:2]
        return int(parent) if state != "Z" else None
    except (OSError, ValueError):
        return None


def begun():
    """The processes below this one that run."""
    parents = {int(name): parent_of(name) for name in os.listdir("/proc") if name.isdigit()}
    found, last = set(), {os.getpid()}
    while last:
        last = {child for child, parent in parents.items() if parent in last and child not in found}
        found |= last
    return found


def send(number, processes):
    for process in processes:
        try:
            os.kill(process, number)
        except OSError:
            pass


def end_all(seconds=5):
    """Asks the processes below this one to end, kills those that haven't after so many seconds, and waits for that."""
    asked, first = set(), time.monotonic()
    while (left := begun()) and time.monotonic() < first + 6 * seconds:
        if time.monotonic() < first + seconds:
            send(signal.SIGTERM, left - asked)
            asked |= left
        else:
            send(signal.SIGKILL, left)
        time.sleep(0.05)
