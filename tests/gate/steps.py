"""Steps, side by side: each is a command that begins once what it waits for has happened; of several, first the one
that the longest chain begins with. A line says when a step begins, with the seconds that it took the last time, and a
line when it ends."""
import contextlib
import json
import os
import re
import resource
import subprocess
import sys
import tempfile
import threading
import time
from concurrent.futures import FIRST_COMPLETED, ThreadPoolExecutor, wait
from typing import NamedTuple

import processes

COUNTS = re.compile(r"(\d+) passed, (\d+) failed")


class Step(NamedTuple):
    """A command with a name, what it waits for, the folder that it is run in, and whether proofs go before it."""

    name: str
    words: tuple
    waits: tuple = ()
    folder: str = "."
    gives_way: bool = True


class Result(NamedTuple):
    passed: int
    failed: int
    seconds: float


def counted(told, status):
    """What the last line of a step counts. A step that counts nothing counts as one."""
    lines = told.rstrip("\n").split("\n")
    found = COUNTS.match(lines[-1])
    if not found:
        return (1, 0) if status == 0 else (0, 1)
    passed, failed = int(found[1]), int(found[2])
    return passed, failed or int(status != 0)


@contextlib.contextmanager
def room():
    """A folder for a run. What its steps keep for a while is there too, so all of it goes with the folder; and the keys
    of their repositories, by tests/repository.sh."""
    with tempfile.TemporaryDirectory() as folder:
        before, own, keys = dict(os.environ), os.path.join(folder, "tmp"), os.path.join(folder, "keys")
        for it in own, keys:
            os.mkdir(it)
        for it in folder, own:
            os.chmod(it, 0o711)  # a program of a step may be run as nobody
        os.environ.update(TMPDIR=own, RPKI_TEST_KEYS=keys)
        try:
            yield folder
        finally:
            os.environ.clear()
            os.environ.update(before)


class Times:
    """How many seconds each step took when it passed the last time, kept in a file."""

    def __init__(self, file):
        self.file, self.seconds = file, {}
        with contextlib.suppress(OSError, ValueError):
            with open(file, encoding="utf-8") as kept:
                self.seconds = {str(name): float(it) for name, it in json.load(kept).items()}

    def last(self, name):
        return f", which took {self.seconds[name]:.0f} s" if name in self.seconds else ""

    def keep(self, results):
        self.seconds.update((name, round(it.seconds, 1)) for name, it in results.items() if not it.failed)
        os.makedirs(os.path.dirname(self.file), exist_ok=True)
        with open(self.file, "w", encoding="utf-8") as file:
            json.dump(self.seconds, file, indent=0, sort_keys=True)


def longest_first(steps, seconds):
    """The steps, first those that the longest chain begins with: a step, one that waits for it, and so on, by the
    seconds that each took. Those of which nothing is known stay in their order, at the end."""
    chains = {}

    def chain(step):
        if step.name not in chains:
            after = [it for it in steps if {step.name, f"ended {step.name}"} & set(it.waits)]
            chains[step.name] = seconds.get(step.name, 0) + max(map(chain, after), default=0)
        return chains[step.name]
    return sorted(steps, key=lambda step: -chain(step))


# A signal of the terminal comes to this process alone, which ends the others.
APART = {"process_group": 0} if sys.version_info >= (3, 11) else {"preexec_fn": os.setpgrp}


class Steps:
    """Runs steps, as many as there are processors, and tells of each as it begins and as it ends."""

    def __init__(self, steps, lanes, progress, times):
        self.steps, self.lanes = longest_first(steps, times.seconds), lanes
        self.progress, self.times = progress, times
        self.happened, self.results, self.changed, self.is_ended = set(), {}, threading.Condition(), False

    def happen(self, event):
        """Lets the steps begin that wait for this."""
        with self.changed:
            self.happened.add(event)
            self.changed.notify_all()

    def begin(self, step):
        """Begins a step, unless the run has ended."""
        words = list(step.words) if not step.gives_way else ["nice", "-n", "5", *step.words]
        with self.changed:
            if self.is_ended:
                return None
            print(f".. {step.name}{self.times.last(step.name)}", flush=True)
            return subprocess.Popen(words, cwd=step.folder, stdin=subprocess.DEVNULL, stdout=subprocess.PIPE,
                                    stderr=subprocess.STDOUT, text=True, errors="replace", **APART)

    def run_one(self, step):
        begun, lines, run = time.monotonic(), [], self.begin(step)
        if not run:
            return
        for line in run.stdout:
            lines.append(line)
            self.progress(step, line, self.happen)
        passed, failed = counted("".join(lines), run.wait())
        with self.changed:
            if self.is_ended:
                return
            self.results[step.name] = Result(passed, failed, time.monotonic() - begun)
        print(f"== {step.name}: {passed} passed, {failed} failed, {time.monotonic() - begun:.0f} s", flush=True)
        if failed or os.environ.get("VERBOSE"):
            print("".join(lines[-200:]), flush=True)
        self.happen(f"failed {step.name}" if failed else step.name)
        self.happen(f"ended {step.name}")

    def run(self):
        """Runs all, and returns what each gave. What ends this early ends all that was begun."""
        with ThreadPoolExecutor(self.lanes + 1) as pool:
            try:
                self.run_by(pool)
            except BaseException:
                with self.changed:
                    self.is_ended = True
                processes.end_all()
                raise
        self.times.keep(self.results)
        return self.results

    def run_by(self, pool):
        """Runs all by the threads of a pool. A step whose condition can't happen any more fails."""
        left, running = list(self.steps), {}
        while left or running:
            with self.changed:
                ready = [step for step in left if set(step.waits) <= self.happened]
            beside = sum(step.gives_way for step in running.values())
            for step in ready:
                if step.gives_way and beside >= self.lanes:
                    continue
                left.remove(step)
                running[pool.submit(self.run_one, step)] = step
                beside += step.gives_way
            if not running:
                for step in left:
                    lacking = ", ".join(set(step.waits) - self.happened)
                    print(f"== {step.name}: not run, since {lacking} didn't pass")
                    self.results[step.name] = Result(0, 1, 0)
                return
            for future in wait(running, timeout=1, return_when=FIRST_COMPLETED).done:
                running.pop(future)
                future.result()


def processor_minutes():
    """The processor time of all that has ended so far."""
    used = resource.getrusage(resource.RUSAGE_CHILDREN)
    return (used.ru_utime + used.ru_stime) / 60
