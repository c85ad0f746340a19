"""The processor time and the memory of each crate's proof, as `rt ci` makes it, and its budget.

Time is read off /proc while the proofs run, once a second. Machines differ, and so does one machine when it is busy: so
where half of the crates take longer than their lines in budget.txt, all of a run's times are divided by one factor, the
median of how much longer than its line a crate took. What has grown beside the others is above its line then."""
import os
import re
import statistics
import threading
from typing import NamedTuple

from toolchain import TOP, crates

BUDGET = os.path.join(TOP, "tests", "gate", "budget.txt")
HEAD = "# crate, lines, processor minutes, gigabytes: `./check --anew --budget` writes it"
GROWTH = 1.2
TICKS = os.sysconf("SC_CLK_TCK")
PAGE_SIZE = os.sysconf("SC_PAGE_SIZE")


class Cost(NamedTuple):
    minutes: float
    gigabytes: float


def proof_of(process, tree):
    """The crate that a process proves in this tree, or nothing."""
    try:
        with open(f"/proc/{process}/cmdline", "rb") as file:
            words = file.read().decode(errors="replace").split("\0")
        if "--crate-name" in words and os.readlink(f"/proc/{process}/cwd").startswith(tree + os.sep):
            return words[words.index("--crate-name") + 1]
    except (OSError, IndexError):
        pass
    return ""


def used(process):
    """The parent of a process, the seconds that it and its ended children took, and its memory in octets."""
    try:
        with open(f"/proc/{process}/stat", encoding="ascii", errors="replace") as file:
            fields = file.read().rpartition(")")[2].split()
        with open(f"/proc/{process}/statm", encoding="ascii") as file:
            resident, shared = map(int, file.read().split()[1:3])
        return fields[1], sum(map(int, fields[11:15])) / TICKS, (resident - shared) * PAGE_SIZE
    except (OSError, IndexError, ValueError):
        return "", 0.0, 0


class Meter:
    """Watches the proofs in a tree while it is used in a `with`."""

    def __init__(self, tree):
        self.tree, self.seconds, self.memory, self.ended = os.path.realpath(tree), {}, {}, threading.Event()
        self.thread = threading.Thread(target=self.watch, daemon=True)

    def __enter__(self):
        self.thread.start()
        return self

    def __exit__(self, *_):
        self.ended.set()
        self.thread.join()

    def watch(self):
        while not self.ended.wait(0.5):
            found = {it: proof_of(it, self.tree) for it in os.listdir("/proc") if it.isdigit()}
            found = {process: crate for process, crate in found.items() if crate in crates()}
            memory = {}
            for process, crate in found.items():
                parent, seconds, octets = used(process)
                memory[crate] = memory.get(crate, 0) + octets
                # A copy's time is that of its parent once it has ended.
                if found.get(parent) != crate:
                    self.seconds[crate, process] = seconds
            for crate, octets in memory.items():
                self.memory[crate] = max(self.memory.get(crate, 0), octets)

    def costs(self):
        """What each crate took."""
        minutes = {}
        for (crate, _), seconds in self.seconds.items():
            minutes[crate] = minutes.get(crate, 0) + seconds / 60
        return {crate: Cost(minutes[crate], self.memory[crate] / 1e9) for crate in crates() if crate in minutes}


def lines_of(crate):
    """How many lines of sources, definitions and proofs a crate has."""
    count = 0
    for folder, inner, files in os.walk(os.path.join(TOP, "crates", crate)):
        inner[:] = [name for name in inner if name not in ("out", "must-fail")]
        for name in files:
            if name.endswith((".rt", ".antt")):
                with open(os.path.join(folder, name), "rb") as file:
                    count += file.read().count(b"\n")
    return count


def budget():
    """What each crate may take."""
    with open(BUDGET, encoding="utf-8") as file:
        rows = re.findall(r"^(\w+) +[\d,]+ +([\d.]+) +([\d.]+)$", file.read(), re.M)
    return {crate: Cost(float(minutes), float(memory)) for crate, minutes, memory in rows}


def unlisted(costs):
    """A line for each crate that has no budget."""
    allowed = budget()
    return [f"{crate} has no line in tests/gate/budget.txt" for crate in costs if crate not in allowed]


def above(costs):
    """A warning for each crate that took more than its line allows: no more than that, since other work on the machine
    makes some crates slower than others. Of fewer than four crates, where the others were kept from an earlier run,
    there is no median."""
    allowed = budget()
    known = {crate: cost for crate, cost in costs.items() if crate in allowed}
    if len(known) < 4:
        return
    factor = max(1, statistics.median(cost.minutes / allowed[crate].minutes for crate, cost in known.items()))
    for crate, cost in known.items():
        least = allowed[crate].minutes * factor * GROWTH
        if cost.minutes > least + 0.2:
            yield (f"warning: {crate} took {cost.minutes:.1f} processor minutes, and a fifth above its line, in this "
                   f"run, are {least:.1f}")


def shown(costs):
    """What the crates of a run took, as lines of the budget."""
    rows = [f"{crate:16} {lines_of(crate):7,} {cost.minutes:5.1f} {cost.gigabytes:4.1f}"
            for crate, cost in costs.items()]
    return "\n".join([HEAD, *rows]) + "\n"


def write(costs):
    """Makes the budget of what a run took."""
    with open(BUDGET, "w", encoding="utf-8") as file:
        file.write(shown(costs))
