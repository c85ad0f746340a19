#!/usr/bin/env python3
"""Proves and builds the libraries that a crate rests on, lowest first, and says of each which it is, how long its proof
took the gate, and when it is done: `rt check` in the crate then begins with its own functions. What an earlier run
proved is taken from there. A crate that isn't in crates.txt yet is named by those that it uses. Needs the toolchain.

usage: tests/gate/libraries.py CRATE..        (`make libraries CRATE=rpki_fields`)"""
import os
import subprocess
import sys
import time

sys.dont_write_bytecode = True

import meter
from toolchain import TOP, below, crates


def wanted(names):
    """The libraries of the repository that these crates rest on; these themselves, where they are libraries."""
    found = []
    for name in names:
        is_library = os.path.isfile(os.path.join(TOP, crates()[name].folder, "src", "lib.rt"))
        own = [name] if is_library and not crates()[name].is_static else []
        found += [it for it in [*below(name), *own] if it not in found]
    return found


def main():
    names = sys.argv[1:]
    if not names or names[0].startswith("-"):
        sys.exit(__doc__)
    unknown = [name for name in names if name not in crates()]
    if unknown:
        sys.exit(f"{unknown[0]} is no crate of crates.txt")
    taken, found = {name: cost.minutes for name, cost in meter.budget().items()}, wanted(names)
    for at, name in enumerate(found, 1):
        left = sum(taken.get(it, 0) for it in found[at - 1:])
        print(f"{at} of {len(found)}: {name}, {taken.get(name, 0):.0f} minutes of processor from nothing; with all "
              f"that follow {left:.0f}", flush=True)
        begun = time.monotonic()
        ran = subprocess.run(["rt", "lib"], cwd=os.path.join(TOP, crates()[name].folder), check=False,
                             stdout=subprocess.PIPE, stderr=subprocess.STDOUT, text=True, errors="replace")
        if ran.returncode:
            sys.exit(f"{name} is not proved:\n{ran.stdout[-4000:]}")
        print(f"  done in {time.monotonic() - begun:.0f} s", flush=True)


if __name__ == "__main__":
    main()
