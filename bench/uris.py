#!/usr/bin/env python3
"""Measures five calls on rsync URIs beside the same in plain Rust on `&str`, on URIs of 1 segment and of 200.

Checks that both programs print the same, and prints the nanoseconds of a call of each and their ratio. Each figure is
the smallest of five runs, taken in turn. Needs rustc.

usage: bench/uris.py     (after `rt run -- repeat join 1 1` in crates/hostile_calls has built the program)"""
import os
import resource
import subprocess
import sys
import tempfile

TOP = os.path.dirname(os.path.dirname(os.path.abspath(__file__)))
PROGRAM = os.path.join(TOP, "crates", "hostile_calls", "out", "hostile_calls")
MINE = (PROGRAM, "repeat")
CALLS = ["join", "parent", "relative_to", "is_parent_of", "is_identical_to"]
RUNS = 5
TIMES = 1_000_000


def run(program, words):
    """The processor time of a run in seconds, and what it printed."""
    before = resource.getrusage(resource.RUSAGE_CHILDREN).ru_utime
    told = subprocess.run([*program, *words], check=True, capture_output=True, text=True).stdout
    return resource.getrusage(resource.RUSAGE_CHILDREN).ru_utime - before, told


def main():
    if not os.path.exists(PROGRAM):
        sys.exit("build the program first: in crates/hostile_calls, `rt run -- repeat join 1 1`")
    with tempfile.TemporaryDirectory() as folder:
        plain = os.path.join(folder, "plain")
        other = (plain,)
        source = os.path.join(TOP, "bench", "uris.rs")
        subprocess.run(["rustc", "-O", "--edition", "2024", "-o", plain, source], check=True)
        print(f"{'call':16}{'segments':>9}{'ns':>10}{'plain ns':>10}{'ratio':>8}")
        for call in CALLS:
            for segments in [1, 200]:
                best = {}
                for _ in range(RUNS):
                    told = []
                    for program in [MINE, other]:
                        seconds, text = run(program, [call, str(segments), str(TIMES)])
                        best[program] = min(best.get(program, float("inf")), seconds)
                        told.append(text)
                    if told[0] != told[1]:
                        sys.exit(f"the programs differ: {told}")
                ours, theirs = (best[p] * 1e9 / TIMES for p in [MINE, other])
                print(f"{call:16}{segments:>9}{ours:>10.1f}{theirs:>10.1f}{ours / theirs:>8.2f}")


if __name__ == "__main__":
    main()
