#!/usr/bin/env python3
"""Measures `rpkibasic again` beside a plain Rust program that does the same work.

Makes its inputs in a folder of its own, checks that both programs write the same octets, and prints for each input and
both programs the processor time, nanoseconds a header, megabytes a second and the peak memory, and the ratios. Each
figure is the smallest of five runs, taken in turn. Needs rustc.

usage: bench/run.py            (after `rt run` has built crates/rpkibasic)"""
import os
import subprocess
import sys
import tempfile
import time

sys.dont_write_bytecode = True
sys.path.append(os.path.join(os.path.dirname(os.path.abspath(__file__)), "..", "tests", "python"))

import der
from der import bits, identifier, integer, sequence, set_of, tlv
from makers import x509
from programs import TOP

PROGRAM = os.path.join(TOP, "crates", "rpkibasic", "out", "rpkibasic")
RUNS = 5


def signed(inner):
    return sequence(inner, x509.SHA256_WITH_RSA, bits(b"\xAA"))


def small_values(size):
    """Signed data of about so many octets, nearly all of it short values three deep; and its headers."""
    unit = sequence(identifier(x509.COMMON), set_of(tlv(0x13, b"name"), integer(b"\x01")))
    count = size // len(unit)
    return signed(sequence(unit * count)), 1 + 5 * count


def nested(depth):
    """Signed data of a value that is nested so deep; and its headers."""
    return signed(der.nested(depth - 1)), depth


def certificate():
    """Signed data of the size and shape of a certificate; and the headers of what is signed."""
    both, key = x509.name("A" * 40), x509.rsa_key(b"\x55" * 270)
    extensions = sequence(x509.extension(x509.SUBJECT_KEY, tlv(0x04, b"\x11" * 20)) * 10)
    inner = sequence(integer(b"\x01"), x509.SHA256_WITH_RSA, both, both, key, tlv(0xA3, extensions))
    return signed(inner), 1 + 1 + 3 + 2 * 5 + 1 + 3 + 1 + 2 + 10 * 3


INPUTS = {
    "1 MB of small values": lambda: small_values(1 << 20),
    "16 MB of small values": lambda: small_values(16 << 20),
    "64 MB of small values": lambda: small_values(64 << 20),
    "1,000,000 deep": lambda: nested(1_000_000),
    "a certificate's size": certificate,
}


def same(one, other):
    """Whether two files hold the same octets."""
    with open(one, "rb") as first, open(other, "rb") as second:
        while True:
            part = first.read(1 << 20)
            if part != second.read(1 << 20):
                return False
            if not part:
                return True


def measure(launcher, commands, path):
    """The smallest time in seconds and memory in octets of each program; both write the same."""
    best = [[float("inf"), float("inf")] for _ in commands]
    for _ in range(RUNS):
        for place, command in enumerate(commands):
            words = [launcher, path, f"{path}.{place}"] + command
            told = subprocess.run(words, check=True, capture_output=True, text=True).stdout
            micros, kilobytes = map(int, told.split())
            best[place] = [min(best[place][0], micros / 1e6), min(best[place][1], kilobytes * 1024)]
    if not same(f"{path}.0", f"{path}.1"):
        sys.exit(f"the programs differ on {path}")
    return best


def main():
    if not os.path.exists(PROGRAM):
        sys.exit("build the program first: in crates/rpkibasic, `rt run`")
    with tempfile.TemporaryDirectory() as folder:
        for name in ["plain", "measure"]:
            source, target = os.path.join(TOP, "bench", name + ".rs"), os.path.join(folder, name)
            subprocess.run(["rustc", "-O", "--edition", "2024", "-o", target, source], check=True)
        print(f"{os.cpu_count()} cores, {time.strftime('%Y-%m-%d')}, smallest of {RUNS} runs")
        print(f"{'input':24}{'octets':>10}{'headers':>10}  {'program':8}{'seconds':>9}{'ns/header':>11}{'MB/s':>8}"
              f"{'peak MB':>9}{'x input':>9}{'x plain':>9}")
        for name, make in INPUTS.items():
            octets, headers = make()
            size = len(octets)
            path = os.path.join(folder, "input")
            with open(path, "wb") as target:
                target.write(octets)
            del octets
            commands = [[PROGRAM, "again"], [os.path.join(folder, "plain")]]
            results = measure(os.path.join(folder, "measure"), commands, path)
            for place, program in enumerate(["again", "plain"]):
                seconds, memory = results[place]
                print(f"{name:24}{size:>10}{headers:>10}  {program:8}{seconds:>9.4f}{seconds * 1e9 / headers:>11.1f}"
                      f"{size / 1e6 / seconds:>8.1f}{memory / 1e6:>9.1f}{memory / size:>9.2f}"
                      f"{seconds / results[1][0]:>9.2f}")


if __name__ == "__main__":
    main()
