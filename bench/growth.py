#!/usr/bin/env python3
"""Counts the instructions of the programs, and the most octets that they have allocated, by callgrind and massif, on
inputs of one kind, of a size and of twice as much: what grows faster than its input shows at once, on a busy machine as
on an idle one. Each line has the size, the instructions for each of so many, how many times as many all are of twice the
size, the octets allocated at the peak, and how many times as many these are of twice the size.

usage: bench/growth.py RPKIVALID RPKICERT [FACTOR]      FACTOR multiplies the sizes; needs valgrind, a C compiler and
                                                        libcrypto's headers (Debian's libssl-dev)"""
import json
import os
import re
import subprocess
import sys
import tempfile

sys.dont_write_bytecode = True
TESTS = os.path.join(os.path.dirname(os.path.abspath(__file__)), "..", "tests")
sys.path[:0] = [os.path.join(TESTS, "python"), os.path.join(TESTS, "validation")]

from der import bits, sequence
from exceptions import addresses, instructions, slurm
from makers import lists, x509
from programs import write
from repositories import Maker, Program


class Inputs:
    """Inputs of each kind, of a size, and the words of the run on them."""

    def __init__(self, rpkivalid, rpkicert, room):
        self.valid, self.cert, self.maker, self.room = Program(rpkivalid), rpkicert, Maker(room), room

    def authorities(self, count):
        return self.valid.words(self.maker.repository(count, 5, 10))

    def chain(self, count):
        return self.valid.words(self.maker.repository(count, 1, 10))

    def files(self, count):
        return self.valid.words(self.maker.repository(1, 1, count))

    def heirs(self, count):
        return self.valid.words(self.maker.repository(2, 2, 1, HEIRS=str(count), HELD=str(10 * count)))

    def certificates_of_itself(self, count):
        return self.valid.words(self.maker.repository(2, 2, 1, AGAIN=str(count)))

    def filters(self, count):
        name = os.path.join(self.room, "exceptions.json")
        with open(name, "w", encoding="ascii") as file:
            json.dump(slurm(addresses(count, 0)), file)
        return self.valid.words(self.maker.repository(5, 5, 10), "--exceptions", name)

    def entries(self, count):
        data = lists.fields(entries=sequence(*map(lists.entry, range(1, count + 1))))
        return self.shown("list.crl", x509.signed(data, signature=bits(bytes(256))))

    def shown(self, name, octets):
        write(self.room, name, octets)
        return [self.cert, os.path.join(self.room, name)]


ROWS = [("authorities of 10 route origins, five below each", 20, Inputs.authorities),
        ("authorities of 10 route origins, one below each", 8, Inputs.chain),
        ("route origins of one authority", 200, Inputs.files),
        ("authorities that inherit ten times as many blocks", 50, Inputs.heirs),
        ("certificates of one authority for itself (RFC 8360)", 10, Inputs.certificates_of_itself),
        ("filters, over 50 route origins", 2_000, Inputs.filters),
        ("entries of a revocation list, shown", 10_000, Inputs.entries)]


def peak(words, room):
    """The most octets that a run has allocated at once."""
    told = os.path.join(room, "massif")
    subprocess.run(["valgrind", "--tool=massif", f"--massif-out-file={told}", *words], stdout=subprocess.DEVNULL,
                   stderr=subprocess.DEVNULL, check=False)
    with open(told, encoding="ascii") as file:
        return max(map(int, re.findall(r"mem_heap_B=(\d+)", file.read())))


def main():
    if len(sys.argv) not in (3, 4) or sys.argv[1].startswith("-"):
        sys.exit(__doc__)
    factor = float(sys.argv[3]) if len(sys.argv) > 3 else 1
    with tempfile.TemporaryDirectory() as room:
        inputs = Inputs(*map(os.path.abspath, sys.argv[1:3]), room)
        for name, size, made in ROWS:
            size, found = max(1, int(size * factor)), []
            for count in (size, 2 * size):
                words = made(inputs, count)
                found.append((instructions(*words), peak(words, room)))
            (few, low), (many, high) = found
            print(f"{name:52} {size:7} {few / size:13,.0f} {many / few:6.2f} {low:11,} {high / low:6.2f}", flush=True)


main()
