"""Writes the rows of values that are taken off a part of octets, which the test in C reads: real certificates and lists
of values, walked from the left, with the identifier that is there and another one, and octets that were changed.
Statuses and places are found by tests/python/strict.py.

usage: rows.py > FILE

A row is the octets in hexadecimal digits or `-`, the identifier octet, the part as START LENGTH, whether the part
begins with the tag of the identifier, 1 or 0, and the status; for status 0 then what follows, and the contents, each as
START LENGTH."""
import os
import random
import sys

sys.dont_write_bytecode = True
sys.path.append(os.path.join(os.path.dirname(os.path.abspath(__file__)), "..", "..", "python"))

from der import tlv
from makers.certificate import CERTIFICATE
from strict import BAD_TAG, Octets, status_of

TAGS = [0x01, 0x02, 0x03, 0x04, 0x05, 0x06, 0x0C, 0x13, 0x16, 0x17, 0x18, 0x1F, 0x20, 0x24, 0x30, 0x31, 0x3F, 0x40,
        0x7F, 0x80, 0x85, 0x9F, 0xA0, 0xA3, 0xBF, 0xC0, 0xFF, 0x00]


def taken(octets, identifier, start, length):
    """The status, and the two places."""
    if identifier & 0xDF == 0:
        return BAD_TAG, ()
    part = Octets(octets[start:start + length], start)
    status, contents = status_of(part.take, identifier)
    return status, (part.at(), length - part.place, *contents.span()) if contents else ()


def has_tag(octets, identifier):
    """Whether identifier octets of this tag are there, in either form (X.690 8.1.2)."""
    behind = b"\x1f" if identifier & 31 == 31 else b""
    return octets.startswith((bytes([identifier | 0x20]) + behind, bytes([identifier & 0xDF]) + behind))


def row(octets, identifier, start, length):
    status, places = taken(octets, identifier, start, length)
    there = int(has_tag(octets[start:start + length], identifier))
    print(octets.hex() or "-", identifier, start, length, there, status, *places)
    return status, places


def walk(octets, start, length, depth):
    """A row for each value of a part, and for what is in it: with its own identifier, and with another."""
    while length > 0:
        identifier = octets[start]
        row(octets, identifier ^ random.choice([1, 2, 0x20, 0x40, 0x80]), start, length)
        status, places = row(octets, identifier, start, length)
        if status:
            return
        if identifier & 0x20 and depth > 0:
            walk(octets, *places[2:], depth - 1)
        start, length = places[:2]
    row(octets, random.choice(TAGS), start, 0)


def main():
    random.seed(20261126)
    walk(CERTIFICATE, 0, len(CERTIFICATE), 3)
    for identifier in range(256):
        for octets in (bytes([identifier, 0]), bytes([identifier, 2, 5, 0, 7]), bytes([identifier | 31, 31, 1, 9])):
            row(octets, identifier, 0, len(octets))
    for size in (0, 1, 127, 128, 255, 256, 65535, 65536):
        value = tlv(4, bytes(size))
        for before, behind in ((0, 0), (3, 0), (0, 3), (3, 5)):
            octets = bytes([9] * before) + value + bytes([8] * behind)
            for less in (0, behind, behind + 1):
                row(octets, 4, before, len(octets) - before - less)
    for start, length in ((0, 3), (0, 4), (1, 3), (2, 2), (3, 1), (4, 0)):
        row(b"\x30\x02\x05\x00", 0x30, start, length)
    for _ in range(4000):
        octets = bytearray(CERTIFICATE[random.randrange(200):][:random.randrange(1, 300)])
        for _ in range(random.randrange(4)):
            telling = [0, 1, 0x1F, 0x30, 0x7F, 0x80, 0x81, 0x82, 0x85, 0xFF]
            octets[random.randrange(len(octets))] = random.choice(telling)
        start = random.randrange(len(octets) + 1)
        length = random.randrange(len(octets) - start + 1)
        first = octets[start] if start < len(octets) and random.random() < 0.8 else random.choice(TAGS)
        row(bytes(octets), first, start, length)


main()
