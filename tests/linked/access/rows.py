"""Writes the rows of access descriptions, general names and CRL distribution points that the test in C reads: each form
that a general name has (RFC 5280 4.2.1.6), what is near to one, and octets that were changed. Statuses and places are
found by tests/python/judges/access.py.

usage: rows.py > FILE

A row is `access`, `name` or `point`, the octets in hexadecimal digits or `-`, and the status; for status 0 then, of a
description, the place of the identifier and that of the URI as START LENGTH, the size, the method and whether there is
a URI; of a name the place of the URI, the size, and whether there is one; of a point the place of the names."""
import os
import random
import sys

sys.dont_write_bytecode = True
sys.path.append(os.path.join(os.path.dirname(os.path.abspath(__file__)), "..", "..", "python"))

from changes import changed
from der import sequence, tlv
from judges.access import ARC, METHODS, access, name, point
from makers.x509 import uri
from strict import status_of

READERS = {"access": access, "name": name, "point": point}


def row(kind, octets):
    status, found = status_of(READERS[kind], octets)
    return " ".join(map(str, [kind, octets.hex() or "-", status, *(found or [])]))


def method(last):
    return tlv(6, ARC + bytes([last]))


COMMON_NAME = sequence(tlv(6, bytes([85, 4, 3])), tlv(0x13, b"A"))
NAME = sequence(tlv(0x31, COMMON_NAME))
REPOSITORY, NOTIFICATION = b"rsync://a.example/m/b/", b"https://a.example/n.xml"
NAMES = [
    uri(REPOSITORY), uri(NOTIFICATION), uri(b""), uri(b"a" * 127), uri(b"a" * 128), uri(b"a" * 70000), uri(b"\x7f"),
    tlv(0xA0, tlv(6, bytes([42, 3])) + tlv(0xA0, tlv(12, b"a"))), tlv(0xA0, b""), tlv(0x81, b"a@b.example"),
    tlv(0x82, b"b.example"), tlv(0x82, b""), tlv(0xA3, sequence()), tlv(0xA4, NAME),
    tlv(0xA5, tlv(0xA1, tlv(12, b"b"))), tlv(0x87, bytes(4)), tlv(0x87, bytes(16)), tlv(0x88, bytes([42, 3])),
    tlv(0xA4, sequence(tlv(0x31, COMMON_NAME + COMMON_NAME), tlv(0x31, COMMON_NAME))),
]
NO_NAMES = [
    b"", uri(b"\x80"), uri("ü".encode()), tlv(0xA6, REPOSITORY), tlv(0xA6, uri(REPOSITORY)), tlv(6, REPOSITORY),
    tlv(0x16, REPOSITORY), tlv(0x46, REPOSITORY), tlv(0xC6, REPOSITORY), tlv(0x80, b""), tlv(0x83, b""),
    tlv(0x84, NAME), tlv(0x85, b""), tlv(0x89, b"a"), tlv(0xA9, b""), tlv(0xA1, b""), tlv(0xA2, b""),
    tlv(0xA7, bytes(4)), tlv(0xA8, b""), tlv(0x81, b"\xff"), tlv(0x82, b"\x80"), tlv(0x87, bytes(3)),
    tlv(0x87, bytes(5)), tlv(0x87, b""), tlv(0x88, b""), tlv(0x88, b"\x2a\x80"), tlv(0x88, b"\x2a\x80\x01"),
    tlv(0xA0, b"\x30"), tlv(0xA0, tlv(0x30, b"\x30\x05\x00")), tlv(0xA3, b"\x00\x00"), tlv(0xA4, b""),
    tlv(0xA4, sequence()), tlv(0xA4, NAME + NAME), tlv(0xA4, sequence(tlv(0x31, b""))),
    tlv(0xA4, tlv(0x31, COMMON_NAME)), tlv(0xA4, COMMON_NAME),
    tlv(0xA4, sequence(tlv(0x31, sequence(tlv(6, bytes([85, 4, 3])))))), b"\x86\x80", b"\x86\x81\x05aaaaa",
    b"\x86\x05a", b"\x9f\x06\x01a", b"\x9f\x1f\x01a", b"\x00\x00", b"\x86", b"\x05\x00", b"\x82\x03a",
    b"\x82\x80\x00\x00",
]
DESCRIPTIONS = [
    *(sequence(method(last), uri(REPOSITORY)) for last in range(1, 20)),
    sequence(tlv(6, bytes([42, 3])), uri(REPOSITORY)), *(sequence(method(5), name) for name in NAMES),
    *(sequence(tlv(6, ARC[:-1] + bytes([49, last])), uri(b"a")) for last in METHODS),
    *(sequence(tlv(6, ARC + bytes([last]) + b"\x05"), uri(b"a")) for last in METHODS),
    sequence(tlv(6, b"\x05"), uri(b"a")),
]
NO_DESCRIPTIONS = [
    b"", sequence(), sequence(method(5)), sequence(uri(REPOSITORY), method(5)),
    sequence(method(5), uri(b"a"), tlv(5, b"")), *(sequence(method(5), name) for name in NO_NAMES),
    tlv(0x31, method(5) + uri(b"a")), tlv(0xB0, method(5) + uri(b"a")), sequence(tlv(6, b""), uri(b"a")),
    sequence(tlv(6, b"\x80\x01"), uri(b"a")), sequence(tlv(6, b"\x2b\x86"), uri(b"a")),
    sequence(tlv(0x26, ARC), uri(b"a")), sequence(sequence(method(5), uri(b"a"))), b"\x30\x80", b"\x30\x05\x06\x01",
    b"\x30",
]


def full(names, first=0xA0):
    return sequence(sequence(tlv(0xA0, tlv(first, names))))


POINTS = [full(uri(REPOSITORY)), full(uri(REPOSITORY) + uri(NOTIFICATION)), full(b""), full(b"\x00"),
          full(tlv(0x82, b"a") * 9000)]
NO_POINTS = [
    b"", sequence(), sequence(sequence()), sequence(sequence(tlv(0xA0, b""))), full(uri(b"a")) + b"\x00",
    full(uri(b"a"), 0x80), full(uri(b"a"), 0xA1), sequence(sequence(tlv(0x80, tlv(0xA0, uri(b"a"))))),
    sequence(sequence(tlv(0xA2, tlv(0xA0, uri(b"a"))))),
    sequence(sequence(tlv(0xA0, tlv(0xA0, uri(b"a")) + tlv(0xA0, uri(b"a"))))),
    sequence(sequence(tlv(0xA0, tlv(0xA0, uri(b"a"))) + tlv(0x81, b"\x01\x06"))),
    sequence(sequence(tlv(0xA0, tlv(0xA0, uri(b"a")))) + sequence(tlv(0xA0, tlv(0xA0, uri(b"a"))))),
    sequence(sequence(tlv(0xA2, NAME) + tlv(0xA0, tlv(0xA0, uri(b"a"))))),
    tlv(0x31, sequence(tlv(0xA0, tlv(0xA0, uri(b"a"))))), sequence(tlv(0x31, tlv(0xA0, tlv(0xA0, uri(b"a"))))),
    full(uri(b"a"))[:-1], b"\x30\x80", sequence(b"\x30\x05\xa0\x01"),
]


def main():
    source = random.Random(5280)
    every = {"access": (DESCRIPTIONS, NO_DESCRIPTIONS), "name": (NAMES, NO_NAMES), "point": (POINTS, NO_POINTS)}
    for kind, (good, bad) in every.items():
        for octets in good:
            assert row(kind, octets).split(" ")[2] == "0", (kind, octets.hex())
            print(row(kind, octets))
        for octets in bad:
            assert row(kind, octets).split(" ")[2] != "0", (kind, octets.hex())
            print(row(kind, octets))
        # What follows a description or a name is not looked at.
        if kind != "point":
            for octets in good:
                print(row(kind, octets + source.choice([b"\x00", b"\x30", octets, b"\xff" * 9])))
        short = [octets for octets in good if len(octets) < 200]
        for octets in short:
            for size in range(len(octets)):
                print(row(kind, octets[:size]))
        for _ in range(3000):
            print(row(kind, changed(source.choice(short), source)))


main()
