"""Writes the rows of revocation lists that the test in C reads: the variants of tests/python/variants/lists.py and
lists with changed octets, each with the status of rpki_crl: the malformed part by RFC 5280 5 and RFC 6487 5, which
tests/python/judges/lists.py finds. Where that is 0 there is what the list says, and where its parts are; else what
rpki_crl_error writes, the error that is leftmost in the part by X.690.

usage: rows.py > FILE

A row is `list`, the octets in hexadecimal digits or `-`, and the status; for status 0 then the places of the signed
part, the algorithm, the signature, the issuer and the entries, each as START LENGTH; the seconds of both times; the
number and the key identifier, of twenty octets each; whether there are parameters; and the serial numbers of the
entries, of twenty octets each; for another status the number of the error. Or it is `entries`, octets, and the status
of rpki_crl_contains."""
import os
import random
import sys

sys.dont_write_bytecode = True
sys.path.append(os.path.join(os.path.dirname(os.path.abspath(__file__)), "..", "..", "python"))

from changes import changed
from der import integer, sequence, tlv, unsigned
from judges.lists import read
from makers.lists import HIGHEST, REVOKED, entry, listed
from makers.x509 import time
from strict import BAD_LENGTH, BAD_TAG, CONTENT, TRAILING, TRUNCATED, UNEXPECTED, Wrong
from variants.lists import ACCEPTED, REFUSED


# The errors of texts that readers have.
NUMBERS = {"truncated value": TRUNCATED, "malformed length": BAD_LENGTH, "unexpected value": UNEXPECTED,
           "trailing data": TRAILING}


def row(octets):
    try:
        found = read(octets)
    except Wrong as wrong:
        return f"list {octets.hex() or '-'} {wrong.status} {wrong.error}"
    words = ["list", octets.hex() or "-", 0, *sum(found.spans, []), found.this, found.following, found.number.hex(),
             found.identifier.hex(), int(found.has_parameters), *(serial.hex() for serial in found.serials)]
    return " ".join(map(str, words))


# The contents of a list of entries, and the status of a search in them.
ONE = entry(1)
ENTRIES = [
    (b"", 0), (ONE, 0), (ONE + ONE, 0), (ONE + entry(HIGHEST), 0), (ONE[:-1], TRUNCATED),
    (ONE + b"\x30", TRUNCATED), (b"\x31" + ONE[1:], UNEXPECTED),
    (ONE + b"\x05\x00", UNEXPECTED),
    (b"\x00\x00", BAD_TAG), (ONE + b"\x30\x80\x00\x00", BAD_LENGTH),
    (sequence(unsigned(1)), TRUNCATED), (entry(1, more=b"\x05\x00"), TRAILING),
    (sequence(integer(b"\x80"), time(REVOKED)), CONTENT),
    (sequence(unsigned(1), tlv(0x17, b"261301000000Z")), CONTENT),
    (sequence(time(REVOKED), unsigned(1)), UNEXPECTED),
]


def main():
    source = random.Random(6487)
    for title, octets, _ in ACCEPTED:
        assert row(octets).split(" ")[2] == "0", title
    for title, octets, expected in REFUSED:
        status, error = row(octets).split(" ")[2:]
        assert status != "0", title
        text = expected[0][len("rejected "):] if expected else None
        assert text is None or int(error) == NUMBERS.get(text, CONTENT), title
    given = [octets for _, octets, _ in ACCEPTED + REFUSED]
    many = listed(entries=sequence(*(entry(number) for number in range(1, 5000, 7))))
    for octets in [*given, many, *(changed(listed(), source) for _ in range(4000))]:
        print(row(octets))
    for octets, status in ENTRIES:
        print("entries", octets.hex() or "-", status)


if __name__ == "__main__":
    main()
