"""Writes the rows of certificates that the tests in C and in Rust read: the variants of
tests/python/variants/certificates.py, each with the status of rpki_certificate, and where that is 0 with the places of
its parts, else with what rpki_certificate_error writes, and the same of rpki_certificate_extensions. The places, and
what the extensions say, are found by tests/python/judges/certificates.py.

usage: rows.py > FILE

A row is the octets in hexadecimal digits, the status, and for status 0 the places of the signed part, the algorithm,
the signature, the issuer, the subject, the key and the extensions, each as START LENGTH; the serial number in twenty
octets; the format of the key, its unused bits, and whether there are parameters; for another status the number of the
error. After a bar are the status of the
other call and, for status 0, of each known extension whether it is there and critical, and its place as START LENGTH;
both key identifiers; whether the subject is an authority; the numbers of the use of the key and of the policy. Behind a
second bar are the statuses of rpki_certificate_inspect: of the first four profiles, strict; then the same not
strict; then of the fifth, strict and not."""
import os
import sys

sys.dont_write_bytecode = True
sys.path.append(os.path.join(os.path.dirname(os.path.abspath(__file__)), "..", "..", "python"))

from der import oid
from judges import profiles
from judges.certificates import extension_row, parts_row
from makers.certificate import Certificate, router
from variants.certificates import OTHER_PARTS, VARIANTS, WRONG_PARTS, in_place, with_attribute


def line(it, status, error, expected=()):
    octets = it.octets()
    if status:
        return f"{octets.hex()} {status} {error} | {status} | {' '.join([str(status)] * 10)}"
    told = profiles.statuses(octets)
    assert profiles.agrees(told, dict(expected)), expected
    return f"{parts_row(octets)} | {extension_row(octets)} | {' '.join(map(str, told))}"


# Names that the profiles judge otherwise, by the string of their common name and by a second attribute.
def common_name(first):
    return with_attribute(bytes([first, 1]) + b"A")


OTHER_NAMES = [
    ("an issuer with a UTF8String", in_place(3, common_name(0x0c))),
    ("a subject with a UTF8String", in_place(5, common_name(0x0c))),
    ("a subject without a common name", in_place(
        5, common_name(0x13).replace(oid("2.5.4.3"), oid("2.5.4.5")))),
]


def without_parameters(it):
    """Both algorithm identifiers have no parameters."""
    for algorithm in (it.algorithm, it.inner_algorithm):
        algorithm.inside = algorithm.inside[:1]


def changed(*changes):
    it = Certificate()
    for change in changes:
        change(it)
    return it


def main():
    for name, change, expected in VARIANTS:
        print(line(changed(change), *WRONG_PARTS.get(name, (0, 0)), expected))
    for _, change, status, error in OTHER_PARTS:
        print(line(changed(change), status, error))
    for name, change in OTHER_NAMES:
        print(line(changed(change), 0, 0))
        print(line(changed(router, change), 0, 0))
    print(line(changed(without_parameters), 0, 0))


main()
