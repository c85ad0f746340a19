"""The malformed part of a revocation list by RFC 5280 5 and RFC 6487 5, as include/rpki.h numbers parts, with the error
that is leftmost in it by X.690; and what a list says."""
from typing import NamedTuple

from judges.names import name
from strict import CONTENT, UNEXPECTED, Octets, Wrong, identifier, moment, need, part, serial

AROUND, SIGNED, ALGORITHM, SIGNATURE, TBS, VERSION, TBS_ALGORITHM, ISSUER = 64, 65, 66, 67, 68, 69, 71, 72
EXTENSIONS, SAME_ALGORITHM, THIS_UPDATE, NEXT_UPDATE, REVOKED = 76, 79, 120, 121, 122
SHA256_WITH_RSA = bytes.fromhex("2a864886f70d01010b")
SEQUENCE = (0, True, 16)
AUTHORITY_KEY, CRL_NUMBER = bytes.fromhex("551d23"), bytes.fromhex("551d14")


class Listing(NamedTuple):
    """What a list says, and where its parts are, each as its start and its length."""

    spans: list
    this: int
    following: int
    number: bytes
    identifier: bytes
    has_parameters: bool
    serials: list


def algorithm(octets):
    """Whether the algorithm identifier has parameters (RFC 7935 2)."""
    inside = octets.take(0x30)
    need(identifier(inside).octets == SHA256_WITH_RSA)
    has_parameters = inside.begins_with(5)
    need(not has_parameters or inside.take(5).octets == b"")
    inside.end()
    return has_parameters


def entry(octets):
    """The serial number of a revoked certificate."""
    inside = octets.take(0x30)
    number = serial(inside)
    moment(inside)
    inside.end()
    return number


def revoked(octets):
    """The span of the entries, and their serial numbers."""
    if not octets.begins_with(0x10):
        return [octets.at(), 0], []
    entries = octets.take(0x30)
    return entries.span(), entries.each(entry)


def extension(octets):
    """The identifier of an extension, whether it is critical, and its octets."""
    inside = octets.take(0x30)
    kind = identifier(inside).octets
    critical = inside.take(1).octets if inside.begins_with(1) else b"\x00"
    need(critical in (b"\x00", b"\xff"))
    return kind, critical != b"\x00", inside.only(4)


def number_and_key(listed):
    """What the extensions of a list say: two, in either order, neither critical (RFC 6487 5)."""
    found = {kind: octets for kind, critical, octets in listed if not critical}
    need(len(listed) == 2 and set(found) == {AUTHORITY_KEY, CRL_NUMBER})
    key = found[AUTHORITY_KEY].only(0x30).only(0x80).octets
    need(len(key) == 20)
    number = serial(found[CRL_NUMBER])
    found[CRL_NUMBER].end()
    return number, key


def extensions(octets):
    """The number and the key identifier. Whatever is wrong with what extensions say is an error of contents."""
    tagged = octets.take(0xA0)
    listed = tagged.take(0x30).each(extension)
    try:
        found = number_and_key(listed)
    except Wrong:
        raise Wrong(CONTENT) from None
    tagged.end()
    octets.end()
    return found


def signature(octets):
    """The span of the bits of the signature."""
    bits = octets.take(3)
    unused, value = int.from_bytes(bits.octets[:1], "big"), bits.octets[1:]
    need(bits.octets != b"" and unused < 8 and not int.from_bytes(value[-1:], "big") & ((1 << unused) - 1))
    need(value or not unused)
    octets.end()
    need(not unused)
    return [bits.start + 1, len(value)]


def version(octets):
    need(octets.take(2).octets == b"\x01")


def span_of(octets, number, call):
    """The span of a part that the call reads, and what it returns."""
    first = octets.at()
    found = part(number, call, octets)
    return [first, octets.at() - first], found


def read(octets):
    """What a list says."""
    whole = part(AROUND, Octets(octets).only, 0x30)
    data, (tag, tbs) = span_of(whole, SIGNED, Octets.nested)
    outer, has_parameters = span_of(whole, ALGORITHM, algorithm)
    bits = part(SIGNATURE, signature, whole)
    part(TBS, need, tag == SEQUENCE, UNEXPECTED)
    part(VERSION, version, tbs)
    inner = part(TBS_ALGORITHM, algorithm, tbs)
    issuer, _ = span_of(tbs, ISSUER, name)
    this, following = part(THIS_UPDATE, moment, tbs), part(NEXT_UPDATE, moment, tbs)
    entries, serials = part(REVOKED, revoked, tbs)
    number, key = part(EXTENSIONS, extensions, tbs)
    part(SAME_ALGORITHM, need, inner == has_parameters)
    return Listing([data, outer, bits, issuer, entries], this, following, number, key, has_parameters, serials)
