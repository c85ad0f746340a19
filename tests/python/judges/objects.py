"""The malformed part of a signed object by RFC 5652 and RFC 6488, as include/rpki.h numbers parts, and what an object
says."""
from typing import NamedTuple, Optional

from makers.objects import BINARY_TIME, CONTENT_TYPE, MESSAGE_DIGEST, SIGNED_DATA, SIGNING_TIME
from strict import CONTENT as MALFORMED
from strict import Octets, Wrong, identifier, moment, need, number, part

(OBJECT, TYPE, DATA, VERSION, DIGESTS, CONTENT, CERTIFICATES, SIGNERS, SIGNER, SIGNER_VERSION, IDENTIFIER, DIGEST,
 ATTRIBUTES, ALGORITHM, SIGNATURE) = range(123, 138)
SHA256 = bytes.fromhex("608648016503040201")
RSA = [bytes.fromhex("2a864886f70d0101") + bytes([last]) for last in (1, 11)]


class Front(NamedTuple):
    """What is before the signers: the type, the content, the certificates, and what follows."""

    kind: Octets
    content: Octets
    certificates: Octets
    following: Octets


class Attributes(NamedTuple):
    kind: bytes
    digest: bytes
    moment: Optional[int]
    binary: Optional[int]


class Signer(NamedTuple):
    """What the signer says; of the signed attributes and the signature where they are."""

    place: list
    octets: bytes
    signature: Octets
    identifier: bytes
    said: Attributes
    has_parameters: bool


def version(octets):
    need(octets.take(2).octets == b"\x03")


def algorithm(octets, names):
    """Whether an algorithm identifier, one of these, has parameters: a NULL."""
    inside = octets.take(0x30)
    need(identifier(inside).octets in names)
    has_parameters = inside.begins_with(5)
    if has_parameters:
        need(not inside.take(5).octets)
    inside.end()
    return has_parameters


def sha256(octets):
    algorithm(octets, [SHA256])


def one(octets, call, *words):
    """The one value that the octets are, as the call reads it."""
    found = call(octets, *words)
    octets.end()
    return found


def attribute(octets):
    """The type of an attribute, and its values."""
    inside = octets.take(0x30)
    return identifier(inside).octets, inside.only(0x31)


def attributes(octets, strict):
    """What the attributes say; contents are what is wrong with others than those of a signed object."""
    listed = octets.each(attribute)
    try:
        return said(listed, strict)
    except Wrong:
        raise Wrong(MALFORMED) from None


def said(listed, strict):
    """The type, the digest and the times that these attributes say, each once (RFC 6488 2.1.6.4, RFC 9589 4)."""
    found = dict(listed)
    known = {CONTENT_TYPE, MESSAGE_DIGEST, SIGNING_TIME, BINARY_TIME}
    need(len(listed) == len(found) and {CONTENT_TYPE, MESSAGE_DIGEST} <= set(found) <= known)
    kind, digest = one(found[CONTENT_TYPE], identifier).octets, found[MESSAGE_DIGEST].only(4).octets
    need(len(digest) == 32)
    when = one(found[SIGNING_TIME], moment) if SIGNING_TIME in found else None
    # Seconds of 64 bits (RFC 6019 2).
    binary = one(found[BINARY_TIME], number, 1 << 64) if BINARY_TIME in found else None
    need(not strict or when is not None and binary is None)
    return Attributes(kind, digest, when, binary)


def object_type(octets):
    need(octets.take(6).octets == SIGNED_DATA)


def digests(octets):
    sets = octets.take(0x31)
    sha256(sets)
    sets.end()


def content(octets):
    """The type and the content (RFC 5652 5.2)."""
    inside = octets.take(0x30)
    kind, found = identifier(inside), inside.take(0xA0).only(4)
    inside.end()
    return kind, found


def front(octets):
    """What is before the signers (RFC 5652 3 and 5.1)."""
    info = part(OBJECT, Octets(octets).only, 0x30)
    part(TYPE, object_type, info)
    data = part(DATA, lambda: info.only(0xA0).only(0x30))
    part(VERSION, version, data)
    part(DIGESTS, digests, data)
    kind, inside = part(CONTENT, content, data)
    return Front(kind, inside, part(CERTIFICATES, data.take, 0xA0), data)


def key_identifier(octets):
    found = octets.take(0x80).octets
    need(len(found) == 20)
    return found


def signer(octets, strict):
    """What the signer says, whose SET is there, and nothing else (RFC 5652 5.3)."""
    signers = part(SIGNERS, octets.only, 0x31)
    inside = part(SIGNER, signers.only, 0x30)
    part(SIGNER_VERSION, version, inside)
    identified = part(IDENTIFIER, key_identifier, inside)
    part(DIGEST, sha256, inside)
    first = inside.at()
    listed = part(ATTRIBUTES, inside.take, 0xA0)
    place = [first, inside.at() - first]
    said = part(ATTRIBUTES, attributes, listed, strict)
    has_parameters = part(ALGORITHM, algorithm, inside, RSA)
    signature = part(SIGNATURE, inside.only, 4)
    return Signer(place, listed.octets, signature, identified, said, has_parameters)
