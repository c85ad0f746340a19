"""Revocation lists, by X.690 alone, whose parts can be changed (RFC 5280 5)."""
import hashlib

from der import bits, parts, sequence, tlv, unsigned
from makers import chain
from makers.x509 import AUTHORITY_KEY, CRL_NUMBER, SHA256_WITH_RSA, extension, name, signed, time

IDENTIFIER = bytes(range(1, 21))
THIS, NEXT, REVOKED = "260101000000Z", "260201000000Z", "251231235959Z"
HIGHEST = (1 << 159) - 1


def entry(number, date=REVOKED, more=b""):
    return sequence(unsigned(number), time(date), more)


def authority(octets=IDENTIFIER, critical=b"", more=b""):
    return extension(AUTHORITY_KEY, sequence(tlv(0x80, octets), more), critical)


def number(value=unsigned(7), critical=b""):
    return extension(CRL_NUMBER, value, critical)


EXTENSIONS = [authority(), number()]


def extensions(members):
    return tlv(0xA0, sequence(*members))


def fields(**changed):
    """The parts of what is signed, by name, in order."""
    return parts({
        "version": unsigned(1), "algorithm": SHA256_WITH_RSA, "issuer": name("A"), "this": time(THIS),
        "next": time(NEXT), "entries": sequence(entry(5), entry(300)), "extensions": extensions(EXTENSIONS),
        "more": b"",
    }, changed)


def listed(**changed):
    return signed(fields(**changed))


def of(members):
    return listed(extensions=extensions(members))


def issued(by, signer=None, identifier=None, turned=0, **changed):
    """A list of this authority, signed as the tests do by its key, or by that of another; bits of the signature may be
    turned."""
    usual = {"issuer": by.subject.octets(), "this": time("270101000000Z"), "next": time("270701000000Z")}
    if identifier is None:
        identifier = chain.identifier_of(by)
    data = fields(extensions=extensions([authority(identifier), number()]), **{**usual, **changed})
    bits_of_key = (signer or by).key.inside[1].inside[1:]
    stamp = hashlib.sha256(data + bits_of_key).digest()
    return signed(data, signature=bits(bytes([stamp[0] ^ turned]) + stamp[1:]))
