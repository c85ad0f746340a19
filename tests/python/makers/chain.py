"""Chains of certificates that tests sign: keys of their own, and signatures that are the digest by SHA-256 of what is
signed and of the signer's key bits, which `hostile_calls certificate chain` finds good."""
import hashlib

from der import sequence, tlv
from lax import Value
from makers.certificate import SIGNED, Certificate, end_entity, named
from makers.x509 import AUTHORITY_ACCESS, AUTHORITY_KEY, REVOCATION, SUBJECT_KEY


def identifier_of(it):
    """The key identifier (RFC 6487 4.8.2)."""
    return hashlib.sha1(it.key.inside[1].inside[1:]).digest()


def issued(name, octet, issuer=None):
    """A certificate of a key of its own, issued by another, or by itself."""
    it = Certificate()
    bits = it.key.inside[1]
    bits.inside = bits.inside[:20] + bytes([octet]) + bits.inside[21:]
    it.signer = around = issuer or it
    it.tbs.inside[5] = it.subject = named(name)
    it.tbs.inside[3] = it.issuer = around.subject
    it.put(SUBJECT_KEY, tlv(4, identifier_of(it)))
    it.put(AUTHORITY_KEY, sequence(tlv(0x80, identifier_of(around))))
    return it


def period_of(it, first, last):
    it.validity.inside = [Value(0x17, first.encode()), Value(0x17, last.encode())]


MOMENT = "2027-06-01T00:00:00Z"


def chain():
    """An anchor, an authority, and an end entity, whose periods are the same."""
    first = issued("anchor", 1)
    first.remove(REVOCATION, AUTHORITY_ACCESS)
    second = issued("authority", 2, first)
    third = issued("entity", 3, second)
    end_entity(SIGNED)(third)
    for it in (first, second, third):
        period_of(it, "270101000000Z", "280101000000Z")
    return first, second, third
