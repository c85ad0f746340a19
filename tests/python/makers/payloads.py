"""What signed objects contain: manifests (RFC 9286 4.2), route origin attestations (RFC 9582 4) and attestations of
providers (ASPA, version 1), by X.690 alone."""
import hashlib

from der import bits, identifier, sequence, tlv, unsigned
from makers import resources
from makers.x509 import time

SHA256 = identifier("2.16.840.1.101.3.4.2.1")
THIS, NEXT = "20260101000000Z", "20260201000000Z"
FAMILIES = {4: b"\x00\x01", 6: b"\x00\x02"}


def file(name, octets):
    return sequence(tlv(22, name.encode()), bits(hashlib.sha256(octets).digest()))


def manifest(files, number=7, this=THIS, until=NEXT):
    return sequence(unsigned(number), time(this), time(until), SHA256, sequence(*files))


def prefix(text, most=None):
    """A prefix, and perhaps a maximum length."""
    return sequence(resources.prefix(text), unsigned(most) if most is not None else b"")


def family(version, prefixes):
    return sequence(tlv(4, FAMILIES[version]), sequence(*(prefix(*one) for one in prefixes)))


def roa(number, *families):
    return sequence(unsigned(number), sequence(*families))


def aspa(customer, providers):
    return sequence(tlv(0xA0, unsigned(1)), unsigned(customer), sequence(*(unsigned(one) for one in providers)))
