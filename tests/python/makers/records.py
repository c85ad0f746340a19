"""Contents of signed checklists (RFC 9323 4) and of trust anchor keys (RFC 9691 3.2), by X.690 alone."""
import hashlib

from der import NULL, identifier, oid, parts, sequence, tlv, unsigned
from makers import resources
from makers.x509 import RSA

CHECKLIST, ANCHOR_KEYS = (oid(f"1.2.840.113549.1.9.16.1.{last}") for last in (48, 50))
SHA256 = "2.16.840.1.101.3.4.2.1"
BARE, WITH_NULL = sequence(identifier(SHA256)), sequence(identifier(SHA256), NULL)


def ia5(text):
    return tlv(22, text if isinstance(text, bytes) else text.encode())


def file(name, octets=b"", digest=None):
    """A file of a checklist: a name, unless it is None, and a digest."""
    digest = hashlib.sha256(octets).digest() if digest is None else digest
    return sequence(b"" if name is None else ia5(name), tlv(4, digest))


def block(numbers=b"", addresses=b""):
    """Resources: what is under the tags of AS numbers and of IP addresses, each of which may be left out."""
    return sequence(tlv(0xA0, numbers) if numbers else b"", tlv(0xA1, addresses) if addresses else b"")


NUMBERS = resources.numbers(64496, (64500, 64510))
ADDRESSES = resources.addresses("192.0.2.0/24", "2001:db8::/32")


def checklist(**changes):
    usual = {"version": b"", "resources": block(NUMBERS, ADDRESSES), "algorithm": BARE,
             "files": sequence(file("a.txt", b"one"), file(None, b"two")), "more": b""}
    return parts(usual, changes)


def anchor_key(**changes):
    """A key with what a locator says of it: comments, URIs, and the key."""
    usual = {"comments": sequence(tlv(12, "of a test, ä".encode())),
             "uris": sequence(ia5("rsync://rpki.example.net/ta/ta.cer"), ia5("https://rpki.example.net/ta.cer")),
             "key": sequence(RSA, tlv(3, b"\0" + sequence(unsigned(2 ** 2047 + 1), unsigned(65537)))), "more": b""}
    return parts(usual, changes)


def anchor_keys(**changes):
    usual = {"version": b"", "current": anchor_key(), "predecessor": b"", "successor": b"", "more": b""}
    return parts(usual, changes)
