"""Variants of certificates whose extension is there and malformed, with one kind of fault each: the error of a rule on
what the extension says is that of its octets (RFC 6487 4.8.5 to 4.8.8, X.690)."""
from der import NULL, oid, sequence, tlv
from makers.certificate import POINT, SECURE, SIGNED, end_entity, put, router
from makers.x509 import (
    AUTHORITY_ACCESS, CA_ISSUERS, MANIFEST, PURPOSES, REPOSITORY, REVOCATION, ROUTER, SUBJECT_ACCESS, accesses, names,
    point, uri,
)

ISSUER = accesses((CA_ISSUERS, uri(b"rsync://example.net/m/b.cer")))
PUBLISHED = accesses((REPOSITORY, uri(b"rsync://example.net/m/")), (MANIFEST, uri(b"rsync://example.net/m/m.mft")))


def faults(good):
    """Octets of a SEQUENCE, each with a fault of its own, and the text of the error."""
    return [
        ("no octets", b"", "truncated value"),
        ("octets that are cut", good[:-1], "truncated value"),
        ("another tag", b"\x31" + good[1:], "unexpected value"),
        ("a NULL", NULL, "unexpected value"),
        ("an indefinite length", b"\x30\x80" + good[2:] + b"\0\0", "malformed length"),
        ("a length that is not shortest", b"\x30\x81\x01\x05", "malformed length"),
        ("a value after it", good + NULL, "trailing data"),
    ]


def of_points():
    good = sequence(point(uri(POINT)))
    return faults(good) + [
        ("no point", sequence(), "truncated value"),
        ("two points", sequence(point(uri(POINT)), point(uri(POINT))), "trailing data"),
        ("a point of nothing", sequence(sequence()), "truncated value"),
        ("a point that is no SEQUENCE", sequence(NULL), "unexpected value"),
        ("no name", sequence(sequence(tlv(0xa0, b""))), "truncated value"),
        ("a name that is relative", sequence(sequence(tlv(0xa0, tlv(0xa1, b"")))), "unexpected value"),
        ("no full name", sequence(point()), "empty SEQUENCE"),
        ("a host", sequence(point(tlv(0x82, b"example.net"))), "unexpected value"),
        ("a host after a URI", sequence(point(uri(POINT), tlv(0x82, b"example.net"))), "unexpected value"),
        ("a URI beyond ASCII", sequence(point(uri(b"rsync://example.net/m/\xff"))), "malformed IA5String"),
        ("reasons", sequence(point(uri(POINT), more=tlv(0x81, b"\x01\x02"))), "trailing data"),
    ]


def of_access(good):
    method = tlv(6, oid(CA_ISSUERS))
    return faults(good) + [
        ("no description", sequence(), "empty SEQUENCE"),
        ("a description that is no SEQUENCE", sequence(NULL), "unexpected value"),
        ("a description of nothing", sequence(sequence()), "truncated value"),
        ("a method without a name", sequence(sequence(method)), "truncated value"),
        ("a name without a method", sequence(sequence(uri(SECURE))), "unexpected value"),
        ("a method that is none", sequence(sequence(tlv(6, b""), uri(SECURE))), "malformed object identifier"),
        ("a description with more", sequence(sequence(method, uri(SECURE), NULL)), "trailing data"),
    ]


def of_purposes():
    return faults(names(ROUTER)) + [
        ("no purpose", sequence(), "no key purposes"),
        ("a purpose that is none", sequence(tlv(6, b"")), "malformed object identifier"),
        ("a purpose of another tag", sequence(tlv(6, oid(ROUTER)), NULL), "unexpected value"),
    ]


def of_end_entity(octets):
    def change(it):
        end_entity(SIGNED)(it)
        it.put(SUBJECT_ACCESS, octets)
    return change


def of_router(octets):
    def change(it):
        router(it)
        it.put(PURPOSES, octets)
    return change


# The call that reads the extension, and the rules that are asked about it, by profile.
VARIANTS = [
    *((f"points: {name}", put(REVOCATION, octets), {"crl_uri": text, "inspect_ca": text})
      for name, octets, text in of_points()),
    *((f"ways to the issuer: {name}", put(AUTHORITY_ACCESS, octets), {"ca_issuer": text, "inspect_ca": text})
      for name, octets, text in of_access(ISSUER)),
    *((f"access to an authority: {name}", put(SUBJECT_ACCESS, octets),
       {"ca_repository": text, "rpki_manifest": text, "inspect_ca": text})
      for name, octets, text in of_access(PUBLISHED)),
    *((f"access to an object: {name}", of_end_entity(octets), {"signed_object": text, "inspect_ee": text})
      for name, octets, text in of_access(accesses(SIGNED))),
    *((f"purposes: {name}", of_router(octets), {"extended_key_usage": text, "inspect_router": text})
      for name, octets, text in of_purposes()),
]
