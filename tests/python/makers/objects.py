"""Signed objects, by X.690 alone, whose parts can be changed (RFC 5652, RFC 6488 2.1)."""
import hashlib

from der import NULL, oid, parts, sequence, set_of, tlv, unsigned
from makers import chain
from makers.certificate import CERTIFICATE, SIGNED, end_entity
from makers.x509 import RSA, algorithm, time

SHA256, SHA256_NULL = (algorithm("2.16.840.1.101.3.4.2.1", more) for more in (b"", NULL))
SHA384 = algorithm("2.16.840.1.101.3.4.2.2", b"")
RSA_BARE, ECDSA = algorithm("1.2.840.113549.1.1.1", b""), algorithm("1.2.840.10045.4.3.2", b"")
SIGNED_DATA, ENVELOPED_DATA = oid("1.2.840.113549.1.7.2"), oid("1.2.840.113549.1.7.3")
CONTENT_TYPE, MESSAGE_DIGEST, SIGNING_TIME = (oid(f"1.2.840.113549.1.9.{last}") for last in (3, 4, 5))
BINARY_TIME, CAPABILITIES = oid("1.2.840.113549.1.9.16.2.46"), oid("1.2.840.113549.1.9.15")
# The types of contents: RFC 9582 3, RFC 9286 4.1, RFC 9323 4, and IANA's registry of SMIME content types.
ROA, MANIFEST, CHECKLIST, ASPA = (oid(f"1.2.840.113549.1.9.16.1.{last}") for last in (24, 26, 48, 49))
IDENTIFIER, CONTENT, SIGNATURE, WHEN = bytes(range(1, 21)), b"content", b"\xaa" * 256, "260101000000Z"


def attribute(kind, *values, more=b""):
    return sequence(tlv(6, kind), set_of(*values), more)


def of_type(kind=ROA):
    return attribute(CONTENT_TYPE, tlv(6, kind))


def of_digest(octets=hashlib.sha256(CONTENT).digest()):
    return attribute(MESSAGE_DIGEST, tlv(4, octets))


def of_time(text=WHEN):
    return attribute(SIGNING_TIME, time(text))


def of_seconds(number=1767225600):
    return attribute(BINARY_TIME, unsigned(number))


USUAL = [of_type(), of_time(), of_digest()]


def attributes(members):
    return tlv(0xA0, b"".join(members))


def signer_fields(**changes):
    """The parts of a signer, by name, in order."""
    return parts({
        "version": unsigned(3), "identifier": tlv(0x80, IDENTIFIER), "digest": SHA256, "attributes": attributes(USUAL),
        "algorithm": RSA, "signature": tlv(4, SIGNATURE), "unsigned": b"",
    }, changes)


def content_fields(**changes):
    return parts({"type": tlv(6, ROA), "content": tlv(0xA0, tlv(4, CONTENT)), "more": b""}, changes)


def data_fields(**changes):
    return parts({
        "version": unsigned(3), "digests": set_of(SHA256), "content": content_fields(),
        "certificates": tlv(0xA0, CERTIFICATE), "lists": b"", "signers": set_of(signer_fields()), "more": b"",
    }, changes)


def wrapped(data, kind=SIGNED_DATA, more=b""):
    return sequence(tlv(6, kind), tlv(0xA0, data), more)


def made(**changes):
    return wrapped(data_fields(**changes))


def signer(**changes):
    return made(signers=set_of(signer_fields(**changes)))


def content(**changes):
    return made(content=content_fields(**changes))


def of(*members):
    return signer(attributes=attributes(members))


def signed_object(kind, octets, certificate, identifier, members, signature):
    """An object of this type and content, whose signer has this certificate, identifier, attributes and signature."""
    fields = signer_fields(identifier=tlv(0x80, identifier), attributes=attributes(members),
                           signature=tlv(4, signature))
    return made(content=content_fields(type=tlv(6, kind), content=tlv(0xA0, tlv(4, octets))),
                certificates=tlv(0xA0, certificate), signers=set_of(fields))


def entity_under_anchor():
    """An anchor, and an end entity under it."""
    anchor, _, _ = chain.chain()
    entity = chain.issued("entity", 3, anchor)
    end_entity(SIGNED)(entity)
    chain.period_of(entity, "270101000000Z", "280101000000Z")
    return anchor, entity


def signed_by(key, entity, kind=ROA, octets=CONTENT, members=USUAL, identifier=None, turned=0, first=0x31):
    """An object of the end entity, signed by this key as the tests do."""
    message = bytes([first]) + attributes(members)[1:]
    stamp = hashlib.sha256(message + key.key.inside[1].inside[1:]).digest()
    return signed_object(kind, octets, entity.stamp(), identifier or chain.identifier_of(entity), members,
                         bytes([stamp[0] ^ turned]) + stamp[1:])
