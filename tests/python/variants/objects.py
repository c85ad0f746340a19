"""Signed objects that use or break one rule of RFC 5652, RFC 6488 or RFC 9589 each, and what the RFCs say of them."""
import hashlib

from der import NULL, integer, sequence, tlv, unsigned
from makers.certificate import CERTIFICATE, Certificate
from makers.lists import listed
from makers.objects import (
    BINARY_TIME, CAPABILITIES, CONTENT, CONTENT_TYPE, ECDSA, ENVELOPED_DATA, IDENTIFIER, MANIFEST, MESSAGE_DIGEST, ROA,
    RSA_BARE, SHA256, SHA256_NULL, SHA384, SIGNATURE, SIGNED_DATA, SIGNING_TIME, USUAL, WHEN, attribute, content,
    data_fields, made, of, of_digest, of_seconds, of_time, of_type, signer, signer_fields, wrapped,
)
from makers.x509 import SHA1_WITH_RSA, SHA256_WITH_RSA, name, seconds, time
from variants.lists import rejected


def lines(members=USUAL, kind=ROA, octets=CONTENT, signed=ROA, digest=hashlib.sha256(CONTENT).digest(), at=WHEN,
          binary=None, serial=Certificate().serial.inside, identifier=IDENTIFIER, signature=SIGNATURE):
    """The lines of an object that is read."""
    found = [("content_type", kind), ("content", octets), ("certificate", serial.rjust(20, b"\0")),
             ("signer", identifier), ("signed_content_type", signed), ("message_digest", digest)]
    told = [f"{word} {value.hex().upper()}" for word, value in found]
    told += [f"signing_time {seconds(at)}"] if at else []
    told += [f"binary_signing_time {binary}"] if binary is not None else []
    # The attributes as a SET OF (RFC 5652 5.4).
    told += [f"message {tlv(0x31, b''.join(members)).hex().upper()}", f"signature {signature.hex().upper()}"]
    return told


def of_lines(*members, **said):
    return lines(members, **said)


OTHERS = rejected("signed attributes that no signed object has")
UNEXPECTED, CUT, TRAILING = rejected("unexpected value"), rejected("truncated value"), rejected("trailing data")
OTHER_OID, OTHER_NUMBER = rejected("unexpected object identifier"), rejected("unexpected INTEGER")
LATE = "20500101000000Z"

# A name, an object, the lines that are expected, and those that are under RFC 9589.
ACCEPTED = [
    ("as it is", made(), lines(), lines()),
    ("attributes in another order", of(*USUAL[::-1]), of_lines(*USUAL[::-1]), of_lines(*USUAL[::-1])),
    ("no signing time", of(of_type(), of_digest()), of_lines(of_type(), of_digest(), at=None), OTHERS),
    ("a binary signing time too", of(*USUAL, of_seconds()), of_lines(*USUAL, of_seconds(), binary=1767225600), OTHERS),
    ("a binary signing time alone", of(of_type(), of_digest(), of_seconds(0)),
     of_lines(of_type(), of_digest(), of_seconds(0), at=None, binary=0), OTHERS),
    ("the last second of 64 bits", of(of_type(), of_digest(), of_seconds(2 ** 64 - 1)),
     of_lines(of_type(), of_digest(), of_seconds(2 ** 64 - 1), at=None, binary=2 ** 64 - 1), OTHERS),
    ("a signing time of 2050", of(of_type(), of_time(LATE), of_digest()),
     *2 * [of_lines(of_type(), of_time(LATE), of_digest(), at=LATE)]),
    ("another type", content(type=tlv(6, MANIFEST)), lines(kind=MANIFEST), lines(kind=MANIFEST)),
    ("another type that is signed", of(of_type(MANIFEST), of_time(), of_digest()),
     of_lines(of_type(MANIFEST), of_time(), of_digest(), signed=MANIFEST),
     of_lines(of_type(MANIFEST), of_time(), of_digest(), signed=MANIFEST)),
    ("another digest", of(of_type(), of_time(), of_digest(bytes(32))),
     of_lines(of_type(), of_time(), of_digest(bytes(32)), digest=bytes(32)),
     of_lines(of_type(), of_time(), of_digest(bytes(32)), digest=bytes(32))),
    ("no content octets", content(content=tlv(0xA0, tlv(4, b""))), lines(octets=b""), lines(octets=b"")),
    ("SHA-256 with a NULL", made(digests=tlv(0x31, SHA256_NULL)), lines(), lines()),
    ("the signer's SHA-256 with a NULL", signer(digest=SHA256_NULL), lines(), lines()),
    ("rsaEncryption without a NULL", signer(algorithm=RSA_BARE), lines(), lines()),
    ("sha256WithRSAEncryption", signer(algorithm=SHA256_WITH_RSA), lines(), lines()),
    ("an empty signature", signer(signature=tlv(4, b"")), lines(signature=b""), lines(signature=b"")),
]

# A name, an object, and the lines that are expected.
REFUSED = [
    ("nothing", b"", CUT),
    ("another tag", b"\x31" + made()[1:], UNEXPECTED),
    ("a primitive value", tlv(0x10, b""), UNEXPECTED),
    ("no content info, but signed data alone", data_fields(), UNEXPECTED),
    ("enveloped data", wrapped(data_fields(), ENVELOPED_DATA), OTHER_OID),
    ("signed data under no tag", sequence(tlv(6, SIGNED_DATA), data_fields()), UNEXPECTED),
    ("signed data under another tag", sequence(tlv(6, SIGNED_DATA), tlv(0xA1, data_fields())), UNEXPECTED),
    ("no signed data", sequence(tlv(6, SIGNED_DATA)), CUT),
    ("a value after the signed data", wrapped(data_fields(), more=NULL), TRAILING),
    ("a value beside the signed data", wrapped(data_fields() + NULL), TRAILING),
    ("a value after the object", made() + NULL, TRAILING),
    ("an indefinite length", b"\x30\x80" + made()[4:] + b"\0\0", rejected("malformed length")),
    ("version 1", made(version=unsigned(1)), OTHER_NUMBER),
    ("version 4", made(version=unsigned(4)), OTHER_NUMBER),
    ("a version of two octets", made(version=integer(b"\0\x03")), OTHER_NUMBER),
    ("no version", made(version=b""), UNEXPECTED),
    ("no digest algorithm", made(digests=tlv(0x31, b"")), CUT),
    ("two digest algorithms", made(digests=tlv(0x31, SHA256 + SHA384)), TRAILING),
    ("SHA-256 twice", made(digests=tlv(0x31, SHA256 + SHA256)), TRAILING),
    ("SHA-384", made(digests=tlv(0x31, SHA384)), OTHER_OID),
    ("a digest algorithm in no SET", made(digests=SHA256), UNEXPECTED),
    ("no content", made(content=b""), UNEXPECTED),
    ("no octets of the content", content(content=b""), CUT),
    ("octets of the content under no tag", content(content=tlv(4, CONTENT)), UNEXPECTED),
    ("octets of the content in pieces", content(content=tlv(0xA0, tlv(0x24, tlv(4, CONTENT)))), UNEXPECTED),
    ("two OCTET STRINGs", content(content=tlv(0xA0, tlv(4, CONTENT) + tlv(4, CONTENT))), TRAILING),
    ("a value after the content", content(more=NULL), TRAILING),
    ("a type that is none", content(type=tlv(6, b"\x2a\x80\x01")), None),
    ("no type", content(type=b""), UNEXPECTED),
    ("no certificates", made(certificates=b""), UNEXPECTED),
    ("an empty set of certificates", made(certificates=tlv(0xA0, b"")), CUT),
    ("two certificates", made(certificates=tlv(0xA0, CERTIFICATE + CERTIFICATE)), TRAILING),
    ("a certificate under no tag", made(certificates=CERTIFICATE), UNEXPECTED),
    ("a certificate that is none", made(certificates=tlv(0xA0, sequence(unsigned(1)))), None),
    ("another kind of certificate", made(certificates=tlv(0xA0, b"\xa1" + CERTIFICATE[1:])), UNEXPECTED),
    ("revocation lists", made(lists=tlv(0xA1, listed())), UNEXPECTED),
    ("an empty set of revocation lists", made(lists=tlv(0xA1, b"")), UNEXPECTED),
    ("no signers", made(signers=b""), CUT),
    ("an empty set of signers", made(signers=tlv(0x31, b"")), CUT),
    ("two signers", made(signers=tlv(0x31, signer_fields() + signer_fields())), TRAILING),
    ("a signer in no SET", made(signers=signer_fields()), UNEXPECTED),
    ("a value after the signers", made(more=NULL), TRAILING),
    ("a signer of version 1", signer(version=unsigned(1)), OTHER_NUMBER),
    ("a signer of no version", signer(version=b""), UNEXPECTED),
    ("a signer by issuer and serial number",
     signer(version=unsigned(1), identifier=sequence(name("A"), unsigned(1))), OTHER_NUMBER),
    ("a signer of version 3 by them", signer(identifier=sequence(name("A"), unsigned(1))), UNEXPECTED),
    ("an identifier of 19 octets", signer(identifier=tlv(0x80, bytes(19))), rejected("invalid key identifier")),
    ("an identifier of 21 octets", signer(identifier=tlv(0x80, bytes(21))), rejected("invalid key identifier")),
    ("an identifier in constructed form", signer(identifier=tlv(0xA0, tlv(4, IDENTIFIER))), UNEXPECTED),
    ("an identifier under no tag", signer(identifier=tlv(4, IDENTIFIER)), UNEXPECTED),
    ("a signer's SHA-384", signer(digest=SHA384), OTHER_OID),
    ("a signer's digest algorithm in a SET", signer(digest=tlv(0x31, SHA256)), UNEXPECTED),
    ("SHA-1 signatures", signer(algorithm=SHA1_WITH_RSA), rejected("invalid signature algorithm")),
    ("ECDSA", signer(algorithm=ECDSA), rejected("invalid signature algorithm")),
    ("a signature of bits", signer(signature=tlv(3, b"\0" + SIGNATURE)), UNEXPECTED),
    ("a signature in pieces", signer(signature=tlv(0x24, tlv(4, SIGNATURE))), UNEXPECTED),
    ("no signature", signer(signature=b""), CUT),
    ("unsigned attributes", signer(unsigned=tlv(0xA1, of_time())), TRAILING),
    ("an empty set of unsigned attributes", signer(unsigned=tlv(0xA1, b"")), TRAILING),
    ("no signed attributes", signer(attributes=b""), UNEXPECTED),
    ("signed attributes as a SET", signer(attributes=tlv(0x31, b"".join(USUAL))), UNEXPECTED),
    ("signed attributes in primitive form", signer(attributes=tlv(0x80, b"".join(USUAL))), UNEXPECTED),
    ("an empty set of signed attributes", of(), OTHERS),
    ("no content type", of(of_time(), of_digest()), OTHERS),
    ("no message digest", of(of_type(), of_time()), OTHERS),
    ("the content type twice", of(*USUAL, of_type()), OTHERS),
    ("two content types", of(*USUAL, of_type(MANIFEST)), OTHERS),
    ("the message digest twice", of(*USUAL, of_digest()), OTHERS),
    ("the signing time twice", of(*USUAL, of_time()), OTHERS),
    ("the binary signing time twice", of(*USUAL, of_seconds(), of_seconds()), OTHERS),
    ("another attribute", of(*USUAL, attribute(CAPABILITIES, sequence())), OTHERS),
    ("another attribute in front", of(attribute(CAPABILITIES, sequence()), *USUAL), OTHERS),
    ("a content type of no value", of(attribute(CONTENT_TYPE), of_time(), of_digest()), OTHERS),
    ("a content type of two values", of(attribute(CONTENT_TYPE, tlv(6, ROA), tlv(6, ROA)), of_time(), of_digest()),
     OTHERS),
    ("a content type that is no identifier", of(attribute(CONTENT_TYPE, tlv(4, ROA)), of_time(), of_digest()), OTHERS),
    ("a content type of nothing", of(of_type(b""), of_time(), of_digest()), OTHERS),
    ("a digest of no value", of(of_type(), of_time(), attribute(MESSAGE_DIGEST)), OTHERS),
    ("a digest of two values", of(of_type(), of_time(), attribute(MESSAGE_DIGEST, *2 * [tlv(4, bytes(32))])), OTHERS),
    ("a digest of 31 octets", of(of_type(), of_time(), of_digest(bytes(31))), OTHERS),
    ("a digest of 33 octets", of(of_type(), of_time(), of_digest(bytes(33))), OTHERS),
    ("a digest of SHA-1", of(of_type(), of_time(), of_digest(hashlib.sha1(CONTENT).digest())), OTHERS),
    ("a digest of bits", of(of_type(), of_time(), attribute(MESSAGE_DIGEST, tlv(3, bytes(33)))), OTHERS),
    ("a signing time of no value", of(of_type(), attribute(SIGNING_TIME), of_digest()), OTHERS),
    ("a signing time of two values", of(of_type(), attribute(SIGNING_TIME, time(WHEN), time(WHEN)), of_digest()),
     OTHERS),
    ("a signing time that is none", of(of_type(), attribute(SIGNING_TIME, tlv(0x17, b"261301000000Z")), of_digest()),
     OTHERS),
    ("a signing time without seconds", of(of_type(), attribute(SIGNING_TIME, tlv(0x17, b"2601010000Z")), of_digest()),
     OTHERS),
    ("a binary signing time of no value", of(*USUAL, attribute(BINARY_TIME)), OTHERS),
    ("a binary signing time below 0", of(*USUAL, attribute(BINARY_TIME, integer(b"\x80"))), OTHERS),
    ("a binary signing time of 2^64", of(*USUAL, of_seconds(2 ** 64)), OTHERS),
    ("a binary signing time that is not shortest", of(*USUAL, attribute(BINARY_TIME, integer(b"\0\x01"))), OTHERS),
    ("an attribute without values", of(sequence(tlv(6, CONTENT_TYPE)), of_time(), of_digest()), CUT),
    ("an attribute of a SEQUENCE of values",
     of(sequence(tlv(6, CONTENT_TYPE), sequence(tlv(6, ROA))), of_time(), of_digest()), UNEXPECTED),
    ("an attribute with more", of(attribute(CONTENT_TYPE, tlv(6, ROA), more=NULL), of_time(), of_digest()), TRAILING),
    ("an attribute that is no SEQUENCE", of(*USUAL, NULL), UNEXPECTED),
    ("the later of two faults", of(attribute(CAPABILITIES, sequence()), *USUAL, NULL), UNEXPECTED),
    ("an attribute of no type", of(*USUAL, sequence(tlv(0x31, b""))), UNEXPECTED),
]
