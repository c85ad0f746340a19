"""Revocation lists that use or break one rule of RFC 5280 5 or RFC 6487 5 each, and what the RFCs say of them."""
from der import FALSE, TRUE, bits, identifier, integer, sequence, tlv, unsigned
from makers.lists import (
    EXTENSIONS, HIGHEST, IDENTIFIER, NEXT, REVOKED, THIS, authority, entry, fields, listed, number, of,
)
from makers.x509 import (
    AUTHORITY_KEY, CRL_NUMBER, ISSUING_POINT, NO_PARAMETERS, SHA1_WITH_RSA, SHA256_WITH_RSA, extension, name, seconds,
    signed, time,
)


def lines(issuer=name("A"), this=THIS, next=NEXT, identifier=IDENTIFIER, crl_number=7,
          entries=((5, REVOKED), (300, REVOKED))):
    found = [f"issuer {issuer.hex().upper()}", f"this_update {seconds(this)}", f"next_update {seconds(next)}"]
    found += [f"authority_key_identifier {identifier.hex().upper()}", f"crl_number {crl_number:040X}"]
    for serial, date in entries:
        found += [f"revoked {serial:040X}", f"at {seconds(date)}"]
    return found


def rejected(text):
    return [f"rejected {text}"]


# Dates of entries: the last second of both centuries of UTC time, a leap day, and both forms of others.
DATES = "991231235959Z", "491231235959Z", "240229000000Z", "20500101000000Z", "20251231235959Z"
NO_DATES = ["250229000000Z", "260431000000Z", "261301000000Z", "260001000000Z", "260100000000Z", "260101240000Z",
            "260101006000Z", "260101000060Z", "260101000000z", "26010100000Z0", "2 0101000000Z"]

OTHERS = rejected("extensions that no revocation list has")

# A name, a list, and the lines that are expected.
ACCEPTED = [
    ("as it is", listed(), lines()),
    ("without the list of entries", listed(entries=b""), lines(entries=())),
    ("with an empty one, as some authorities write it", listed(entries=sequence()), lines(entries=())),
    ("one entry", listed(entries=sequence(entry(1))), lines(entries=((1, REVOKED),))),
    ("an entry twice", listed(entries=sequence(entry(1), entry(1))), lines(entries=((1, REVOKED), (1, REVOKED)))),
    ("entries that do not ascend", listed(entries=sequence(entry(9), entry(1))),
     lines(entries=((9, REVOKED), (1, REVOKED)))),
    ("the highest serial number", listed(entries=sequence(entry(HIGHEST))), lines(entries=((HIGHEST, REVOKED),))),
    ("the number 0", listed(entries=sequence(entry(0))), lines(entries=((0, REVOKED),))),
    ("a number with a zero octet in front", listed(entries=sequence(entry(128))), lines(entries=((128, REVOKED),))),
    *((f"an entry of the date {date}", listed(entries=sequence(entry(1, date), entry(2))),
       lines(entries=((1, date), (2, REVOKED)))) for date in DATES),
    ("the number first", of([number(), authority()]), lines()),
    ("the number 0", of([authority(), number(unsigned(0))]), lines(crl_number=0)),
    ("the highest number", of([authority(), number(unsigned(HIGHEST))]), lines(crl_number=HIGHEST)),
    ("FALSE, spelled, as the library takes it", of([authority(critical=FALSE), number()]), lines()),
    ("times from 2050 on", listed(next=time("20500101000000Z")), lines(next="20500101000000Z")),
    ("no parameters of the algorithm", signed(fields(algorithm=NO_PARAMETERS), NO_PARAMETERS), lines()),
    ("a list that was due before it was issued", listed(next=time("250101000000Z")), lines(next="250101000000Z")),
]

REFUSED = [
    ("nothing", b"", rejected("truncated value")),
    ("another tag", b"\x31" + listed()[1:], rejected("unexpected value")),
    ("version 1, which is left out", listed(version=b""), rejected("unexpected value")),
    ("version 1, spelled", listed(version=unsigned(0)), rejected("unexpected INTEGER")),
    ("version 3", listed(version=unsigned(2)), rejected("unexpected INTEGER")),
    ("a version of two octets", listed(version=integer(b"\x00\x01")), rejected("unexpected INTEGER")),
    ("a version under a tag", listed(version=tlv(0xA0, unsigned(1))), rejected("unexpected value")),
    ("SHA-1", signed(fields(algorithm=SHA1_WITH_RSA), SHA1_WITH_RSA), rejected("unexpected object identifier")),
    ("SHA-1 inside", listed(algorithm=SHA1_WITH_RSA), rejected("unexpected object identifier")),
    ("algorithms that differ", listed(algorithm=NO_PARAMETERS), rejected("signature algorithms differ")),
    ("a signature with unused bits", signed(fields(), signature=bits(b"\xaa\x00", 1)),
     rejected("signature has unused bits")),
    ("no issuer", listed(issuer=b""), rejected("unexpected value")),
    ("no time", listed(this=b"", next=b""), rejected("unexpected value")),
    ("a time that is none", listed(this=tlv(0x17, b"261301000000Z")), None),
    ("a time without seconds", listed(this=tlv(0x17, b"2601010000Z")), None),
    ("entries that are no SEQUENCE", listed(entries=tlv(0x31, entry(1))), rejected("unexpected value")),
    ("an entry that is none", listed(entries=sequence(unsigned(1))), rejected("unexpected value")),
    ("an entry with extensions", listed(entries=sequence(entry(1, more=sequence(extension(CRL_NUMBER, b""))))),
     rejected("trailing data")),
    ("an entry without a date", listed(entries=sequence(sequence(unsigned(1)))), rejected("truncated value")),
    ("an entry without a number", listed(entries=sequence(sequence(time(REVOKED)))), rejected("unexpected value")),
    *((f"an entry of the date {date}", listed(entries=sequence(entry(1, date), entry(2))),
       rejected("malformed time value")) for date in NO_DATES),
    ("an entry whose date has no time", listed(entries=sequence(sequence(unsigned(1), tlv(0x17, b"")))),
     rejected("malformed time value")),
    ("an entry whose date has another tag",
     listed(entries=sequence(sequence(unsigned(1), tlv(0x16, REVOKED.encode())))), rejected("malformed time value")),
    ("a serial number without octets", listed(entries=sequence(sequence(integer(b""), time(REVOKED)))),
     rejected("malformed INTEGER")),
    ("a serial number below 0", listed(entries=sequence(sequence(integer(b"\x80"), time(REVOKED)))),
     rejected("malformed INTEGER")),
    ("a serial number of 21 octets", listed(entries=sequence(sequence(integer(b"\x01" + bytes(20)), time(REVOKED)))),
     rejected("serial number longer than 20 bytes")),
    ("a serial number that is not shortest", listed(entries=sequence(sequence(integer(b"\x00\x01"), time(REVOKED)))),
     rejected("malformed INTEGER")),
    ("no extensions", listed(extensions=b""), rejected("truncated value")),
    ("extensions under another tag", listed(extensions=tlv(0xA1, sequence(*EXTENSIONS))), rejected("unexpected value")),
    ("extensions in primitive form", listed(extensions=tlv(0x80, sequence(*EXTENSIONS))), rejected("unexpected value")),
    ("an empty list of extensions", of([]), OTHERS),
    ("an authority key identifier alone", of([authority()]), OTHERS),
    ("a number alone", of([number()]), OTHERS),
    ("an authority key identifier twice", of([authority(), authority()]), OTHERS),
    ("a number twice", of([number(), number()]), OTHERS),
    ("a third extension", of([*EXTENSIONS, extension(ISSUING_POINT, sequence())]), OTHERS),
    ("a third extension between the two", of([authority(), extension(ISSUING_POINT, sequence()), number()]), OTHERS),
    ("the number twice beside the other", of([authority(), number(), number()]), OTHERS),
    ("another extension in place of the number", of([authority(), extension(ISSUING_POINT, unsigned(7))]), OTHERS),
    ("a critical authority key identifier", of([authority(critical=TRUE), number()]), OTHERS),
    ("a critical number", of([authority(), number(critical=TRUE)]), OTHERS),
    ("an identifier of 19 octets", of([authority(bytes(19)), number()]), OTHERS),
    ("an identifier of 21 octets", of([authority(bytes(21)), number()]), OTHERS),
    ("an identifier with the issuer's serial number", of([authority(more=tlv(0x82, b"\x01")), number()]), OTHERS),
    ("an authority key identifier of nothing", of([extension(AUTHORITY_KEY, sequence()), number()]), OTHERS),
    ("a value after the identifier",
     of([extension(AUTHORITY_KEY, sequence(tlv(0x80, IDENTIFIER)) + b"\x05\x00"), number()]), OTHERS),
    ("a number below 0", of([authority(), number(integer(b"\x80"))]), OTHERS),
    ("a number of 21 octets", of([authority(), number(integer(b"\x01" + bytes(20)))]), OTHERS),
    ("a number of nothing", of([authority(), number(b"")]), OTHERS),
    ("two numbers in one", of([authority(), number(unsigned(1) + unsigned(2))]), OTHERS),
    ("an extension that is none", of([authority(), sequence(identifier(CRL_NUMBER))]), rejected("truncated value")),
    ("a value after the extensions", listed(more=b"\x05\x00"), rejected("trailing data")),
    ("a value after their list", listed(extensions=tlv(0xA0, sequence(*EXTENSIONS) + b"\x05\x00")),
     rejected("trailing data")),
    ("a value after what is signed", sequence(fields(), SHA256_WITH_RSA, bits(b"\xaa"), b"\x05\x00"),
     rejected("trailing data")),
    ("a value after the list", listed() + b"\x05\x00", rejected("trailing data")),
    ("the entries after the extensions", listed(entries=b"", more=sequence(entry(5))), rejected("trailing data")),
    ("an indefinite length", b"\x30\x80" + listed()[4:] + b"\x00\x00", rejected("malformed length")),
]
